//! How many sheets came out in which way.

use sheets::limits::PRINTING;
use std::fmt;
use std::ops::{AddAssign, Index};

/// What both sides came to.
#[derive(Clone, Copy, Debug, PartialEq, Eq)]
pub enum Outcome {
    Passed,
    /// Passed, and not every query that is analysed is placed.
    Unplaced,
    Refused(u16),
    /// The original did not finish, so that there is nothing to compare with.
    TooLong,
    /// There is no original to compare with.
    Alone,
}

/// The largest number of a refusal.
const MOST: usize = 14;

impl Outcome {
    /// Passed is 0, and a refusal its number.
    fn index(self) -> usize {
        match self {
            Outcome::Passed => 0,
            Outcome::Refused(number) => usize::from(number),
            Outcome::Unplaced => MOST + 1,
            Outcome::TooLong => MOST + 2,
            Outcome::Alone => MOST + 3,
        }
    }
}

#[derive(Clone, Copy, Debug, Default, PartialEq, Eq)]
pub struct Tally {
    counts: [usize; MOST + 4],
    /// Sheets with more names than the printing program takes, as far as they were looked at.
    pub many_names: usize,
}

impl Tally {
    pub fn all(&self) -> usize {
        self.counts.iter().sum()
    }

    pub fn of(&self, outcome: Outcome) -> usize {
        self.counts[outcome.index()]
    }

    /// How many sheets there was something to compare with for.
    pub fn equal(&self) -> usize {
        self.all() - self.of(Outcome::TooLong) - self.of(Outcome::Alone)
    }

    pub fn count(&mut self, outcome: Outcome) {
        self.counts[outcome.index()] += 1;
    }

    /// Looks at the names of a sheet: the lines of its first section.
    pub fn count_names(&mut self, sheet: &[u8]) {
        let lines = sheet.split(|&byte| byte == b'\n').skip(1);
        let names = lines.take_while(|line| !line.is_empty()).count();
        self.many_names += usize::from(names > PRINTING.names);
    }
}

/// By the number of a refusal; 0 is a sheet that passes.
impl Index<usize> for Tally {
    type Output = usize;

    fn index(&self, number: usize) -> &usize {
        &self.counts[..=MOST][number]
    }
}

impl AddAssign for Tally {
    fn add_assign(&mut self, other: Tally) {
        for (count, more) in self.counts.iter_mut().zip(other.counts) {
            *count += more;
        }
        self.many_names += other.many_names;
    }
}

impl fmt::Display for Tally {
    fn fmt(&self, f: &mut fmt::Formatter<'_>) -> fmt::Result {
        write!(f, "{:9} equal;", self.equal())?;
        let part = |f: &mut fmt::Formatter<'_>, label: &str, count: usize| {
            let share = 100.0 * count as f64 / self.all().max(1) as f64;
            match count {
                0 => Ok(()),
                _ => write!(f, " {label} {count} ({share:.1}%)"),
            }
        };
        part(f, "passed", self.of(Outcome::Passed))?;
        part(f, "unplaced", self.of(Outcome::Unplaced))?;
        for number in 1..=MOST {
            part(f, &format!("{number}:"), self[number])?;
        }
        part(f, "too long", self.of(Outcome::TooLong))?;
        part(f, "without the original", self.of(Outcome::Alone))?;
        part(f, "over 127 names:", self.many_names)
    }
}
