//! Lent buffers: full of garbage before each call, every element compared after it, and what
//! stands around them too.

use super::{Call, Difference, Due, Lengths, Outcome};
use nokchbem::Refusal;
use sheets::rng::Rng;
use std::fmt::Display;
use std::marker::PhantomData;
use std::ops::{BitOr, Range};

/// Garbage starts at one of so many places in a longer stretch, so that no two calls in a row find
/// the same.
const SHIFTS: usize = 61;

/// How many entries of a buffer's own stretch stand on each side of what is lent.
const AROUND: usize = 24;

/// The buffers of one call after the other.
pub struct Lent<C> {
    tables: Buffer<u16>,
    work: Buffer<u64>,
    answer: Buffer<u8>,
    calls: usize,
    call: PhantomData<C>,
}

impl<C: Call> Lent<C> {
    pub fn new(lengths: Lengths) -> Lent<C> {
        let mut rng = Rng::new(5);
        Lent {
            tables: Buffer::new(lengths.tables, || garbage(&mut rng) as u16),
            work: Buffer::new(lengths.work, || garbage(&mut rng)),
            answer: Buffer::new(lengths.answer, || garbage(&mut rng) as u8),
            calls: 0,
            call: PhantomData,
        }
    }

    fn lengths(&self) -> Lengths {
        Lengths {
            tables: self.tables.lent().len(),
            work: self.work.lent().len(),
            answer: self.answer.lent().len(),
        }
    }

    /// What both came to.
    pub fn compare(&mut self, sheet: &[u8]) -> Result<Outcome, Difference> {
        let due = C::due(sheet, self.lengths());
        self.compare_with(sheet, &due)
    }

    /// The proved call beside what is due.
    pub fn compare_with(&mut self, sheet: &[u8], due: &Due) -> Result<Outcome, Difference> {
        let from = self.calls % SHIFTS;
        self.calls += 1;
        self.tables.fill(from);
        self.work.fill(from);
        self.answer.fill(from);
        let result = C::call(
            sheet,
            self.tables.lent_mut(),
            self.work.lent_mut(),
            self.answer.lent_mut(),
        );
        match self.difference(result, due, from) {
            None => Ok(due.outcome),
            Some(found) => Err(Difference {
                sheet: sheet.to_vec(),
                lengths: self.lengths(),
                found,
            }),
        }
    }

    fn difference(&self, result: Result<(), Refusal>, due: &Due, from: usize) -> Option<String> {
        if due.result.is_some_and(|due| due != result) {
            return Some(format!("proved {result:?}, due {:?}", due.result));
        }
        let answer = match (due.result, result) {
            (None, Err(refusal)) if refusal.number < 7 => {
                return Some(format!(
                    "proved {refusal}, though the plain reader passes it"
                ));
            }
            (None, Ok(())) => {
                let text = self.answer.lent();
                if !C::well_formed(text) {
                    let text = text.escape_ascii();
                    return Some(format!("{result:?}, but this is no answer: {text}"));
                }
                text
            }
            _ => &due.answer,
        };
        let tables = self.tables.difference(&due.tables, from);
        let work = self.work.difference(&[], from);
        let found = if let Some(found) = tables {
            format!("tables: {found}")
        } else if let Some(found) = work {
            format!("work: {found}")
        } else {
            let found = self.answer.difference(answer, from)?;
            let [left, due] = [self.answer.lent(), answer].map(text);
            format!("answer: {found}; left is\n{left}where due is\n{due}")
        };
        Some(format!("{result:?} as is due, but {found}"))
    }
}

/// What stands before the first zero.
fn text(answer: &[u8]) -> String {
    let text = answer.split(|&byte| byte == 0).next();
    String::from_utf8_lossy(text.unwrap_or_default()).into_owned()
}

/// Never 0, and mostly a number that a row could hold: stale numbers would be believed.
fn garbage(rng: &mut Rng) -> u64 {
    if rng.percent(75) {
        rng.between(1, 40) as u64
    } else {
        rng.bits() | 1
    }
}

/// A lent buffer within a longer one.
struct Buffer<T> {
    whole: Vec<T>,
    garbage: Vec<T>,
}

impl<T: Copy + Default + PartialEq + Display + BitOr<Output = T>> Buffer<T> {
    fn new(length: usize, mut garbage: impl FnMut() -> T) -> Buffer<T> {
        let whole = length + 2 * AROUND;
        Buffer {
            whole: vec![T::default(); whole],
            garbage: (0..whole + SHIFTS).map(|_| garbage()).collect(),
        }
    }

    fn range(&self) -> Range<usize> {
        AROUND..self.whole.len() - AROUND
    }

    fn lent(&self) -> &[T] {
        &self.whole[self.range()]
    }

    fn lent_mut(&mut self) -> &mut [T] {
        let range = self.range();
        &mut self.whole[range]
    }

    fn fill(&mut self, from: usize) {
        let garbage = &self.garbage[from..from + self.whole.len()];
        self.whole.copy_from_slice(garbage);
    }

    /// Where the lent entries are not these, and zeros behind them, or an entry around them is not
    /// what it was.
    fn difference(&self, due: &[T], from: usize) -> Option<String> {
        let (front, rest) = self.lent().split_at(due.len());
        if front != due {
            let at = (0..due.len()).find(|&at| front[at] != due[at])?;
            let (is, due) = (front[at], due[at]);
            return Some(format!("entry {at} is {is} where {due} is due"));
        }
        // Summed up rather than searched: this is most of the comparison's time.
        let zero = T::default();
        if rest.iter().fold(zero, |any, &entry| any | entry) != zero {
            let at = rest.iter().position(|&entry| entry != zero)?;
            return Some(format!("entry {} is left {}", due.len() + at, rest[at]));
        }
        let around = (0..AROUND).chain(self.range().end..self.whole.len());
        for at in around {
            let (was, is) = (self.garbage[from + at], self.whole[at]);
            if was != is {
                return Some(format!("{is} is written over {was} beside the buffer"));
            }
        }
        None
    }
}
