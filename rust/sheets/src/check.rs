//! The generator's own check that a sheet is valid, clear rather than fast.
//!
//! The questions are put in order, each to the whole sheet. Question 3 is [`Sheet::read`]'s.

mod fields;
mod naming;
mod rows;

use crate::sheet::limits::{self, Limits};
use crate::sheet::Sheet;
use std::fmt;

/// A refusal by one of questions 2 to 6.
#[derive(Clone, Copy, Debug, PartialEq, Eq, PartialOrd, Ord)]
pub struct Fault {
    /// The question's number, which is the refusal's too.
    pub number: u16,
    /// The first sheet line at fault, counted from 1; 0 for number 2.
    pub line: usize,
}

impl fmt::Display for Fault {
    fn fmt(&self, f: &mut fmt::Formatter<'_>) -> fmt::Result {
        write!(f, "refusal {} at line {}", self.number, self.line)
    }
}

impl std::error::Error for Fault {}

/// Puts questions 2, 4, 5 and 6 to a sheet of rows. Rows have the form of question 3, but for
/// a name that is empty or holds a line end; such a name is refused as question 4's.
pub fn check(sheet: &Sheet, limits: Limits) -> Result<(), Fault> {
    check_length(sheet.text().len())?;
    check_rows(sheet, limits)
}

/// Puts questions 2 to 6 to a text, and gives its rows if it passes.
pub fn check_text(text: &[u8], limits: Limits) -> Result<Sheet, Fault> {
    check_length(text.len())?;
    // Replacing bytes that are no UTF-8 neither adds nor removes line ends, and leaves a line
    // that is no name, no heading and no row of values.
    let readable = String::from_utf8_lossy(text);
    let sheet = Sheet::read(&readable).map_err(|malformed| Fault {
        number: 3,
        line: malformed.line,
    })?;
    check_rows(&sheet, limits)?;
    Ok(sheet)
}

fn check_length(bytes: usize) -> Result<(), Fault> {
    if bytes > limits::BYTES {
        return Err(Fault { number: 2, line: 0 });
    }
    Ok(())
}

fn check_rows(sheet: &Sheet, limits: Limits) -> Result<(), Fault> {
    let lines = Lines::of(sheet);
    let first_fault = |number, line: Option<usize>| match line {
        Some(line) => Err(Fault { number, line }),
        None => Ok(()),
    };
    first_fault(4, bad_name(sheet).map(|row| lines.name(row)))?;
    first_fault(5, count_out_of_bounds(sheet, &lines, limits))?;
    first_fault(6, rows::first_line_at_fault(sheet, &lines))
}

/// The lines on which the headings stand. Row `r` of a section stands `r` lines below.
struct Lines {
    headings: [usize; 5],
}

impl Lines {
    fn of(sheet: &Sheet) -> Lines {
        let mut headings = [1; 5];
        for section in 1..5 {
            // A section is its heading, its rows and an empty line.
            headings[section] = headings[section - 1] + counts(sheet)[section - 1] + 2;
        }
        Lines { headings }
    }

    fn name(&self, row: usize) -> usize {
        self.headings[0] + row
    }

    fn builtin(&self, row: usize) -> usize {
        self.headings[1] + row
    }

    fn expr(&self, row: usize) -> usize {
        self.headings[2] + row
    }

    fn statement(&self, row: usize) -> usize {
        self.headings[3] + row
    }

    fn query(&self, row: usize) -> usize {
        self.headings[4] + row
    }
}

/// How many rows each section has.
fn counts(sheet: &Sheet) -> [usize; 5] {
    [
        sheet.names.len(),
        sheet.builtins.len(),
        sheet.exprs.len(),
        sheet.statements.len(),
        sheet.queries.len(),
    ]
}

/// Question 4: the first name that is no identifier or does not ascend.
fn bad_name(sheet: &Sheet) -> Option<usize> {
    let names = &sheet.names;
    let index = (0..names.len()).find(|&i| {
        let ascends = i == 0 || names[i - 1].as_bytes() < names[i].as_bytes();
        !is_identifier(&names[i]) || !ascends
    })?;
    Some(index + 1)
}

fn is_identifier(name: &str) -> bool {
    let letter = |b: u8| b.is_ascii_alphabetic() || b == b'_';
    let bytes = name.as_bytes();
    (1..=limits::NAME_BYTES).contains(&bytes.len())
        && letter(bytes[0])
        && bytes.iter().all(|&b| letter(b) || b.is_ascii_digit())
}

/// Question 5: the line of the first row over a limit, or of the last heading if no query is
/// below it.
fn count_out_of_bounds(sheet: &Sheet, lines: &Lines, limits: Limits) -> Option<usize> {
    let most = [
        limits.names,
        limits::BUILTINS,
        limits::EXPRESSIONS,
        limits::STATEMENTS,
        limits::QUERIES,
    ];
    let over = (0..5).find(|&section| counts(sheet)[section] > most[section]);
    match over {
        Some(section) => Some(lines.headings[section] + most[section] + 1),
        None if sheet.queries.is_empty() => Some(lines.headings[4]),
        None => None,
    }
}
