//! A plain reader of sheets: questions 2 to 6, written from the specification alone.
//!
//! It shares no code with the check that the generator of sheets uses, and takes its time: its one
//! use is to be compared with.

mod fields;
mod form;
mod names;
mod references;

pub use form::Rows;

/// How many names the library takes, and how many the printing program.
pub const LIBRARY: usize = 511;
pub const PRINTING: usize = 127;

/// A refusal: its number, and the first sheet line at fault.
#[derive(Clone, Copy, Debug, PartialEq, Eq, PartialOrd, Ord)]
pub struct Refusal {
    pub number: u16,
    pub line: usize,
}

/// The rows of a sheet that passes, with so many names at most, or its refusal. Each question is put
/// to the whole sheet before the next.
pub fn read(sheet: &[u8], most_names: usize) -> Result<Rows, Refusal> {
    let refuse = |number| move |line| Refusal { number, line };
    if sheet.len() > 32_768 {
        return Err(refuse(2)(0));
    }
    let rows = form::read(sheet).map_err(refuse(3))?;
    names::check(&rows).map_err(refuse(4))?;
    rows.counts(most_names).map_err(refuse(5))?;
    fields::check(&rows).map_err(refuse(6))?;
    Ok(rows)
}
