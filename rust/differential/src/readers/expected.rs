//! What the proved reader has to answer and to leave in the tables, from what the plain reader
//! says.

use crate::comparing::{Call, Due, Lengths, Outcome};
use nokchbem::Refusal;
use reader::Rows;
use sheets::limits::{Limits, LIBRARY};

/// Where row 0 of the built-ins, expressions, statements and queries would stand, and how wide a
/// row is.
const AREAS: [(usize, usize); 4] = [(8, 4), (268, 8), (4_372, 7), (5_275, 1)];

/// Behind the last row that there can be.
const END: usize = 5_308;

/// `nokchbem::read`, which is lent no answer.
pub struct ReadCall;

impl Call for ReadCall {
    const LIMITS: Limits = LIBRARY;
    const READER_NAMES: usize = reader::LIBRARY;

    fn call(
        sheet: &[u8],
        tables: &mut [u16],
        work: &mut [u64],
        _: &mut [u8],
    ) -> Result<(), Refusal> {
        nokchbem::read(sheet, tables, work)
    }

    fn due(sheet: &[u8], lengths: Lengths) -> Due {
        match Self::rows(sheet, lengths) {
            Err(refusal) => Due::refused(refusal),
            Ok(rows) => Due {
                tables: tables(&rows),
                ..Due::passed(Outcome::Passed)
            },
        }
    }

    fn well_formed(answer: &[u8]) -> bool {
        answer.is_empty()
    }
}

/// The head and the rows.
fn tables(rows: &Rows) -> Vec<u16> {
    let mut tables = vec![0; END];
    let row_of = |name: &[u8]| rows.names.iter().position(|n| n == name).map(|at| at + 1);
    let special = [&b"_"[..], b"input", b"data"].map(|name| row_of(name).unwrap_or(0));
    let counts = rows.sections.each_ref().map(Vec::len);
    let head = [rows.names.len()].into_iter().chain(counts).chain(special);
    for (entry, value) in tables.iter_mut().zip(head) {
        *entry = value as u16;
    }
    for (section, (start, width)) in rows.sections.iter().zip(AREAS) {
        for (row, values) in (1..).zip(section) {
            let at = start + width * row;
            tables[at..at + width].copy_from_slice(values);
        }
    }
    tables
}
