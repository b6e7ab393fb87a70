//! The sheets on which the readers are compared, a part a function.

use super::ReadCall;
use crate::comparing::{self, smaller, Comparer, Difference, Lengths, Lent, Tally};
use sheets::limits::{LIBRARY, PRINTING, TABLES};
use sheets::rng::Rng;
use sheets::{damage, examples, generate};

/// A small sheet with what the trial queries lack: `some`, an `every`, a comprehension, a modifier.
const NESTED: &str = "name\n_\ndata\ninput\nk\nv\nx\n
arity first second third\n2 2 4 0\n
kind name line col first second third next
6 4 1 6 0 0 0 0\n6 1 2 7 0 0 0 0\n6 5 2 10 0 0 0 0\n9 0 2 15 5 0 0 0\n6 4 2 16 0 0 0 6
10 0 2 19 7 0 3 0\n6 6 2 20 0 0 0 0\n20 0 2 24 11 12 0 0\n3 0 2 50 0 0 0 0\n6 5 2 40 0 0 0 0
6 6 2 24 0 0 0 0\n6 3 2 28 0 0 0 0\n
form first second third query with next
1 1 0 0 0 0 2\n5 2 3 4 2 9 0\n3 10 0 0 0 0 0\n3 8 0 0 0 0 0\n
statement\n1\n3\n4\n\n";

/// Three small sheets that pass, the smallest first.
pub fn small_sheets() -> [Vec<u8>; 3] {
    let trials = examples::trials();
    let text = |at: usize| trials[at].snippet.sheet().text().into_bytes();
    [text(4), text(0), NESTED.into()]
}

/// The cases on all cores. A reader is lent no answer.
fn spread(
    count: u64,
    case: impl Fn(&mut Comparer<ReadCall>, u64) -> Result<(), Difference> + Sync,
) -> Result<Tally, Difference> {
    comparing::spread(0, count, case)
}

/// Question 1: buffers of every length about the one asked for, and about what the printing program
/// asks for, with sheets of every sort.
pub fn lengths() -> Result<Tally, Difference> {
    let mut sheets = small_sheets().to_vec();
    sheets.extend([Vec::new(), b"name\n".to_vec(), vec![b'\n'; 40_000]]);
    let about = |length: usize| [length - 1, length, length + 1];
    let tables = [&[0, 1, 8][..], &about(TABLES), &[3 * TABLES]].concat();
    let work = [&[0, 1, 8][..], &about(PRINTING.work), &about(LIBRARY.work)].concat();
    let mut tally = Tally::default();
    for &tables in &tables {
        for &work in &work {
            let mut lent = Lent::<ReadCall>::new(Lengths {
                tables,
                work,
                answer: 0,
            });
            for sheet in &sheets {
                tally.count(lent.compare(sheet).map_err(smaller::<ReadCall>)?);
            }
        }
    }
    Ok(tally)
}

/// Every edge, and each that passes with so many different faults.
pub fn edges(faults: u64) -> Result<Tally, Difference> {
    comparing::compare_edges::<ReadCall>(0, faults)
}

/// Every string of up to so many bytes.
pub fn short_strings(bytes: u32) -> Result<Tally, Difference> {
    let count = (0..=bytes).map(|length| 256u64.pow(length)).sum();
    spread(count, |comparer, number| {
        let (mut rest, mut length) = (number, 0);
        while rest >= 256u64.pow(length) {
            rest -= 256u64.pow(length);
            length += 1;
        }
        comparer.compare(&rest.to_le_bytes()[..length as usize])
    })
}

/// Each byte of a sheet that passes replaced by each other, each left out, and each inserted
/// everywhere.
pub fn one_byte_changes(sheet: &[u8]) -> Result<Tally, Difference> {
    spread(sheet.len() as u64 + 1, |comparer, number| {
        let at = number as usize;
        let mut longer = sheet.to_vec();
        longer.insert(at, 0);
        for byte in 0..=255 {
            longer[at] = byte;
            comparer.compare(&longer)?;
        }
        if at == sheet.len() {
            return comparer.compare(sheet);
        }
        let mut changed = sheet.to_vec();
        for byte in 0..=255 {
            if byte != sheet[at] {
                changed[at] = byte;
                comparer.compare(&changed)?;
            }
        }
        changed.remove(at);
        comparer.compare(&changed)
    })
}

/// Every two fields of a sheet replaced by every two values below `end`: most of these sheets have
/// the form, and rows that name each other in every way.
pub fn two_fields(sheet: &[u8], end: u16) -> Result<Tally, Difference> {
    let text = std::str::from_utf8(sheet).expect("a text");
    // A piece is a word with the one byte behind it.
    let pieces: Vec<&str> = text.split_inclusive([' ', '\n']).collect();
    let is_field = |at: &usize| pieces[*at].starts_with(|c: char| c.is_ascii_digit());
    let fields: Vec<usize> = (0..pieces.len()).filter(is_field).collect();
    let count = fields.len();
    spread((count * count) as u64, |comparer, number| {
        let [one, other] = [number as usize / count, number as usize % count];
        if one >= other {
            return Ok(());
        }
        let mut changed: Vec<String> = pieces.iter().map(|piece| piece.to_string()).collect();
        let put = |changed: &mut Vec<String>, field: usize, value: u16| {
            let piece = pieces[fields[field]];
            changed[fields[field]] = format!("{value}{}", &piece[piece.len() - 1..]);
        };
        for value in 0..end {
            put(&mut changed, one, value);
            for value in 0..end {
                put(&mut changed, other, value);
                comparer.compare(changed.concat().as_bytes())?;
            }
        }
        Ok(())
    })
}

/// Every number below `end` as a position, where a sheet may have any, and with a zero before it.
pub fn numbers(end: u64) -> Result<Tally, Difference> {
    let [_, _, sheet] = small_sheets();
    let sheet = String::from_utf8(sheet).expect("a text");
    let (before, after) = sheet.split_once("16 0 0 0 6").expect("a position");
    spread(end, |comparer, number| {
        for zero in ["", "0"] {
            let text = format!("{before}{zero}{number} 0 0 0 6{after}");
            comparer.compare(text.as_bytes())?;
        }
        Ok(())
    })
}

/// So many sheets, of each four one as generated and three with faults.
pub fn generated(seed: u64, count: u64) -> Result<Tally, Difference> {
    spread(count.div_ceil(4), |comparer, number| {
        let own = seed.wrapping_add(number);
        let text = generate::sheet(own).text().into_bytes();
        comparer.compare(&text)?;
        let mut rng = Rng::new(!own);
        for _ in 1..(count - 4 * number).min(4) {
            comparer.compare(&damage::damage(&text, &mut rng))?;
        }
        Ok(())
    })
}
