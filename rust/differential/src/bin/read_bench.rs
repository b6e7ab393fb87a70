//! `read_bench`: the time of the proved reader beside plain Rust that splits the same text into
//! lines and parses every field with the standard library, and checks nothing else.
//!
//! Each sheet is timed by itself, over many calls, the better of several runs counting; a class has
//! the geometric mean of the sheets' ratios. *In turn* is the ratio of the times for all sheets one
//! after the other, so that no branch is foreseen from the call before. The proved call zeroes its
//! buffers and puts every question within its time.
//!
//! Sheets have at most 127 names where nothing else is said.

use differential::timing::{best, geometric_mean};
use sheets::limits::{LIBRARY, PRINTING, TABLES};
use sheets::sheet::{ExprRow, StatementRow};
use sheets::{check, edges, generate, Kind, Sheet};
use std::hint::black_box;
use std::time::Instant;

fn main() {
    println!(
        "class                    sheets    bytes   values     proved      plain  ratio  in turn"
    );
    let typical = |sheet: &Sheet| (3..=12).contains(&sheet.statements.len());
    let large = |sheet: &Sheet| sheet.exprs.len() >= 300;
    let text = |sheet: Sheet| sheet.text().into_bytes();
    let some = |count, wanted: &dyn Fn(&Sheet) -> bool| {
        let sheets = (1..).map(generate::few).filter(wanted).take(count);
        sheets.map(text).collect::<Vec<_>>()
    };
    let many = (1..=1_000).map(generate::many).map(text);
    report("3 to 12 statements", &some(1_000, &typical));
    report("300 expressions or more", &some(200, &large));
    report("a count at its limit", &at_limits());
    report("every count at its limit", &[text(longest())]);
    report("128 to 511 names", &many.collect::<Vec<_>>());
    report("32,768 bytes, 511 names", &[longest_of_all()]);
    report("refused, chains shared", &[text(shared_chain())]);
}

/// The edges that pass with 512 expressions or nearly so many.
fn at_limits() -> Vec<Vec<u8>> {
    let edges = edges::edges(PRINTING).into_iter();
    let passing = edges.filter(|edge| edge.expected.is_ok());
    let full = passing.filter(|edge| lines(&edge.text) >= 511);
    full.map(|edge| edge.text).collect()
}

/// The longest sheet that the library takes.
fn longest_of_all() -> Vec<u8> {
    let edges = edges::edges(LIBRARY).into_iter();
    let passing = edges.filter(|edge| edge.expected.is_ok());
    let texts = passing.map(|edge| edge.text);
    texts.max_by_key(Vec::len).expect("an edge that passes")
}

fn lines(text: &[u8]) -> usize {
    text.iter().filter(|&&byte| byte == b'\n').count()
}

/// Every count at its limit, long names and long positions.
fn longest() -> Sheet {
    let full = edges::edges(PRINTING)
        .into_iter()
        .max_by_key(|edge| match edge.expected {
            Ok(()) => lines(&edge.text),
            Err(_) => 0,
        });
    let text = String::from_utf8(full.expect("an edge").text).expect("a text");
    let mut sheet = Sheet::read(&text).expect("a sheet");
    for name in &mut sheet.names {
        *name = format!("{name:_<32}");
    }
    for row in &mut sheet.exprs {
        (row.line, row.col) = (u16::MAX, u16::MAX);
    }
    check::check(&sheet, PRINTING).expect("a sheet that passes");
    sheet
}

/// A sheet that question 6 refuses, and late: 255 objects name one chain of 256.
fn shared_chain() -> Sheet {
    let row = |kind: Kind, first, next| ExprRow {
        kind: kind as u16,
        first,
        next,
        ..ExprRow::default()
    };
    let next = |number: u16, last: u16| if number < last { number + 1 } else { 0 };
    let mut exprs = vec![row(Kind::Array, 2, 0)];
    exprs.extend((2..=256).map(|number| row(Kind::Object, 257, next(number, 256))));
    exprs.extend((257..=512).map(|number| row(Kind::Number, 0, next(number, 512))));
    Sheet {
        exprs,
        statements: vec![StatementRow::from_values([3, 1, 0, 0, 0, 0, 0])],
        queries: vec![1],
        ..Sheet::default()
    }
}

/// Lines split, every field of a row parsed; names are left as they are.
fn plain(sheet: &[u8], values: &mut Vec<u16>) {
    values.clear();
    let Ok(text) = std::str::from_utf8(sheet) else {
        return;
    };
    let (mut heading, mut names) = (true, true);
    for line in text.split('\n') {
        if heading {
            heading = false;
        } else if line.is_empty() {
            (heading, names) = (true, false);
        } else if !names {
            for field in line.split(' ') {
                if let Ok(value) = field.parse::<u16>() {
                    values.push(value);
                }
            }
        }
    }
}

/// The buffers of both.
struct Buffers {
    tables: Vec<u16>,
    work: Vec<u64>,
    values: Vec<u16>,
}

impl Buffers {
    fn proved(&mut self, sheet: &[u8]) {
        let _ = black_box(nokchbem::read(sheet, &mut self.tables, &mut self.work));
        black_box(&self.tables);
    }

    fn plain(&mut self, sheet: &[u8]) {
        plain(sheet, &mut self.values);
        black_box(&self.values);
    }
}

fn in_turn(buffers: &mut Buffers, sheets: &[Vec<u8>]) -> f64 {
    let (mut proved, mut plain) = (f64::MAX, f64::MAX);
    for _ in 0..20 {
        let started = Instant::now();
        for sheet in sheets {
            buffers.proved(black_box(sheet));
        }
        proved = proved.min(started.elapsed().as_nanos() as f64);
        let started = Instant::now();
        for sheet in sheets {
            buffers.plain(black_box(sheet));
        }
        plain = plain.min(started.elapsed().as_nanos() as f64);
    }
    proved / plain
}

fn report(label: &str, sheets: &[Vec<u8>]) {
    let mut buffers = Buffers {
        tables: vec![0; TABLES],
        work: vec![0; LIBRARY.work],
        values: Vec::with_capacity(TABLES),
    };
    let (mut bytes, mut values) = (0, 0);
    let mut times = Vec::new();
    for sheet in sheets {
        let proved = best(&mut || buffers.proved(black_box(sheet)));
        let plain = best(&mut || buffers.plain(black_box(sheet)));
        times.push((proved, plain));
        bytes += sheet.len();
        values += buffers.values.len();
    }
    println!(
        "{label:24} {:6} {:8} {:8} {:8.0}ns {:8.0}ns {:6.3} {:8.3}",
        sheets.len(),
        bytes / sheets.len(),
        values / sheets.len(),
        geometric_mean(times.iter().map(|t| t.0)),
        geometric_mean(times.iter().map(|t| t.1)),
        geometric_mean(times.iter().map(|t| t.0 / t.1)),
        in_turn(&mut buffers, sheets)
    );
}
