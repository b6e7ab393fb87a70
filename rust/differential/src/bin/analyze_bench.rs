//! `analyze_bench`: the time of the proved call, from the sheet's bytes to the answer's, beside the
//! original's analysis alone, on its own tree, built beforehand.
//!
//! Each sheet is timed by itself, over many calls, the better of several runs counting; a class has
//! the geometric mean of the sheets' ratios. *In turn* is the ratio of the times for all sheets one
//! after the other, so that no branch is foreseen from the call before: each sheet's least of several
//! rounds over all sheets, summed up. Only sheets with an answer count. The proved call zeroes its
//! buffers, reads, checks and writes within its time; two more columns say what of that is spared the
//! original: *reading*, the reader's own call on the sheet, and *zeroing*, as much zeroing as the whole
//! call does. *Narrow* is the printing program's call on the same sheets, with its ratios to the
//! original; sheets with 128 names or more have none.
//!
//! Then the growth of all where the original's work multiplies: chains of brackets, and
//! comprehensions under `with` of an array assignment, nested.

use differential::analyses::parts::ANSWER;
use differential::timing::{best, geometric_mean};
use oracle::{Built, NotAtHand, Outcome};
use sheets::answer::Answer;
use sheets::limits::{LIBRARY, PRINTING, TABLES};
use sheets::tree::{Expr, Literal, Node, Query, Snippet, Statement};
use sheets::{check, edges, generate, Sheet};
use std::hint::black_box;
use std::process::ExitCode;
use std::time::Instant;

fn main() -> ExitCode {
    match oracle::on_deep_stack(bench) {
        Ok(()) => ExitCode::SUCCESS,
        Err(error) => {
            eprintln!("analyze_bench: {error}");
            ExitCode::FAILURE
        }
    }
}

fn bench() -> Result<(), NotAtHand> {
    println!(
        "class                      sheets    bytes     proved    original  ratio  in turn  reading  zeroing    narrow  ratio  in turn"
    );
    let typical = |sheet: &Sheet| (3..=12).contains(&sheet.statements.len());
    let large = |sheet: &Sheet| sheet.exprs.len() >= 300;
    let long = |sheet: &Sheet| sheet.text().len() > 1_024;
    let few = |count, wanted: &dyn Fn(&Sheet) -> bool| generated(count, generate::few, wanted);
    report("up to 1 KB", &few(1_000, &|sheet| !long(sheet))?);
    report("above 1 KB", &few(1_000, &long)?);
    report("3 to 12 statements", &few(1_000, &typical)?);
    report("300 expressions or more", &few(200, &large)?);
    report("a count at its limit", &at_limits()?);
    let many = generated(1_000, generate::many, &|_| true)?;
    report("128 to 511 names", &many);
    println!(
        "\ngrowth                        bytes     proved    original  ratio    narrow  ratio"
    );
    for length in 1..=18 {
        growth(&format!("{length} brackets"), &brackets(length))?;
    }
    for depth in 1..=7 {
        growth(&format!("{depth} under `with`"), &under_with(depth))?;
    }
    Ok(())
}

/// A sheet for all.
struct Timed {
    text: Vec<u8>,
    /// Does the narrow call take it?
    narrow: bool,
    built: Built,
}

impl Timed {
    fn new(sheet: &Sheet) -> Result<Timed, NotAtHand> {
        Ok(Timed {
            text: sheet.text().into_bytes(),
            narrow: sheet.names.len() <= PRINTING.names,
            built: Built::new(sheet)?,
        })
    }
}

/// None where the original gives the sheet up or refuses it.
fn timed(sheet: &Sheet) -> Result<Option<Timed>, NotAtHand> {
    match oracle::analyze(sheet)?.outcome {
        Outcome::Answered(Answer::Queries(_)) => Timed::new(sheet).map(Some),
        _ => Ok(None),
    }
}

fn generated(
    count: usize,
    sheet: fn(u64) -> Sheet,
    wanted: &dyn Fn(&Sheet) -> bool,
) -> Result<Vec<Timed>, NotAtHand> {
    let mut all = Vec::new();
    let mut sheets = (1..).map(sheet).filter(wanted);
    while all.len() < count {
        all.extend(sheets.next().map_or(Ok(None), |sheet| timed(&sheet))?);
    }
    Ok(all)
}

/// The edges with an answer that have 500 lines or more, and no more names than either width takes.
fn at_limits() -> Result<Vec<Timed>, NotAtHand> {
    let lines = |text: &[u8]| text.iter().filter(|&&byte| byte == b'\n').count();
    let mut all = Vec::new();
    for edge in edges::edges(PRINTING) {
        if edge.expected.is_ok() && lines(&edge.text) >= 500 {
            let sheet = check::check_text(&edge.text, PRINTING).expect("an edge that passes");
            all.extend(timed(&sheet)?);
        }
    }
    Ok(all)
}

fn one_query(statements: Vec<Statement>) -> Sheet {
    let snippet = Snippet {
        query: Query { statements },
        ..Snippet::default()
    };
    snippet.sheet()
}

/// `data[i][i]..`
fn brackets(length: usize) -> Sheet {
    let var = |name: &str| Node::Var(name.to_string()).at(1, 1);
    let bracket = |e: Expr, _| Node::RefBrack(e.into(), var("i").into()).at(1, 1);
    let chain = (0..length).fold(var("data"), bracket);
    one_query(vec![Literal::Expr(chain).plain()])
}

/// `[x, y] = [1, 1] with .. as [1 | [x, y] = [1, 1] with ..]`, so deep.
fn under_with(depth: usize) -> Sheet {
    let number = || Node::Number.at(1, 1);
    let var = |name: &str| Node::Var(name.to_string()).at(1, 1);
    let statement = |with: Vec<Expr>| {
        let array = |items: [Expr; 2]| Box::new(Node::Array(items.into()).at(1, 1));
        let left = array([var("x"), var("y")]);
        let right = array([number(), number()]);
        Statement {
            literal: Literal::Expr(Node::AssignEq(left, right).at(1, 1)),
            with,
        }
    };
    let nested = (0..depth).fold(statement(Vec::new()), |inner, _| {
        let statements = vec![inner];
        let compr = Node::ArrayCompr(number().into(), Query { statements });
        statement(vec![compr.at(1, 1)])
    });
    one_query(vec![nested])
}

/// The buffers of the proved calls.
struct Buffers {
    tables: Vec<u16>,
    work: Vec<u64>,
    narrow_work: Vec<u64>,
    answer: Vec<u8>,
}

impl Buffers {
    fn new() -> Buffers {
        Buffers {
            tables: vec![0; TABLES],
            work: vec![0; LIBRARY.work],
            narrow_work: vec![0; PRINTING.work],
            answer: vec![0; ANSWER],
        }
    }

    fn proved(&mut self, sheet: &Timed) {
        let Buffers {
            tables,
            work,
            answer,
            ..
        } = self;
        let text = black_box(&sheet.text);
        let _ = black_box(nokchbem::analyze(text, tables, work, answer));
        black_box(&self.answer);
    }

    fn narrow(&mut self, sheet: &Timed) {
        let Buffers {
            tables,
            narrow_work,
            answer,
            ..
        } = self;
        let text = black_box(&sheet.text);
        let _ = black_box(narrow::analyze(text, tables, narrow_work, answer));
        black_box(&self.answer);
    }

    fn reading(&mut self, sheet: &Timed) {
        let text = black_box(&sheet.text);
        let _ = black_box(nokchbem::read(text, &mut self.tables, &mut self.work));
    }

    /// The answer and work once, the tables before and after.
    fn zeroing(&mut self) {
        black_box(&mut self.answer).fill(0);
        black_box(&mut self.tables).fill(0);
        black_box(&mut self.tables).fill(0);
        black_box(&mut self.work).fill(0);
        black_box(&self.work);
    }
}

fn original(sheet: &Timed) {
    black_box(sheet.built.analyze());
}

/// Nanoseconds of each: a call, or the calls on all sheets in turn. The narrow call's mean nothing
/// where it refuses the sheet.
struct Times {
    proved: f64,
    narrow: f64,
    original: f64,
}

fn times(buffers: &mut Buffers, sheet: &Timed) -> Times {
    sheet.built.supply_builtins();
    Times {
        proved: best(&mut || buffers.proved(sheet)),
        narrow: best(&mut || buffers.narrow(sheet)),
        original: best(&mut || original(sheet)),
    }
}

/// The time of each sheet, the least of several rounds over all sheets, summed up. In a round the three
/// take turns.
fn in_turn(buffers: &mut Buffers, sheets: &[Timed]) -> Times {
    let mut proved = vec![f64::MAX; sheets.len()];
    let mut narrow = proved.clone();
    let mut original_alone = proved.clone();
    for _ in 0..20 {
        round(sheets, &mut proved, |_| (), |sheet| buffers.proved(sheet));
        round(sheets, &mut narrow, |_| (), |sheet| buffers.narrow(sheet));
        let builtins = |sheet: &Timed| sheet.built.supply_builtins();
        round(sheets, &mut original_alone, builtins, original);
    }
    Times {
        proved: proved.iter().sum(),
        narrow: narrow.iter().sum(),
        original: original_alone.iter().sum(),
    }
}

/// One call on each sheet in turn; the least time of each is kept.
fn round(
    sheets: &[Timed],
    least: &mut [f64],
    prepare: impl Fn(&Timed),
    mut call: impl FnMut(&Timed),
) {
    for (sheet, least) in sheets.iter().zip(least) {
        prepare(sheet);
        let started = Instant::now();
        call(sheet);
        *least = least.min(started.elapsed().as_nanos() as f64);
    }
}

fn report(label: &str, sheets: &[Timed]) {
    let mut buffers = Buffers::new();
    let times: Vec<_> = sheets.iter().map(|s| times(&mut buffers, s)).collect();
    let bytes = sheets.iter().map(|s| s.text.len()).sum::<usize>();
    let readings: Vec<_> = sheets
        .iter()
        .map(|sheet| best(&mut || buffers.reading(sheet)))
        .collect();
    let zeroing = best(&mut || buffers.zeroing());
    let in_turn = in_turn(&mut buffers, sheets);
    let mean = |value: &dyn Fn(&Times) -> f64| geometric_mean(times.iter().map(value));
    print!(
        "{label:26} {:6} {:8} {:8.0}ns {:9.0}ns {:6.3} {:8.3} {:6.0}ns {zeroing:6.0}ns",
        sheets.len(),
        bytes / sheets.len(),
        mean(&|t| t.proved),
        mean(&|t| t.original),
        mean(&|t| t.proved / t.original),
        in_turn.proved / in_turn.original,
        geometric_mean(readings.iter().copied())
    );
    if sheets.iter().all(|sheet| sheet.narrow) {
        print!(
            " {:7.0}ns {:6.3} {:8.3}",
            mean(&|t| t.narrow),
            mean(&|t| t.narrow / t.original),
            in_turn.narrow / in_turn.original
        );
    }
    println!();
}

/// All on one sheet, whatever the original takes.
fn growth(label: &str, sheet: &Sheet) -> Result<(), NotAtHand> {
    let sheet = Timed::new(sheet)?;
    let Times {
        proved,
        narrow,
        original,
    } = times(&mut Buffers::new(), &sheet);
    println!(
        "{label:26} {:8} {proved:8.0}ns {original:9.0}ns {:6.3} {narrow:7.0}ns {:6.3}",
        sheet.text.len(),
        proved / original,
        narrow / original
    );
    Ok(())
}
