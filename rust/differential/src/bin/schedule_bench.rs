//! `schedule_bench`: the time of the proved scheduler beside the original's `schedule`, on the same
//! lists, in one process.
//!
//! Each list is timed by itself, over many calls, the better of several runs counting; a class has
//! the geometric mean of the lists' ratios. The proved call zeroes its buffers and asks its
//! question each time; the original gets its list ready made.
//!
//! Lists have names up to 127 in the first three classes, and up to 511 in the others.

use differential::timing::{best, geometric_mean};
use oracle::{NotAtHand, Outcome, Prepared};
use sheets::answer::Answer;
use sheets::lists::List;
use sheets::rng::Rng;
use sheets::{generate, Sheet};
use std::hint::black_box;
use std::process::ExitCode;
use std::time::Instant;

fn main() -> ExitCode {
    match classes() {
        Ok(classes) => {
            println!("class                  lists  statements  definitions   proved  original  ratio  in turn");
            for (label, lists) in classes {
                report(label, &lists);
            }
            ExitCode::SUCCESS
        }
        Err(error) => {
            eprintln!("schedule_bench: {error}");
            ExitCode::FAILURE
        }
    }
}

fn classes() -> Result<Vec<(&'static str, Vec<List>)>, NotAtHand> {
    let large = |list: fn(&mut Rng) -> List| {
        let mut rng = Rng::new(3);
        (0..300).map(|_| large(list, &mut rng)).collect()
    };
    let worst = |apart| {
        let sizes = [64, 96, 128].into_iter();
        sizes
            .flat_map(|n| [1, 5].map(|repeats| List::longest_rounds(n, repeats, apart)))
            .collect()
    };
    Ok(vec![
        ("3 to 12 statements", typical(generate::few)?),
        ("60 to 128 statements", large(List::random_few)),
        ("longest rounds", worst(1)),
        ("3 to 12, many names", typical(generate::many)?),
        ("60 to 128, many names", large(List::random)),
        ("rounds of many names", worst(4)),
    ])
}

/// What queries of accepted generated sheets hand to the scheduler.
fn typical(sheet: fn(u64) -> Sheet) -> Result<Vec<List>, NotAtHand> {
    oracle::on_deep_stack(|| {
        let mut lists = Vec::new();
        for seed in 1.. {
            let run = oracle::analyze(&sheet(seed))?;
            if !matches!(run.outcome, Outcome::Answered(Answer::Queries(_))) {
                continue;
            }
            for analysis in run.analyses {
                let List {
                    statements,
                    definitions,
                } = &analysis.list;
                if (3..=12).contains(statements) && definitions.len() <= 60 {
                    lists.push(analysis.list);
                }
            }
            if lists.len() >= 1_000 {
                break;
            }
        }
        Ok(lists)
    })
}

/// Chains and crossings of definitions, as in a long rule body: each statement uses a few names,
/// mostly of statements before it in some order.
fn large(random: fn(&mut Rng) -> List, rng: &mut Rng) -> List {
    loop {
        let list = random(rng);
        if list.statements >= 60 {
            return list;
        }
    }
}

struct Times {
    proved: f64,
    original: f64,
}

/// Nanoseconds a call on one list, again and again.
fn times(list: &List) -> Times {
    let rows = list.rows();
    let count = usize::from(list.statements);
    let (mut order, mut reached) = (vec![0; count], vec![0; count]);
    let mut prepared = Prepared::new(list).expect("the original");
    let mut proved = || {
        let _ = black_box(nokchbem::schedule(
            black_box(&rows),
            count,
            &mut order,
            &mut reached,
        ));
    };
    Times {
        proved: best(&mut proved),
        original: best(&mut || {
            black_box(prepared.schedule());
        }),
    }
}

/// The ratio of the times for all lists of a class one after the other, so that no branch is
/// foreseen from the call before.
fn in_turn(lists: &[List]) -> f64 {
    let rows: Vec<Vec<u64>> = lists.iter().map(List::rows).collect();
    let mut prepared: Vec<Prepared> = lists
        .iter()
        .map(|list| Prepared::new(list).expect("the original"))
        .collect();
    let (mut order, mut reached) = ([0; 128], [0; 128]);
    let (mut proved, mut original) = (f64::MAX, f64::MAX);
    for _ in 0..20 {
        let started = Instant::now();
        for (list, rows) in lists.iter().zip(&rows) {
            let count = usize::from(list.statements);
            let (order, reached) = (&mut order[..count], &mut reached[..count]);
            let _ = black_box(nokchbem::schedule(rows, count, order, reached));
        }
        proved = proved.min(started.elapsed().as_nanos() as f64);
        let started = Instant::now();
        for prepared in &mut prepared {
            black_box(prepared.schedule());
        }
        original = original.min(started.elapsed().as_nanos() as f64);
    }
    proved / original
}

fn report(label: &str, lists: &[List]) {
    let times: Vec<Times> = lists.iter().map(times).collect();
    let mean = |value: &dyn Fn(&Times) -> f64| geometric_mean(times.iter().map(value));
    let size = |size: &dyn Fn(&List) -> usize| {
        lists.iter().map(size).sum::<usize>() as f64 / lists.len() as f64
    };
    println!(
        "{label:22} {:5} {:11.1} {:12.1} {:6.0}ns {:7.0}ns {:6.3} {:8.3}",
        lists.len(),
        size(&|l| usize::from(l.statements)),
        size(&|l| l.definitions.len()),
        mean(&|t| t.proved),
        mean(&|t| t.original),
        mean(&|t| t.proved / t.original),
        in_turn(lists)
    );
}
