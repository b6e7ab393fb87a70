//! `vectors FILE`: writes the fixed list of sheets with the original's answers.
//!
//! First the worked example and the trial queries, then the smallest generated sheets that
//! together show each feature with each outcome a few times, then some large ones. These have at
//! most 127 names; sheets with 128 to 511 names follow.
//!
//! `vectors FILE COUNT [SEED]`: writes COUNT generated sheets instead, as they come from SEED (1) on,
//! those apart that are too long for the original.

use oracle::{analyze, NotAtHand, Outcome};
use sheets::answer::{Answer, Placed};
use sheets::vectors::Vector;
use sheets::{census, examples, generate, vectors, Sheet};
use std::collections::BTreeMap;
use std::ops::RangeInclusive;
use std::process::ExitCode;

const SEEDS: u64 = 40_000;
const SMALL: usize = 2_200;
/// How many sheets are to show a feature with an outcome.
const TIMES: usize = 2;
/// Of sheets with many names: the bytes besides the names, and how many sheets for each number of
/// words that the names take.
const MIDDLING: RangeInclusive<usize> = 600..=1_000;
const EACH: usize = 33;
const TITLE: &str = "Sheets with the original's answers. Made by \
    `cargo run --release -p oracle --bin vectors -- vectors/sheets.txt` in rust/.";

fn main() -> ExitCode {
    let arguments: Vec<String> = std::env::args().skip(1).collect();
    let numbers: Option<Vec<u64>> = arguments.iter().skip(1).map(|a| a.parse().ok()).collect();
    let (Some(file), Some(numbers @ ([] | [_] | [_, _]))) = (arguments.first(), numbers.as_deref())
    else {
        eprintln!("usage: vectors FILE [COUNT [SEED]]");
        return ExitCode::FAILURE;
    };
    let (count, seed) = (numbers.first().copied(), numbers.get(1).copied());
    let written = oracle::on_deep_stack(move || match count {
        None => list(),
        Some(count) => generated(count, seed.unwrap_or(1)),
    })
    .map_err(|e| e.to_string())
    .and_then(|list| {
        std::fs::write(file, vectors::write(TITLE, &list)).map_err(|e| format!("{file}: {e}"))
    });
    match written {
        Ok(()) => ExitCode::SUCCESS,
        Err(error) => {
            eprintln!("vectors: {error}");
            ExitCode::FAILURE
        }
    }
}

fn list() -> Result<Vec<Vector>, NotAtHand> {
    let mut list = Vec::new();
    for example in examples::trials() {
        let sheet = example.snippet.sheet();
        list.extend(vector(example.label.to_string(), &sheet)?);
    }
    let mut small = Vec::new();
    let mut large = Vec::new();
    for seed in 1..=SEEDS {
        let sheet = generate::few(seed);
        let label = format!("seed {seed}");
        match sheet.text().len() {
            0..=SMALL => small.push((label, sheet)),
            9_000.. if large.len() < 6 => large.push((label, sheet)),
            _ => {}
        }
    }
    small.sort_by_cached_key(|(_, sheet)| sheet.text().len());
    list.extend(showing(&small, TIMES)?);
    for (label, sheet) in large {
        list.extend(vector(label, &sheet)?);
    }
    list.extend(many_names()?);
    Ok(list)
}

/// Sheets with many names, as many for each number of words that the names take.
fn many_names() -> Result<Vec<Vector>, NotAtHand> {
    let mut sheets: Vec<(String, Sheet)> = (1..=SEEDS)
        .map(|seed| (format!("many names, seed {seed}"), generate::many(seed)))
        .filter(|(_, sheet)| MIDDLING.contains(&besides_names(sheet)))
        .collect();
    sheets.sort_by_cached_key(|(_, sheet)| besides_names(sheet));
    let mut list = Vec::new();
    for words in 3..=8 {
        let of_words = |(_, sheet): &(String, Sheet)| sheet.names.len() / 64 + 1 == words;
        let some: Vec<_> = sheets.iter().filter(|s| of_words(s)).cloned().collect();
        list.extend(showing(&some, 1)?.into_iter().take(EACH));
    }
    Ok(list)
}

/// The bytes of a sheet without its names: however many these are, the rest may be small.
fn besides_names(sheet: &Sheet) -> usize {
    let names: usize = sheet.names.iter().map(|name| name.len() + 1).sum();
    sheet.text().len() - names
}

/// The first of the sheets that together show each feature with each outcome so many times.
fn showing(sheets: &[(String, Sheet)], times: usize) -> Result<Vec<Vector>, NotAtHand> {
    let mut list = Vec::new();
    let mut seen: BTreeMap<(String, String), usize> = BTreeMap::new();
    for (label, sheet) in sheets {
        let Some(vector) = vector(label.clone(), sheet)? else {
            continue;
        };
        let outcome = outcome(&vector.answer);
        let mut wanted = false;
        let features = census::features_of(sheet);
        for feature in &features {
            let key = (feature.clone(), outcome.clone());
            wanted |= seen.get(&key).copied().unwrap_or(0) < times;
        }
        if wanted {
            for feature in features {
                *seen.entry((feature, outcome.clone())).or_default() += 1;
            }
            list.push(vector);
        }
    }
    Ok(list)
}

fn generated(count: u64, seed: u64) -> Result<Vec<Vector>, NotAtHand> {
    let mut list = Vec::new();
    let mut seeds = seed..;
    while (list.len() as u64) < count {
        let seed = seeds.next().expect("seeds enough");
        list.extend(vector(format!("seed {seed}"), &generate::sheet(seed))?);
    }
    Ok(list)
}

fn vector(label: String, sheet: &Sheet) -> Result<Option<Vector>, NotAtHand> {
    Ok(match analyze(sheet)?.outcome {
        Outcome::TooLong => None,
        Outcome::Answered(answer) => Some(Vector {
            label,
            sheet: sheet.text(),
            answer: answer.text(),
        }),
    })
}

/// The outcome by which sheets are told apart here.
fn outcome(answer: &str) -> String {
    match Answer::read(answer) {
        Some(Answer::Refusal { number, .. }) => format!("refused with {number}"),
        Some(Answer::Queries(queries)) => {
            let some = |placed| queries.iter().any(|q| q.placed == placed);
            format!(
                "unplaced {} never analysed {}",
                some(Placed::No),
                some(Placed::NeverAnalysed)
            )
        }
        None => panic!("the original's answer is malformed:\n{answer}"),
    }
}
