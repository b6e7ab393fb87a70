//! Damaged sheets are refused or pass, and never panic the check.

mod descent;
mod small_trees;

use sheets::check::check_text;
use sheets::damage::{damage, ways};
use sheets::edges::edges;
use sheets::layout::Numbering;
use sheets::limits::{Limits, LIBRARY, PRINTING};
use sheets::rng::Rng;
use sheets::Sheet;
use small_trees::Trees;
use std::collections::{BTreeMap, BTreeSet};

/// Texts of valid sheets that have rows in every section, and several of most.
fn texts(count: usize) -> Vec<String> {
    let mut trees = Trees::new(7);
    let mut texts = Vec::new();
    while texts.len() < count {
        let sheet = trees.snippet().sheet();
        if sheet.builtins.len() > 1 && sheet.queries.len() > 2 && sheet.statements.len() > 1 {
            texts.push(sheet.text());
        }
    }
    texts
}

fn line_ends(text: &[u8]) -> usize {
    text.iter().filter(|&&byte| byte == b'\n').count()
}

/// The rows of a text that has the form.
fn read(text: &[u8]) -> Sheet {
    let text = std::str::from_utf8(text).expect("the form");
    Sheet::read(text).expect("the form")
}

/// The number of the refusal, after comparing the check with the descent.
fn answer(damaged: &[u8], limits: Limits) -> Option<u16> {
    match check_text(damaged, limits) {
        Ok(sheet) => {
            assert!(descent::valid(&sheet), "{}", sheet.text());
            assert_eq!(sheet.text().as_bytes(), damaged);
            None
        }
        Err(fault) => {
            assert!(fault.line <= 1 + line_ends(damaged), "{fault}");
            if fault.number == 6 {
                let sheet = read(damaged);
                assert!(!descent::valid(&sheet), "{fault}\n{}", sheet.text());
            }
            Some(fault.number)
        }
    }
}

#[test]
fn damaged_sheets_get_every_answer() {
    for limits in [LIBRARY, PRINTING] {
        let mut rng = Rng::new(2);
        let mut answers: BTreeMap<Option<u16>, usize> = BTreeMap::new();
        let runs = 50_000;
        for text in texts(500).iter().cycle().take(runs) {
            let damaged = damage(text.as_bytes(), &mut rng);
            *answers.entry(answer(&damaged, limits)).or_default() += 1;
        }
        for (answer, count) in &answers {
            let share = *count as f64 * 100.0 / runs as f64;
            match answer {
                Some(number) => println!("refusal {number}: {share:.1} %"),
                None => println!("passes: {share:.1} %"),
            }
        }
        let seen: BTreeSet<Option<u16>> = answers.keys().copied().collect();
        let every = [None, Some(2), Some(3), Some(4), Some(5), Some(6)];
        assert_eq!(seen, BTreeSet::from(every));
        assert!(answers[&Some(6)] > runs / 2, "most fail the last question");
    }
}

#[test]
fn names_are_filled_to_both_limits_and_over_them() {
    let mut rng = Rng::new(8);
    let mut counts = BTreeSet::new();
    for text in texts(500).iter().cycle().take(20_000) {
        let damaged = damage(text.as_bytes(), &mut rng);
        if let Ok(sheet) = Sheet::read(&String::from_utf8_lossy(&damaged)) {
            counts.insert(sheet.names.len());
        }
    }
    for count in [127, 128, 129, 130, 511, 512, 513, 514] {
        assert!(counts.contains(&count), "{count} names");
    }
}

#[test]
fn damaged_edges_and_shuffled_rows() {
    let mut rng = Rng::new(5);
    // Nesting at its limit, long chains and deep expressions.
    for edge in edges(LIBRARY).iter().filter(|e| e.expected.is_ok()) {
        for limits in [LIBRARY, PRINTING] {
            for _ in 0..10 {
                answer(&damage(&edge.text, &mut rng), limits);
            }
        }
    }
    let mut trees = Trees::new(6);
    for seed in 0..3_000 {
        let shuffled = Numbering::Shuffled(Rng::new(seed));
        let text = trees.snippet().numbered(shuffled).text();
        for _ in 0..3 {
            answer(&damage(text.as_bytes(), &mut rng), PRINTING);
        }
    }
}

#[test]
fn every_way_mostly_changes_the_text() {
    let texts = texts(100);
    let ways = ways();
    let mut labels = BTreeSet::new();
    for way in &ways {
        assert!(labels.insert(way.label), "{} twice", way.label);
        let mut rng = Rng::new(3);
        let changed = texts.iter().filter(|text| {
            let damaged = way.apply(text.as_bytes(), &mut rng);
            damaged != text.as_bytes()
        });
        let changed = changed.count();
        assert!(changed * 2 > texts.len(), "{}: {changed}", way.label);
    }
    println!("{} ways", ways.len());
}

#[test]
fn any_bytes_may_be_damaged() {
    let mut rng = Rng::new(4);
    for _ in 0..2_000 {
        let bytes: Vec<u8> = (0..rng.below(60)).map(|_| rng.below(256) as u8).collect();
        for way in ways() {
            let _ = check_text(&way.apply(&bytes, &mut rng), LIBRARY);
        }
    }
    // Again and again the same sheet, until nothing is left of it.
    let mut text = texts(1).remove(0).into_bytes();
    for _ in 0..2_000 {
        text = damage(&text, &mut rng);
        let _ = check_text(&text, LIBRARY);
    }
}
