//! The generator: valid sheets, all features, the same for the same seed.

use sheets::layout::Numbering;
use sheets::limits::{LIBRARY, PRINTING};
use sheets::rng::Rng;
use sheets::tree::Snippet;
use sheets::{census, check, generate, Kind, Sheet};
use std::collections::{BTreeMap, BTreeSet};

#[test]
fn generated_sheets_pass_questions_2_to_6() {
    for seed in 1..=20_000 {
        let sheet = generate::sheet(seed);
        assert_eq!(check::check(&sheet, LIBRARY), Ok(()), "seed {seed}");
    }
}

#[test]
fn few_names_are_within_the_printing_program_and_many_are_not() {
    for seed in 1..=5_000 {
        let few = generate::few(seed);
        assert_eq!(check::check(&few, PRINTING), Ok(()), "seed {seed}");
        let names = generate::many(seed).names.len();
        assert!((128..=511).contains(&names), "seed {seed}: {names}");
    }
}

#[test]
fn half_of_the_sheets_have_many_names_and_half_few() {
    const SHEETS: u64 = 20_000;
    let many = (1..=SHEETS).filter(|&seed| generate::sheet(seed).names.len() > 127);
    let share = many.count() as f64 / SHEETS as f64;
    println!("{:.1} % have more than 127 names", 100.0 * share);
    assert!((0.5..0.55).contains(&share));
}

/// The rows of the names that variables of a sheet have.
fn variables(sheet: &Sheet) -> BTreeSet<u16> {
    let vars = sheet.exprs.iter().filter(|e| e.kind == Kind::Var as u16);
    vars.map(|e| e.name).collect()
}

#[test]
fn variables_lie_about_the_borders_of_words_and_in_several_words() {
    let mut by_row: BTreeMap<u16, usize> = BTreeMap::new();
    let (mut by_words, mut most) = ([0; 9], 0);
    for seed in 1..=5_000 {
        let rows = variables(&generate::many(seed));
        let words: BTreeSet<u16> = rows.iter().map(|row| row / 64).collect();
        by_words[words.len()] += 1;
        most = most.max(rows.len());
        for row in rows {
            *by_row.entry(row).or_default() += 1;
        }
    }
    println!("sheets by words that variables lie in: {by_words:?}; at most {most} variables");
    let borders = (63..512).filter(|row| matches!(row % 64, 0 | 63));
    let rare: Vec<u16> = borders.filter(|row| by_row[row] < 50).collect();
    assert!(rare.is_empty(), "{rare:?}");
    assert!((1..=511).all(|row| by_row.contains_key(&row)));
    assert!((1..=8).all(|words| by_words[words] > 100));
    assert!(most > 64);
}

#[test]
fn a_seed_gives_the_same_sheet_each_time() {
    for seed in 1..=200 {
        assert_eq!(generate::sheet(seed), generate::sheet(seed));
    }
}

#[test]
fn every_feature_is_generated_often() {
    const SHEETS: u64 = 10_000;
    let mut counts: BTreeMap<String, u64> =
        census::features().into_iter().map(|f| (f, 0)).collect();
    for seed in 1..=SHEETS {
        for feature in census::features_of(&generate::sheet(seed)) {
            *counts.entry(feature).or_default() += 1;
        }
    }
    let rare: Vec<_> = counts.iter().filter(|(_, &n)| n < 20).collect();
    assert!(rare.is_empty(), "of {SHEETS} sheets too few have: {rare:?}");
}

#[test]
fn texts_are_read_back() {
    for seed in 1..=5_000 {
        let sheet = generate::sheet(seed);
        assert_eq!(
            Sheet::read(&sheet.text()).as_ref(),
            Ok(&sheet),
            "seed {seed}"
        );
    }
}

#[test]
fn trees_and_rows_say_the_same() {
    for seed in 1..=5_000 {
        let sheet = generate::sheet(seed);
        let snippet = Snippet::of_sheet(&sheet);
        let again = snippet.numbered(Numbering::Shuffled(Rng::new(seed)));
        assert_eq!(check::check(&again, LIBRARY), Ok(()), "seed {seed}");
        assert_eq!(Snippet::of_sheet(&again), snippet, "seed {seed}");
    }
}
