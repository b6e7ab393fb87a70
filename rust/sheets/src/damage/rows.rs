//! Faults of whole rows, of sections and of names.

use super::page::{Page, BUILTINS, EXPRS, NAMES, QUERIES, STATEMENTS};
use crate::rng::Rng;
use crate::sheet::limits;

type Harm = fn(&mut Page, &mut Rng);

/// Each fault with how often it is taken.
pub(super) const WAYS: &[(&str, usize, Harm)] = &[
    ("a row deleted", 4, delete),
    ("the last row deleted", 2, delete_last),
    ("a row doubled", 3, double),
    ("two rows exchanged", 4, exchange),
    ("two neighbours exchanged", 4, exchange_neighbours),
    ("a row moved to the end", 3, move_to_end),
    ("a row appended", 3, append),
    ("a row of another section", 1, foreign),
    ("a section emptied", 2, empty),
    ("no query", 1, no_query),
    ("a section filled to its limit", 1, fill),
    ("a section filled over its limit", 2, overfill),
    ("a section lost", 1, lose),
    ("a section doubled", 1, double_section),
    ("two sections exchanged", 1, exchange_sections),
    ("a heading changed", 1, heading),
    ("a heading lost", 1, lose_heading),
    ("a name with a bad letter", 1, bad_letter),
    ("a name with a bad first letter", 1, bad_first_letter),
    ("a name of 33 bytes", 1, long_name),
    ("a name of 32 bytes", 1, longest_name),
    ("a name twice", 1, name_twice),
    ("two names exchanged", 1, exchange_names),
    ("a name that is no ASCII", 1, foreign_name),
];

/// A section with rows, and one of its rows.
fn any_row(page: &Page, rng: &mut Rng) -> Option<(usize, usize)> {
    let section = page.section(rng)?;
    Some((section, page.row(section, rng)?))
}

fn delete(page: &mut Page, rng: &mut Rng) {
    if let Some((section, row)) = any_row(page, rng) {
        page.sections[section].remove(row);
    }
}

fn delete_last(page: &mut Page, rng: &mut Rng) {
    if let Some(section) = page.section(rng) {
        page.sections[section].pop();
    }
}

fn double(page: &mut Page, rng: &mut Rng) {
    if let Some((section, row)) = any_row(page, rng) {
        let line = page.sections[section][row].clone();
        page.sections[section].insert(row, line);
    }
}

fn exchange(page: &mut Page, rng: &mut Rng) {
    if let Some((section, row)) = any_row(page, rng) {
        let other = rng.between(1, page.count(section));
        page.sections[section].swap(row, other);
    }
}

fn exchange_neighbours(page: &mut Page, rng: &mut Rng) {
    if let Some((section, row)) = any_row(page, rng) {
        let neighbour = if row == 1 {
            page.count(section)
        } else {
            row - 1
        };
        page.sections[section].swap(row, neighbour);
    }
}

fn move_to_end(page: &mut Page, rng: &mut Rng) {
    if let Some((section, row)) = any_row(page, rng) {
        let line = page.sections[section].remove(row);
        page.sections[section].push(line);
    }
}

/// A copy of a row, or a leaf, a query or a name that no row knows of.
fn append(page: &mut Page, rng: &mut Rng) {
    let line = match rng.below(3) {
        0 => (EXPRS, "3 0 0 0 0 0 0 0".to_string()),
        1 => (QUERIES, "0".to_string()),
        _ => match any_row(page, rng) {
            Some((section, row)) => (section, page.sections[section][row].clone()),
            None => (NAMES, "zz".to_string()),
        },
    };
    page.sections[line.0].push(line.1);
}

fn foreign(page: &mut Page, rng: &mut Rng) {
    if let Some((section, row)) = any_row(page, rng) {
        let line = page.sections[section][row].clone();
        let to = (section + rng.between(1, 4)) % 5;
        page.sections[to].push(line);
    }
}

fn empty(page: &mut Page, rng: &mut Rng) {
    if let Some(section) = page.section(rng) {
        page.sections[section].truncate(1);
    }
}

fn no_query(page: &mut Page, _: &mut Rng) {
    page.sections[QUERIES].truncate(1);
}

fn fill(page: &mut Page, rng: &mut Rng) {
    fill_to(page, 0, rng);
}

fn overfill(page: &mut Page, rng: &mut Rng) {
    let over = rng.between(1, 3);
    fill_to(page, over, rng);
}

/// The most rows of a section; of the names, by one program's limits or by the other's.
fn most(page: &Page, section: usize, rng: &mut Rng) -> usize {
    let [few, many] = [limits::PRINTING, limits::LIBRARY].map(|limits| limits.names);
    match section {
        NAMES if page.count(NAMES) < few && rng.percent(50) => few,
        NAMES => many,
        BUILTINS => limits::BUILTINS,
        EXPRS => limits::EXPRESSIONS,
        STATEMENTS => limits::STATEMENTS,
        _ => limits::QUERIES,
    }
}

/// Copies of the last row, or further names, up to the section's limit and `over` more.
fn fill_to(page: &mut Page, over: usize, rng: &mut Rng) {
    let Some(section) = page.section(rng) else {
        return;
    };
    let wanted = 1 + most(page, section, rng) + over;
    for extra in page.sections[section].len()..wanted {
        let line = match section {
            NAMES => format!("zz{extra:03}"),
            _ => page.sections[section].last().cloned().unwrap_or_default(),
        };
        page.sections[section].push(line);
    }
}

fn lose(page: &mut Page, rng: &mut Rng) {
    page.sections.remove(rng.below(5));
}

fn double_section(page: &mut Page, rng: &mut Rng) {
    let section = rng.below(5);
    page.sections
        .insert(section, page.sections[section].clone());
}

fn exchange_sections(page: &mut Page, rng: &mut Rng) {
    let first = rng.below(5);
    let second = (first + rng.between(1, 4)) % 5;
    page.sections.swap(first, second);
}

fn heading(page: &mut Page, rng: &mut Rng) {
    let section = rng.below(5);
    let heading = &mut page.sections[section][0];
    match rng.below(4) {
        0 => heading.push(' '),
        1 => drop(heading.pop()),
        2 => *heading = heading.to_uppercase(),
        _ => *heading = heading.replace("first second", "second first") + "s",
    }
}

fn lose_heading(page: &mut Page, rng: &mut Rng) {
    let section = rng.below(5);
    page.sections[section].remove(0);
}

/// Changes one name.
fn name(page: &mut Page, rng: &mut Rng, change: impl FnOnce(&mut String)) {
    if let Some(row) = page.row(NAMES, rng) {
        change(&mut page.sections[NAMES][row]);
    }
}

fn bad_letter(page: &mut Page, rng: &mut Rng) {
    let letter = *rng.pick(&["-", ".", " ", "\r", "\t", "\0", "$", "\u{7f}"]);
    name(page, rng, |name| name.push_str(letter));
}

fn bad_first_letter(page: &mut Page, rng: &mut Rng) {
    let letter = *rng.pick(&["0", "9", "-", " ", "."]);
    name(page, rng, |name| name.insert_str(0, letter));
}

/// The name made longer with `z`, which mostly leaves it ascending.
fn lengthen(page: &mut Page, rng: &mut Rng, bytes: usize) {
    name(page, rng, |name| {
        while name.len() < bytes {
            name.push('z');
        }
    });
}

fn long_name(page: &mut Page, rng: &mut Rng) {
    lengthen(page, rng, limits::NAME_BYTES + 1);
}

fn longest_name(page: &mut Page, rng: &mut Rng) {
    lengthen(page, rng, limits::NAME_BYTES);
}

fn name_twice(page: &mut Page, rng: &mut Rng) {
    if let (Some(from), Some(to)) = (page.row(NAMES, rng), page.row(NAMES, rng)) {
        page.sections[NAMES][to] = page.sections[NAMES][from].clone();
    }
}

fn exchange_names(page: &mut Page, rng: &mut Rng) {
    if let (Some(first), Some(second)) = (page.row(NAMES, rng), page.row(NAMES, rng)) {
        page.sections[NAMES].swap(first, second);
    }
}

fn foreign_name(page: &mut Page, rng: &mut Rng) {
    let letter = *rng.pick(&["\u{e9}", "\u{3b1}", "\u{1f980}", "\u{660}"]);
    name(page, rng, |name| name.push_str(letter));
}
