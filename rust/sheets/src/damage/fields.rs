//! Faults of single fields. Most leave the form and the counts as they are.

use super::page::{Cell, Page, BUILTINS, EXPRS, QUERIES, STATEMENTS};
use crate::rng::Rng;
use crate::sheet::limits;

type Harm = fn(&mut Page, &mut Rng);

/// Each fault with how often it is taken.
pub(super) const WAYS: &[(&str, usize, Harm)] = &[
    ("a field set to 0", 6, zero),
    ("a field one up", 6, up),
    ("a field one down", 6, down),
    ("a field set to any row", 8, any_row),
    ("a field set to its own row", 3, itself),
    ("a field one past its section", 4, past),
    ("a field 65535", 2, largest),
    ("a field 65536", 1, too_large),
    ("a field that was 0 set", 5, fill),
    ("two fields of a row exchanged", 5, exchange_in_row),
    ("a column of two rows exchanged", 8, exchange_in_column),
    ("two fields exchanged", 4, exchange),
    ("an unknown kind", 2, unknown_kind),
    ("another kind", 6, other_kind),
    ("an unknown form", 2, unknown_form),
    ("another form", 4, other_form),
    ("next leads back", 4, next_back),
    ("next leads on", 4, next_on),
    ("a nested query renamed", 4, other_query),
    ("two nested queries exchanged", 4, exchange_queries),
    ("a position changed", 3, position),
    ("an arity about its limit", 2, arity),
    ("a gap in a path", 2, gap),
    ("a path twice", 2, path_twice),
];

const KIND: usize = 0;
const NAME: usize = 1;
const EXPR_THIRD: usize = 6;
const EXPR_NEXT: usize = 7;
const STATEMENT_QUERY: usize = 4;
const STATEMENT_NEXT: usize = 6;

fn zero(page: &mut Page, rng: &mut Rng) {
    if let Some(cell) = page.cell_where(rng, |value| value != 0) {
        page.set(cell, 0);
    }
}

fn up(page: &mut Page, rng: &mut Rng) {
    if let Some(cell) = page.cell(rng) {
        page.set(cell, page.get(cell) + 1);
    }
}

fn down(page: &mut Page, rng: &mut Rng) {
    if let Some(cell) = page.cell_where(rng, |value| value != 0) {
        page.set(cell, page.get(cell) - 1);
    }
}

fn any_row(page: &mut Page, rng: &mut Rng) {
    if let Some(cell) = page.cell_where(rng, |value| value != 0) {
        let row = rng.between(1, page.count(target(cell)).max(1));
        page.set(cell, row as u32);
    }
}

fn itself(page: &mut Page, rng: &mut Rng) {
    if let Some(cell) = page.cell(rng) {
        page.set(cell, cell.row as u32);
    }
}

fn past(page: &mut Page, rng: &mut Rng) {
    if let Some(cell) = page.cell(rng) {
        let past = page.count(target(cell)) + 1;
        page.set(cell, past as u32);
    }
}

fn largest(page: &mut Page, rng: &mut Rng) {
    if let Some(cell) = page.cell(rng) {
        page.set(cell, 65_535);
    }
}

fn too_large(page: &mut Page, rng: &mut Rng) {
    if let Some(cell) = page.cell(rng) {
        page.set(cell, 65_536);
    }
}

fn fill(page: &mut Page, rng: &mut Rng) {
    if let Some(cell) = page.cell_where(rng, |value| value == 0) {
        let row = rng.between(1, page.count(target(cell)).max(1));
        page.set(cell, row as u32);
    }
}

/// The section that a field mostly refers to.
fn target(cell: Cell) -> usize {
    match (cell.section, cell.column) {
        (BUILTINS, _) | (EXPRS, NAME) => super::page::NAMES,
        (STATEMENTS, STATEMENT_QUERY) => QUERIES,
        (STATEMENTS, STATEMENT_NEXT) | (QUERIES, _) => STATEMENTS,
        _ => EXPRS,
    }
}

fn swap(page: &mut Page, a: Cell, b: Cell) {
    let (value_a, value_b) = (page.get(a), page.get(b));
    page.set(a, value_b);
    page.set(b, value_a);
}

fn exchange_in_row(page: &mut Page, rng: &mut Rng) {
    let Some(a) = page.cell_where(rng, |value| value != 0) else {
        return;
    };
    let columns = page.sections[a.section][a.row].split(' ').count();
    let column = rng.below(columns);
    swap(page, a, Cell { column, ..a });
}

fn exchange_in_column(page: &mut Page, rng: &mut Rng) {
    let Some(a) = page.cell_where(rng, |value| value != 0) else {
        return;
    };
    // Mostly with a row that has a value there too.
    let other = |rng: &mut Rng| Cell {
        row: rng.between(1, page.count(a.section)),
        ..a
    };
    let b = (0..8)
        .map(|_| other(rng))
        .find(|&b| b.row != a.row && page.get(b) != 0)
        .unwrap_or_else(|| other(rng));
    swap(page, a, b);
}

fn exchange(page: &mut Page, rng: &mut Rng) {
    let set = |page: &Page, rng: &mut Rng| page.cell_where(rng, |value| value != 0);
    if let (Some(a), Some(b)) = (set(page, rng), set(page, rng)) {
        swap(page, a, b);
    }
}

/// The kind of an expression or the form of a statement.
fn sort_of(page: &Page, section: usize, rng: &mut Rng) -> Option<Cell> {
    let row = page.row(section, rng)?;
    Some(Cell {
        section,
        row,
        column: KIND,
    })
}

fn unknown_kind(page: &mut Page, rng: &mut Rng) {
    if let Some(cell) = sort_of(page, EXPRS, rng) {
        page.set(cell, *rng.pick(&[0, 23, 24, 255, 256, 65_535]));
    }
}

fn other_kind(page: &mut Page, rng: &mut Rng) {
    if let Some(cell) = sort_of(page, EXPRS, rng) {
        page.set(cell, rng.between(1, 22) as u32);
    }
}

fn unknown_form(page: &mut Page, rng: &mut Rng) {
    if let Some(cell) = sort_of(page, STATEMENTS, rng) {
        page.set(cell, *rng.pick(&[0, 6, 7, 255, 256, 65_535]));
    }
}

fn other_form(page: &mut Page, rng: &mut Rng) {
    if let Some(cell) = sort_of(page, STATEMENTS, rng) {
        page.set(cell, rng.between(1, 5) as u32);
    }
}

/// The field `next` of an expression or a statement.
fn next(page: &Page, rng: &mut Rng) -> Option<Cell> {
    let (section, column) = if rng.percent(75) {
        (EXPRS, EXPR_NEXT)
    } else {
        (STATEMENTS, STATEMENT_NEXT)
    };
    let row = page.row(section, rng)?;
    Some(Cell {
        section,
        row,
        column,
    })
}

fn next_back(page: &mut Page, rng: &mut Rng) {
    if let Some(cell) = next(page, rng) {
        page.set(cell, rng.between(1, cell.row) as u32);
    }
}

fn next_on(page: &mut Page, rng: &mut Rng) {
    if let Some(cell) = next(page, rng) {
        page.set(cell, rng.between(cell.row, page.count(cell.section)) as u32);
    }
}

/// The fields that name a query.
fn query_cells(page: &Page) -> Vec<Cell> {
    let cells = |section, column| {
        (1..=page.count(section)).map(move |row| Cell {
            section,
            row,
            column,
        })
    };
    let comprehension = |cell: &Cell| {
        let kind = page.get(Cell {
            column: KIND,
            ..*cell
        });
        (10..=12).contains(&kind)
    };
    let mut all: Vec<Cell> = cells(EXPRS, EXPR_THIRD).filter(comprehension).collect();
    all.extend(cells(STATEMENTS, STATEMENT_QUERY).filter(|&cell| page.get(cell) != 0));
    all
}

fn other_query(page: &mut Page, rng: &mut Rng) {
    let cells = query_cells(page);
    if !cells.is_empty() {
        let row = rng.between(1, page.count(QUERIES).max(1));
        page.set(*rng.pick(&cells), row as u32);
    }
}

fn exchange_queries(page: &mut Page, rng: &mut Rng) {
    let cells = query_cells(page);
    if cells.len() > 1 {
        let first = rng.below(cells.len());
        let second = (first + rng.between(1, cells.len() - 1)) % cells.len();
        swap(page, cells[first], cells[second]);
    }
}

/// Any position is valid, so this fault alone leaves a sheet that passes.
fn position(page: &mut Page, rng: &mut Rng) {
    if let Some(row) = page.row(EXPRS, rng) {
        let cell = Cell {
            section: EXPRS,
            row,
            column: rng.between(2, 3),
        };
        page.set(cell, rng.below(65_536) as u32);
    }
}

fn builtin(page: &Page, column: usize, rng: &mut Rng) -> Option<Cell> {
    let row = page.row(BUILTINS, rng)?;
    Some(Cell {
        section: BUILTINS,
        row,
        column,
    })
}

fn arity(page: &mut Page, rng: &mut Rng) {
    if let Some(cell) = builtin(page, 0, rng) {
        let limit = u32::from(limits::ARITY);
        page.set(cell, *rng.pick(&[limit, limit + 1, 512, 65_535]));
    }
}

fn gap(page: &mut Page, rng: &mut Rng) {
    if let Some(cell) = builtin(page, 2, rng) {
        page.set(cell, 0);
        page.set(Cell { column: 3, ..cell }, 1);
    }
}

fn path_twice(page: &mut Page, rng: &mut Rng) {
    if let (Some(a), Some(b)) = (builtin(page, 0, rng), builtin(page, 0, rng)) {
        for column in 1..=3 {
            let value = page.get(Cell { column, ..a });
            page.set(Cell { column, ..b }, value);
        }
        // The arity plays no part.
        page.set(b, rng.below(9) as u32);
    }
}
