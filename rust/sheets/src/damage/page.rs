//! A sheet's text as sections of lines, of which some are rows of fields.

use crate::rng::Rng;
use crate::sheet::Sheet;

/// Sections in their order, each its heading and its rows. Values stay text, so that a fault
/// can put anything there.
pub(super) struct Page {
    pub(super) sections: Vec<Vec<String>>,
}

pub(super) const NAMES: usize = 0;
pub(super) const BUILTINS: usize = 1;
pub(super) const EXPRS: usize = 2;
pub(super) const STATEMENTS: usize = 3;
pub(super) const QUERIES: usize = 4;

/// A field's place. Rows count from 1 since the heading is line 0 of its section.
#[derive(Clone, Copy)]
pub(super) struct Cell {
    pub(super) section: usize,
    pub(super) row: usize,
    pub(super) column: usize,
}

impl Page {
    /// The page of a text that has the form of a sheet.
    pub(super) fn read(text: &[u8]) -> Option<Page> {
        let text = std::str::from_utf8(text).ok()?;
        Sheet::read(text).ok()?;
        let sections = text
            .split_terminator("\n\n")
            .map(|section| section.split('\n').map(str::to_string).collect())
            .collect();
        Some(Page { sections })
    }

    pub(super) fn text(&self) -> Vec<u8> {
        let mut text = String::new();
        for line in self.sections.iter().flat_map(|s| s.iter().chain([&EMPTY])) {
            text.push_str(line);
            text.push('\n');
        }
        text.into_bytes()
    }

    /// How many rows a section has.
    pub(super) fn count(&self, section: usize) -> usize {
        self.sections[section].len() - 1
    }

    /// A section that has rows: mostly one of the three whose rows are named.
    pub(super) fn section(&self, rng: &mut Rng) -> Option<usize> {
        let weights: Vec<usize> = [10, 10, 45, 25, 10]
            .iter()
            .enumerate()
            .map(|(section, weight)| weight * self.count(section).min(1))
            .collect();
        (weights.iter().sum::<usize>() > 0).then(|| rng.weighted(&weights))
    }

    pub(super) fn row(&self, section: usize, rng: &mut Rng) -> Option<usize> {
        let count = self.count(section);
        (count > 0).then(|| rng.between(1, count))
    }

    /// Any field that is not a name, a kind, a form or a position.
    pub(super) fn cell(&self, rng: &mut Rng) -> Option<Cell> {
        let cells = self.cells(|_| true);
        (!cells.is_empty()).then(|| *rng.pick(&cells))
    }

    /// As [`Page::cell`], where the value satisfies a condition.
    pub(super) fn cell_where(&self, rng: &mut Rng, holds: fn(u32) -> bool) -> Option<Cell> {
        let cells = self.cells(holds);
        (!cells.is_empty()).then(|| *rng.pick(&cells))
    }

    fn cells(&self, holds: impl Fn(u32) -> bool) -> Vec<Cell> {
        let mut cells = Vec::new();
        for (section, columns) in [
            (BUILTINS, &[0, 1, 2, 3][..]),
            (EXPRS, &[1, 4, 5, 6, 7]),
            (STATEMENTS, &[1, 2, 3, 4, 5, 6]),
            (QUERIES, &[0]),
        ] {
            for row in 1..=self.count(section) {
                cells.extend(columns.iter().map(|&column| Cell {
                    section,
                    row,
                    column,
                }));
            }
        }
        cells.retain(|&cell| holds(self.get(cell)));
        cells
    }

    pub(super) fn get(&self, cell: Cell) -> u32 {
        let field = self.sections[cell.section][cell.row]
            .split(' ')
            .nth(cell.column);
        field.and_then(|f| f.parse().ok()).unwrap_or(0)
    }

    pub(super) fn set(&mut self, cell: Cell, value: u32) {
        let line = &mut self.sections[cell.section][cell.row];
        let mut fields: Vec<String> = line.split(' ').map(str::to_string).collect();
        fields[cell.column] = value.to_string();
        *line = fields.join(" ");
    }
}

static EMPTY: String = String::new();
