//! Which rows name which, what lies in which query, and how deep.

use crate::Rows;

pub const EXPRESSION: usize = 2;
pub const STATEMENT: usize = 3;
pub const QUERY: usize = 4;

/// A row: its section and its number.
#[derive(Clone, Copy, Debug, PartialEq, Eq)]
pub struct Row {
    pub section: usize,
    pub number: usize,
}

/// How a row is named: the expression that a comprehension puts out lies in the query that the
/// comprehension names, every other in the query of its namer.
#[derive(Clone, Copy, Debug, PartialEq, Eq)]
pub enum How {
    Plain,
    ChainStart,
    Next,
    Output,
    Query,
}

#[derive(Clone, Copy, Debug)]
struct Naming {
    by: Row,
    to: Row,
    how: How,
}

/// All namings of a sheet.
#[derive(Default)]
pub struct References {
    namings: Vec<Naming>,
    members: Vec<bool>,
}

impl References {
    pub fn new(rows: &Rows) -> References {
        References {
            namings: Vec::new(),
            members: vec![false; rows.sections[EXPRESSION - 1].len() + 1],
        }
    }

    pub fn add(&mut self, by: Row, to: Row, how: How) {
        self.namings.push(Naming { by, to, how });
        let chain = matches!(how, How::ChainStart | How::Next) && to.section == EXPRESSION;
        if chain && smaller(by, to) {
            self.members[to.number] = true;
        }
    }

    /// Is the expression in a chain, as far as the rows before it say?
    pub fn is_member(&self, expression: usize) -> bool {
        self.members[expression]
    }

    fn namers(&self, row: Row) -> Vec<Naming> {
        self.namings
            .iter()
            .filter(|n| n.to == row)
            .copied()
            .collect()
    }

    /// The one naming of a row that is named exactly once, and by a smaller row of its section if
    /// by one of its section.
    fn naming(&self, row: Row) -> Option<Naming> {
        match self.namers(row)[..] {
            [naming] if smaller(naming.by, row) => Some(naming),
            _ => None,
        }
    }

    pub fn named_so(&self, row: Row) -> bool {
        self.naming(row).is_some()
    }

    /// The query that a statement or expression lies in, where namings tell.
    pub fn enclosing(
        &self,
        row: Row,
        output_query: &dyn Fn(Row) -> Option<usize>,
    ) -> Option<usize> {
        let naming = self.naming(row)?;
        match (naming.by.section, naming.how) {
            (QUERY, _) => Some(naming.by.number),
            (_, How::Output) => output_query(naming.by),
            _ => self.enclosing(naming.by, output_query),
        }
    }

    /// The level of a query, where namings tell; `seen` are the queries below it.
    pub fn level(
        &self,
        query: usize,
        output_query: &dyn Fn(Row) -> Option<usize>,
        seen: &mut Vec<usize>,
    ) -> Option<usize> {
        if query == 1 {
            return Some(1);
        }
        if seen.contains(&query) {
            return None;
        }
        seen.push(query);
        let naming = self.naming(Row {
            section: QUERY,
            number: query,
        })?;
        let around = self.enclosing(naming.by, output_query)?;
        Some(self.level(around, output_query, seen)? + 1)
    }
}

fn smaller(by: Row, to: Row) -> bool {
    by.section != to.section || by.number < to.number
}
