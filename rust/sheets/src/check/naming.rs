//! Who names whom, and what follows: the query that encloses a row, and a query's level.

use crate::sheet::Sheet;

/// A row of one of the three sections whose rows are named.
#[derive(Clone, Copy, Debug, PartialEq, Eq)]
pub(super) enum Row {
    Expr(usize),
    Statement(usize),
    Query(usize),
}

/// One naming of a row.
#[derive(Clone, Copy, Debug)]
pub(super) struct Naming {
    by: Row,
    /// Whether the row is named as a comprehension's term, key or value.
    term: bool,
}

/// All namings of each row; row `r` stands at index `r - 1`.
pub(super) struct Namings {
    exprs: Vec<Vec<Naming>>,
    statements: Vec<Vec<Naming>>,
    queries: Vec<Vec<Naming>>,
    /// The query that each expression row names.
    query_of: Vec<Option<usize>>,
}

impl Namings {
    pub(super) fn of(sheet: &Sheet) -> Namings {
        Namings {
            exprs: vec![Vec::new(); sheet.exprs.len()],
            statements: vec![Vec::new(); sheet.statements.len()],
            queries: vec![Vec::new(); sheet.queries.len()],
            query_of: vec![None; sheet.exprs.len()],
        }
    }

    pub(super) fn expr(&mut self, to: usize, by: Row) {
        self.exprs[to - 1].push(Naming { by, term: false });
    }

    pub(super) fn term(&mut self, to: usize, by: Row) {
        self.exprs[to - 1].push(Naming { by, term: true });
    }

    pub(super) fn statement(&mut self, to: usize, by: Row) {
        self.statements[to - 1].push(Naming { by, term: false });
    }

    pub(super) fn query(&mut self, to: usize, by: Row) {
        self.queries[to - 1].push(Naming { by, term: false });
        if let Row::Expr(row) = by {
            self.query_of[row - 1] = Some(to);
        }
    }

    /// The one naming of a row that is named so: exactly once, and by a smaller row where both
    /// are in one section.
    pub(super) fn only(&self, row: Row) -> Option<Naming> {
        let namings = match row {
            Row::Expr(r) => &self.exprs[r - 1],
            Row::Statement(r) => &self.statements[r - 1],
            Row::Query(r) => &self.queries[r - 1],
        };
        let [naming] = namings[..] else {
            return None;
        };
        let upwards = match (naming.by, row) {
            (Row::Expr(by), Row::Expr(r)) => by < r,
            (Row::Statement(by), Row::Statement(r)) => by < r,
            _ => true,
        };
        upwards.then_some(naming)
    }

    /// The query that a statement or expression lies in, where rows that are named so tell it.
    pub(super) fn enclosing(&self, row: Row) -> Option<usize> {
        // Each step goes to a smaller row of the section, or on to statements or queries.
        let mut row = row;
        loop {
            if let Row::Query(query) = row {
                return Some(query);
            }
            let naming = self.only(row)?;
            match naming.by {
                Row::Expr(whole) if naming.term => return self.query_of[whole - 1],
                by => row = by,
            }
        }
    }

    /// A query's level, where rows that are named so tell it. Row 1 is level 1.
    pub(super) fn level(&self, query: usize) -> Option<usize> {
        let mut query = query;
        // Queries that enclose one another never lead to row 1.
        for level in 1..=self.queries.len() {
            if query == 1 {
                return Some(level);
            }
            query = self.enclosing(self.only(Row::Query(query))?.by)?;
        }
        None
    }
}
