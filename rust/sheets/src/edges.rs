//! The edges of the specification: one below, at and one above each limit, and the smallest
//! and deepest sheets. Every expected result is written from the specification; none is
//! computed by [`crate::check`].
//!
//! The library and the printing program have the same edges, with other results where names count.

mod counts;
mod deep;
mod long;
mod rows_of_names;
mod shapes;
mod texts;
mod twice;

use crate::check::Fault;
use crate::sheet::limits::Limits;
use crate::sheet::Sheet;
use crate::tree::{Expr, Literal, Node, Query, Snippet, Statement};

/// A text at an edge, and what questions 2 to 6 say of it.
#[derive(Clone, Debug)]
pub struct Edge {
    /// What the edge is; no two are alike.
    pub label: String,
    /// The sheet's bytes, valid or not.
    pub text: Vec<u8>,
    /// Passing, or the refusal.
    pub expected: Result<(), Fault>,
}

/// All edges, with what these limits make of them.
pub fn edges(limits: Limits) -> Vec<Edge> {
    let most_names = limits.names;
    let mut edges = Vec::new();
    counts::add(&mut edges, most_names);
    rows_of_names::add(&mut edges, most_names);
    shapes::add(&mut edges, most_names);
    deep::add(&mut edges);
    long::add(&mut edges, most_names);
    texts::add(&mut edges, most_names);
    twice::add(&mut edges);
    edges
}

impl Edge {
    fn passes(label: impl Into<String>, text: impl Into<Vec<u8>>) -> Edge {
        Edge {
            label: label.into(),
            text: text.into(),
            expected: Ok(()),
        }
    }

    fn refused(
        label: impl Into<String>,
        text: impl Into<Vec<u8>>,
        number: u16,
        line: usize,
    ) -> Edge {
        Edge {
            label: label.into(),
            text: text.into(),
            expected: Err(Fault { number, line }),
        }
    }

    /// Of a sheet that is refused for its names where there are too many, and else passes.
    fn by_names(label: impl Into<String>, sheet: &Sheet, most_names: usize) -> Edge {
        if sheet.names.len() <= most_names {
            Edge::passes(label, sheet.text())
        } else {
            // The first name over the limit.
            let line = headings(sheet).name + most_names + 1;
            Edge::refused(label, sheet.text(), 5, line)
        }
    }
}

/// The limits once more, written from the specification, so that a slip elsewhere shows.
mod limits {
    pub(super) const BYTES: usize = 32_768;
    /// Of the printing program and of the library.
    pub(super) const NAMES: [usize; 2] = [127, 511];
    pub(super) const NAME_BYTES: usize = 32;
    pub(super) const BUILTINS: usize = 64;
    pub(super) const ARITY: u16 = 255;
    pub(super) const EXPRESSIONS: usize = 512;
    pub(super) const STATEMENTS: usize = 128;
    pub(super) const QUERIES: usize = 32;
    pub(super) const NESTING: usize = 8;
}

/// The lines of the five headings: the first is line 1, and each other stands below the rows
/// and the empty line of the section before it.
struct Headings {
    name: usize,
    arity: usize,
    kind: usize,
    form: usize,
    statement: usize,
}

fn headings(sheet: &Sheet) -> Headings {
    let name = 1;
    let arity = name + sheet.names.len() + 2;
    let kind = arity + sheet.builtins.len() + 2;
    let form = kind + sheet.exprs.len() + 2;
    let statement = form + sheet.statements.len() + 2;
    Headings {
        name,
        arity,
        kind,
        form,
        statement,
    }
}

fn var(name: &str) -> Expr {
    Node::Var(name.to_string()).unplaced()
}

fn number() -> Expr {
    Node::Number.unplaced()
}

fn array(items: Vec<Expr>) -> Expr {
    Node::Array(items).unplaced()
}

fn array_compr(term: Expr, statements: Vec<Statement>) -> Expr {
    Node::ArrayCompr(Box::new(term), Query { statements }).unplaced()
}

fn plain(e: Expr) -> Statement {
    Literal::Expr(e).plain()
}

/// `count` names, ascending.
fn names(count: usize) -> Vec<String> {
    (1..=count).map(name).collect()
}

/// The name of a row, where no other names stand between.
fn name(row: usize) -> String {
    format!("n{row:04}")
}

/// The sheet of an outer query.
fn sheet(statements: Vec<Statement>) -> Sheet {
    let snippet = Snippet {
        query: Query { statements },
        ..Snippet::default()
    };
    snippet.sheet()
}
