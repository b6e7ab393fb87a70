//! Sheets with as many names as there may be, whose used names lie where one word of a set ends and
//! the next begins: a name's row is its number.

use super::{array, array_compr, limits, name, names, number, plain, var, Edge};
use crate::positions::Style;
use crate::rng::Rng;
use crate::tree::{Expr, Literal, Node, Query, Snippet, Statement};

pub(super) fn add(edges: &mut Vec<Edge>, most_names: usize) {
    for count in limits::NAMES {
        let all = Rows::every(count, 1);
        let borders = Rows::borders(count);
        // There are not expressions enough to list all names twice.
        let half = Rows::every(count, 2).last(250);
        let sheets = [
            ("unscoped about the borders", borders.waiting(number())),
            ("waiting in a ring", borders.waiting(borders.first())),
            ("local about the borders", borders.locals()),
            ("inputs about the borders", borders.inputs(1)),
            ("inputs of every level", borders.inputs(limits::NESTING - 1)),
            ("unscoped throughout", all.last(500).unscoped_at_once()),
            ("local throughout", vec![all.some()]),
            ("inputs throughout", half.inputs_at_once()),
        ];
        for (what, statements) in sheets {
            let mut snippet = Snippet {
                spare_names: names(count),
                query: Query { statements },
                ..Snippet::default()
            };
            snippet.place(Style::Reading, &mut Rng::new(count as u64));
            let label = format!("{count} names, {what}");
            edges.push(Edge::by_names(label, &snippet.sheet(), most_names));
        }
    }
}

/// Rows of names, ascending.
struct Rows(Vec<usize>);

impl Rows {
    /// Every so many of the rows up to `count`, the last one among them.
    fn every(count: usize, apart: usize) -> Rows {
        let mut rows: Vec<usize> = (1..=count).rev().step_by(apart).collect();
        rows.reverse();
        Rows(rows)
    }

    /// The last row of each word, the first of the next, and the last two of all.
    fn borders(count: usize) -> Rows {
        let mut rows: Vec<usize> = (64..count).step_by(64).flat_map(|r| [r - 1, r]).collect();
        rows.extend([count - 1, count]);
        Rows(rows)
    }

    fn last(&self, most: usize) -> Rows {
        Rows(self.0[self.0.len().saturating_sub(most)..].to_vec())
    }

    fn vars(&self) -> Vec<Expr> {
        self.0.iter().map(|&row| at(row)).collect()
    }

    fn some(&self) -> Statement {
        Literal::SomeVars(self.vars()).plain()
    }

    fn first(&self) -> Expr {
        at(self.0[0])
    }

    /// Each statement waits for the one below it, which assigns a higher name; the last assigns
    /// what is given.
    fn waiting(&self, value: Expr) -> Vec<Statement> {
        let mut statements: Vec<Statement> = self
            .0
            .windows(2)
            .map(|pair| assign(at(pair[0]), at(pair[1])))
            .collect();
        statements.extend(self.0.last().map(|&row| assign(at(row), value)));
        statements
    }

    /// `low := 1`, then each name from the one before it.
    fn locals(&self) -> Vec<Statement> {
        let mut value = number();
        let mut statements = Vec::new();
        for &row in &self.0 {
            statements.push(plain(
                Node::AssignColEq(at(row).into(), value.into()).unplaced(),
            ));
            value = at(row);
        }
        statements
    }

    /// A query reads all the names below so many levels.
    fn inputs(&self, levels: usize) -> Vec<Statement> {
        let read = plain(array(self.vars()));
        let nested = (0..levels).fold(read, |inner, _| plain(array_compr(number(), vec![inner])));
        let mut statements = self.locals();
        statements.push(nested);
        statements
    }

    fn unscoped_at_once(&self) -> Vec<Statement> {
        vec![assign(array(self.vars()), number())]
    }

    fn inputs_at_once(&self) -> Vec<Statement> {
        let mut statements = self.unscoped_at_once();
        let read = plain(array(self.vars()));
        statements.push(plain(array_compr(number(), vec![read])));
        statements
    }
}

fn at(row: usize) -> Expr {
    var(&name(row))
}

fn assign(left: Expr, right: Expr) -> Statement {
    plain(Node::AssignEq(left.into(), right.into()).unplaced())
}
