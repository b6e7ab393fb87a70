//! Depth where the analysis goes down in more than one way: both sides of an assignment, patterns
//! of some-in, queries below deep expressions and at the end of long lists.

use super::{array, array_compr, limits, number, plain, sheet, var, Edge};
use crate::tree::{Expr, Literal, Node, Query, Statement};

pub(super) fn add(edges: &mut Vec<Edge>) {
    for way in WAYS {
        for (label, statement) in way.statements() {
            let label = format!("{} {label}", way.label);
            edges.push(Edge::passes(label, sheet(vec![statement]).text()));
        }
    }
    let mut inner: Vec<Statement> = (0..limits::STATEMENTS - 8)
        .map(|_| plain(number()))
        .collect();
    inner.push(assign(var("x"), number()));
    let below = nested(inner, |inner| {
        assign(var("x"), array_compr(var("x"), inner))
    });
    let label = "a long query below seven others";
    edges.push(Edge::passes(label, sheet(vec![below]).text()));
    let with = Statement {
        literal: Literal::Expr(assigned(array(vec![var("x")]), array(vec![number()]))),
        with: vec![array_compr(number(), vec![]); limits::QUERIES - 1],
    };
    let label = "as many comprehensions as can be in modifiers";
    edges.push(Edge::passes(label, sheet(vec![with]).text()));
}

/// A way to go down: one level around an expression, which adds `rows`, and what is at the bottom.
struct Way {
    label: &'static str,
    rows: usize,
    leaf: &'static str,
    around: fn(Expr) -> Expr,
}

const WAYS: [Way; 5] = [
    Way {
        label: "arrays",
        rows: 1,
        leaf: "x",
        around: |e| array(vec![e]),
    },
    Way {
        label: "objects",
        rows: 2,
        leaf: "x",
        around: |e| Node::Object(vec![(number(), e)]).unplaced(),
    },
    Way {
        label: "sets",
        rows: 1,
        leaf: "input",
        around: |e| Node::Set(vec![e]).unplaced(),
    },
    Way {
        label: "brackets",
        rows: 2,
        leaf: "input",
        around: |e| Node::RefBrack(e.into(), var("x").into()).unplaced(),
    },
    Way {
        label: "indexes",
        rows: 2,
        leaf: "x",
        around: |e| Node::RefBrack(var("input").into(), e.into()).unplaced(),
    },
];

impl Way {
    /// The expression inside as many levels as take so many rows.
    fn deep(&self, e: Expr, rows: usize) -> Expr {
        (0..rows / self.rows).fold(e, |e, _| (self.around)(e))
    }

    fn statements(&self) -> Vec<(&'static str, Statement)> {
        let leaf = |rows| self.deep(var(self.leaf), rows);
        let constant = |rows| self.deep(number(), rows);
        let some_in = Literal::SomeIn(Some(leaf(250)), leaf(250), number());
        let compr = |inner| self.deep(array_compr(var("x"), inner), 60);
        let every =
            |inner| Literal::Every(None, var("v"), constant(60), Query { statements: inner });
        let term = (1..limits::NESTING).fold(constant(460), |term, _| array_compr(term, vec![]));
        let innermost = || vec![assign(var("x"), number())];
        vec![
            ("on both sides", assign(leaf(250), constant(250))),
            ("on the left", assign(leaf(506), number())),
            ("in a some-in pattern", some_in.plain()),
            ("in the innermost term", assign(var("x"), term)),
            (
                "around nested comprehensions",
                nested(innermost(), |inner| assign(var("x"), compr(inner))),
            ),
            (
                "in nested domains",
                nested(innermost(), |inner| every(inner).plain()),
            ),
        ]
    }
}

fn assigned(left: Expr, right: Expr) -> Expr {
    Node::AssignEq(left.into(), right.into()).unplaced()
}

fn assign(left: Expr, right: Expr) -> Statement {
    plain(assigned(left, right))
}

/// The innermost statements below as many queries as can be.
fn nested(innermost: Vec<Statement>, around: impl Fn(Vec<Statement>) -> Statement) -> Statement {
    let first = around(innermost);
    (2..limits::NESTING).fold(first, |statement, _| around(vec![statement]))
}
