//! The smallest sheets, and the deepest and longest expressions.

use super::{array, array_compr, headings, limits, names, number, plain, sheet, var, Edge};
use crate::layout::Numbering;
use crate::rng::Rng;
use crate::sheet::{Kind, Sheet};
use crate::tree::{Expr, Literal, Node, Query, Snippet, Statement};

pub(super) fn add(edges: &mut Vec<Edge>, most_names: usize) {
    smallest(edges);
    deepest(edges);
    longest(edges);
    objects(edges);
    shuffled(edges, most_names);
}

fn smallest(edges: &mut Vec<Edge>) {
    let none = Sheet::default();
    let line = headings(&none).statement;
    edges.push(Edge::refused(
        "five headings and no row",
        none.text(),
        5,
        line,
    ));

    let mut none = sheet(vec![plain(number())]);
    none.queries.clear();
    let line = headings(&none).statement;
    edges.push(Edge::refused(
        "a statement and no query",
        none.text(),
        5,
        line,
    ));

    edges.push(Edge::passes("an empty query", sheet(vec![]).text()));
    let inside = vec![plain(array_compr(number(), vec![]))];
    edges.push(Edge::passes("an empty comprehension", sheet(inside).text()));
    let every = Literal::Every(None, var("v"), number(), Query::default());
    edges.push(Edge::passes(
        "an empty every",
        sheet(vec![every.plain()]).text(),
    ));

    let mut unnamed = sheet(vec![plain(number())]);
    unnamed.queries[0] = 0;
    let line = headings(&unnamed).form + 1;
    let label = "a statement that its query does not name";
    edges.push(Edge::refused(label, unnamed.text(), 6, line));
    for (label, e) in [
        ("an empty array", array(vec![])),
        ("an empty set", Node::Set(vec![]).unplaced()),
        ("an empty object", Node::Object(vec![]).unplaced()),
        (
            "a text that is no identifier",
            Node::String(None).unplaced(),
        ),
    ] {
        edges.push(Edge::passes(label, sheet(vec![plain(e)]).text()));
    }
    let none = Literal::SomeVars(vec![]).plain();
    let none = sheet(vec![none]);
    let line = headings(&none).form + 1;
    edges.push(Edge::refused(
        "some without a variable",
        none.text(),
        6,
        line,
    ));
}

/// One more level around an expression.
type Deepen = fn(Expr) -> Expr;

/// Passes up to 512 expression rows. One level adds `step` rows to a leaf.
fn deepest(edges: &mut Vec<Edge>) {
    let leaf = || var("a");
    let ways: [(&str, usize, Deepen); 15] = [
        ("UnaryExpr", 1, |e| Node::UnaryExpr(e.into()).unplaced()),
        ("RefDot", 1, |e| {
            Node::RefDot(e.into(), "a".into()).unplaced()
        }),
        ("arrays", 1, |e| array(vec![e])),
        ("sets", 1, |e| Node::Set(vec![e]).unplaced()),
        ("functions of calls", 1, |e| {
            Node::Call(e.into(), vec![]).unplaced()
        }),
        ("parameters of calls", 2, |e| {
            Node::Call(var("a").into(), vec![e]).unplaced()
        }),
        ("object values", 2, |e| {
            Node::Object(vec![(number(), e)]).unplaced()
        }),
        ("object keys", 2, |e| {
            Node::Object(vec![(e, number())]).unplaced()
        }),
        ("brackets a[i][j]", 2, |e| {
            Node::RefBrack(e.into(), var("a").into()).unplaced()
        }),
        ("brackets a[b[c]]", 2, |e| {
            Node::RefBrack(var("a").into(), e.into()).unplaced()
        }),
        ("BinExpr to the left", 2, |e| {
            Node::BinExpr(e.into(), number().into()).unplaced()
        }),
        ("BoolExpr to the right", 2, |e| {
            Node::BoolExpr(number().into(), e.into()).unplaced()
        }),
        ("ArithExpr", 2, |e| {
            Node::ArithExpr(e.into(), number().into()).unplaced()
        }),
        ("AssignExpr", 2, |e| {
            Node::AssignEq(number().into(), e.into()).unplaced()
        }),
        ("Membership", 3, |e| {
            Node::Membership(Some(number().into()), number().into(), e.into()).unplaced()
        }),
    ];
    for (label, step, deepen) in ways {
        let most = (limits::EXPRESSIONS - 1) / step;
        for levels in [most - 1, most, most + 1] {
            let e = (0..levels).fold(leaf(), |e, _| deepen(e));
            let sheet = sheet(vec![plain(e)]);
            let label = format!("{levels} levels of {label}");
            edges.push(by_expressions(label, sheet, 1 + levels * step));
        }
    }
}

/// A sheet that passes if `rows`, its number of expressions, is in bounds.
fn by_expressions(label: String, sheet: Sheet, rows: usize) -> Edge {
    if rows <= limits::EXPRESSIONS {
        Edge::passes(label, sheet.text())
    } else {
        let line = headings(&sheet).kind + limits::EXPRESSIONS + 1;
        Edge::refused(label, sheet.text(), 5, line)
    }
}

/// Chains of every sort; beside the chain itself `besides` expressions stand in the sheet.
fn longest(edges: &mut Vec<Edge>) {
    type Make = fn(Vec<Expr>) -> Statement;
    let ways: [(&str, usize, Make); 5] = [
        ("an array", 1, |items| plain(array(items))),
        ("a set", 1, |items| plain(Node::Set(items).unplaced())),
        ("a call", 2, |items| {
            plain(Node::Call(var("a").into(), items).unplaced())
        }),
        ("some", 0, |items| Literal::SomeVars(items).plain()),
        ("modifiers", 1, |items| Statement {
            literal: Literal::NotExpr(number()),
            with: items,
        }),
    ];
    for (label, besides, make) in ways {
        let most = limits::EXPRESSIONS - besides;
        for members in [most - 1, most, most + 1] {
            let sheet = sheet(vec![make(vec![var("a"); members])]);
            let label = format!("a chain of {members} in {label}");
            edges.push(by_expressions(label, sheet, members + besides));
        }
    }
}

fn objects(edges: &mut Vec<Edge>) {
    for fields in [254, 255, 256] {
        let object = Node::Object(vec![(number(), number()); fields]).unplaced();
        let sheet = sheet(vec![plain(object)]);
        let label = format!("an object of {fields} fields");
        edges.push(by_expressions(label, sheet, 1 + 2 * fields));
    }
    for members in [1, 2, 510, 511] {
        let mut sheet = sheet(vec![plain(array(vec![number(); members]))]);
        sheet.exprs[0].kind = Kind::Object as u16;
        let label = format!("an object's chain of {members}");
        edges.push(if members % 2 == 0 {
            Edge::passes(label, sheet.text())
        } else {
            Edge::refused(label, sheet.text(), 6, headings(&sheet).kind + 1)
        });
    }
}

/// Rows may stand in any order in which the naming row comes first.
fn shuffled(edges: &mut Vec<Edge>, most_names: usize) {
    let items = |count| vec![number(); count];
    let snippet = Snippet {
        spare_names: names(most_names),
        query: Query {
            statements: (0..16)
                .map(|i| Statement {
                    literal: Literal::Expr(array_compr(array(items(i)), vec![plain(number())])),
                    with: items(16 - i),
                })
                .collect(),
        },
        ..Snippet::default()
    };
    for seed in 0..8 {
        let sheet = snippet.numbered(Numbering::Shuffled(Rng::new(seed)));
        edges.push(Edge::passes(format!("rows shuffled, {seed}"), sheet.text()));
    }
}
