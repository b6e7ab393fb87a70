//! Names, built-ins, expressions, statements, queries and nesting about their limits.

use super::{array, array_compr, headings, limits, names, number, plain, sheet, var};
use super::{Edge, Headings};
use crate::sheet::{BuiltinRow, Sheet};
use crate::tree::{Expr, Literal, Node, Query, Statement};

pub(super) fn add(edges: &mut Vec<Edge>, most_names: usize) {
    type Make = fn(usize) -> Sheet;
    type Heading = fn(&Headings) -> usize;
    let counts: [(&str, usize, Make, Heading); 4] = [
        ("built-ins", limits::BUILTINS, with_builtins, |at| at.arity),
        ("expressions", limits::EXPRESSIONS, with_exprs, |at| at.kind),
        ("statements", limits::STATEMENTS, with_statements, |at| {
            at.form
        }),
        ("queries", limits::QUERIES, with_queries, |at| at.statement),
    ];
    for (what, most, make, heading) in counts {
        for count in about(most) {
            let sheet = make(count);
            let label = format!("{count} {what}");
            edges.push(if count <= most {
                Edge::passes(label, sheet.text())
            } else {
                // The first row over the limit.
                let line = heading(&headings(&sheet)) + most + 1;
                Edge::refused(label, sheet.text(), 5, line)
            });
        }
    }
    name_counts(edges, most_names);
    name_bytes(edges);
    arities(edges);
    nesting(edges);
    all_at_once(edges, most_names);
}

/// One below, at and one above.
fn about(limit: usize) -> [usize; 3] {
    [limit - 1, limit, limit + 1]
}

/// Whichever of the two limits is asked, both are edges.
fn name_counts(edges: &mut Vec<Edge>, most_names: usize) {
    for limit in limits::NAMES {
        for count in limit - 1..=limit + 2 {
            let label = format!("{count} names");
            edges.push(Edge::by_names(label, &with_names(count), most_names));
        }
    }
}

fn with_names(count: usize) -> Sheet {
    Sheet {
        names: names(count),
        queries: vec![0],
        ..Sheet::default()
    }
}

/// Paths of one, two and three parts.
fn with_builtins(count: usize) -> Sheet {
    let paths = (0..count as u16).map(|i| match i % 3 {
        0 => [i + 1, 0, 0],
        1 => [i + 1, 1, 0],
        _ => [i + 1, 1, i + 1],
    });
    Sheet {
        builtins: paths.map(|path| BuiltinRow { arity: 2, path }).collect(),
        ..with_names(count)
    }
}

/// One array and its items, in all `count` rows.
fn with_exprs(count: usize) -> Sheet {
    let items = (1..count).map(|_| number()).collect();
    sheet(vec![plain(array(items))])
}

fn with_statements(count: usize) -> Sheet {
    sheet(statements(count))
}

fn statements(count: usize) -> Vec<Statement> {
    (0..count).map(|_| plain(number())).collect()
}

/// The outer query, and comprehensions side by side in it.
fn with_queries(count: usize) -> Sheet {
    let nested = (1..count).map(|_| plain(array_compr(number(), vec![])));
    sheet(nested.collect())
}

fn name_bytes(edges: &mut Vec<Edge>) {
    for bytes in about(limits::NAME_BYTES) {
        let mut sheet = with_names(1);
        // The second name is the long one.
        sheet.names.push("z".repeat(bytes));
        let label = format!("a name of {bytes} bytes");
        edges.push(if bytes <= limits::NAME_BYTES {
            Edge::passes(label, sheet.text())
        } else {
            Edge::refused(label, sheet.text(), 4, headings(&sheet).name + 2)
        });
    }
}

fn arities(edges: &mut Vec<Edge>) {
    for arity in [0, 1, 254, 255, 256, u16::MAX] {
        let mut sheet = with_builtins(3);
        sheet.builtins[1].arity = arity;
        let label = format!("arity {arity}");
        edges.push(if arity <= limits::ARITY {
            Edge::passes(label, sheet.text())
        } else {
            Edge::refused(label, sheet.text(), 6, headings(&sheet).arity + 2)
        });
    }
}

/// Everything at its limit in one sheet, and then two limits broken together.
fn all_at_once(edges: &mut Vec<Edge>, most_names: usize) {
    for names in limits::NAMES {
        let label = format!("every count at its limit, with {names} names");
        edges.push(Edge::by_names(label, &full_sheet(names), most_names));
    }
    let full = full_sheet(most_names);

    let mut over = full_sheet(most_names + 1);
    over.builtins.push(over.builtins[0]);
    let label = "a name too many and 65 built-ins";
    edges.push(Edge::by_names(label, &over, most_names));

    let mut over = full.clone();
    over.builtins.push(over.builtins[0]);
    over.queries.push(0);
    let line = headings(&over).arity + limits::BUILTINS + 1;
    let label = "65 built-ins and 33 queries";
    edges.push(Edge::refused(label, over.text(), 5, line));

    let mut over = full;
    over.queries.clear();
    over.exprs.push(over.exprs[0]);
    let line = headings(&over).kind + limits::EXPRESSIONS + 1;
    let label = "513 expressions and no query";
    edges.push(Edge::refused(label, over.text(), 5, line));
}

/// Every count at its limit, and so many names.
pub(super) fn full_sheet(count: usize) -> Sheet {
    let mut rows = nested(&[in_body], limits::NESTING);
    let nested_queries = limits::QUERIES - limits::NESTING;
    rows.extend((0..nested_queries).map(|_| plain(array_compr(number(), vec![]))));
    let so_far = sheet(rows.clone());
    // One statement takes all expressions that are left.
    let plain_ones = limits::STATEMENTS - so_far.statements.len() - 1;
    rows.extend(statements(plain_ones));
    let items = limits::EXPRESSIONS - so_far.exprs.len() - plain_ones - 1;
    rows.push(plain(array(vec![number(); items])));
    let builtins = with_builtins(limits::BUILTINS).builtins;
    Sheet {
        names: names(count),
        builtins,
        ..sheet(rows)
    }
}

/// What is wrapped in one more query at a time.
enum Held {
    Expr(Expr),
    Statement(Statement),
}

impl Held {
    fn statement(self) -> Statement {
        match self {
            Held::Expr(e) => plain(e),
            Held::Statement(s) => s,
        }
    }

    fn expr(self) -> Expr {
        match self {
            Held::Expr(e) => e,
            Held::Statement(_) => panic!("a statement is no term"),
        }
    }

    fn comprehension(self) -> Expr {
        array_compr(number(), vec![self.statement()])
    }
}

type Wrap = fn(Held) -> Held;

fn in_body(held: Held) -> Held {
    Held::Expr(held.comprehension())
}

fn in_term(held: Held) -> Held {
    Held::Expr(array_compr(held.expr(), vec![]))
}

fn in_key(held: Held) -> Held {
    let node = Node::ObjectCompr(held.expr().into(), number().into(), Query::default());
    Held::Expr(node.unplaced())
}

fn in_value(held: Held) -> Held {
    let node = Node::ObjectCompr(number().into(), held.expr().into(), Query::default());
    Held::Expr(node.unplaced())
}

fn in_every(held: Held) -> Held {
    let body = Query {
        statements: vec![held.statement()],
    };
    Held::Statement(Literal::Every(None, var("v"), number(), body).plain())
}

fn in_domain(held: Held) -> Held {
    let body = Query::default();
    Held::Statement(Literal::Every(None, var("v"), held.comprehension(), body).plain())
}

fn in_modifier(held: Held) -> Held {
    Held::Statement(Statement {
        literal: Literal::Expr(number()),
        with: vec![number(), held.comprehension()],
    })
}

fn in_function(held: Held) -> Held {
    let function = held.comprehension().into();
    Held::Expr(Node::Call(function, vec![number()]).unplaced())
}

/// A number under `levels - 1` nested queries. The wraps are taken in turn, from inside out.
fn nested(wraps: &[Wrap], levels: usize) -> Vec<Statement> {
    let mut held = Held::Expr(number());
    for wrap in wraps.iter().cycle().take(levels - 1) {
        held = wrap(held);
    }
    vec![held.statement()]
}

/// The row that names the query of level 9, counted by hand in reading order.
enum Namer {
    Expr(usize),
    Statement(usize),
}

fn nesting(edges: &mut Vec<Edge>) {
    // Seven wraps make level 8, and with an eighth the innermost one names level 9.
    let cases: [(&str, &[Wrap], Namer); 9] = [
        // Each body's first expression is the next comprehension, and terms come last.
        ("comprehension bodies", &[in_body], Namer::Expr(8)),
        ("comprehension terms", &[in_term], Namer::Expr(8)),
        // Of eight, the four that hold the next in their value have a key before it.
        ("keys and values", &[in_key, in_value], Namer::Expr(8 + 4)),
        ("every bodies", &[in_every], Namer::Statement(8)),
        // A variable before each comprehension.
        ("every domains", &[in_domain], Namer::Expr(2 * 8)),
        // Two numbers before each comprehension.
        ("modifiers", &[in_modifier], Namer::Expr(3 * 8)),
        // A call before each comprehension.
        ("call functions", &[in_function], Namer::Expr(2 * 8)),
        ("every and body", &[in_every, in_body], Namer::Statement(8)),
        // From outside: every (a variable and a number) three times, between them a term and
        // a body twice, and a term inside.
        (
            "term, every and body",
            &[in_term, in_every, in_body],
            Namer::Expr(2 + 2 + 2 + 2 + 2 + 1),
        ),
    ];
    for (label, wraps, namer) in cases {
        for levels in about(limits::NESTING) {
            let sheet = sheet(nested(wraps, levels));
            let label = format!("nesting {levels} through {label}");
            edges.push(if levels <= limits::NESTING {
                Edge::passes(label, sheet.text())
            } else {
                let line = match namer {
                    Namer::Expr(row) => headings(&sheet).kind + row,
                    Namer::Statement(row) => headings(&sheet).form + row,
                };
                Edge::refused(label, sheet.text(), 6, line)
            });
        }
    }
}
