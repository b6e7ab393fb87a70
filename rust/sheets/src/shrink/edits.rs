//! The single steps of the shrinker. A step that makes nothing smaller or no valid sheet is
//! harmless: the search drops it.

use super::walk::{each, Node as At};
use crate::tree::{Expr, Literal, Node, Position, Query, Snippet, Statement};

/// A change of a snippet.
pub(super) type Edit = Box<dyn Fn(&mut Snippet)>;

fn on_query(number: usize, change: impl Fn(&mut Query) + 'static) -> Edit {
    Box::new(move |snippet| {
        each(snippet, |n, at| match at {
            At::Query(query) if n == number => change(query),
            _ => {}
        });
    })
}

fn on_statement(number: usize, change: impl Fn(&mut Statement) + 'static) -> Edit {
    Box::new(move |snippet| {
        each(snippet, |n, at| match at {
            At::Statement(statement) if n == number => change(statement),
            _ => {}
        });
    })
}

fn on_expr(number: usize, change: impl Fn(&mut Expr) + 'static) -> Edit {
    Box::new(move |snippet| {
        each(snippet, |n, at| match at {
            At::Expr(e) if n == number => change(e),
            _ => {}
        });
    })
}

/// Runs of a list to be dropped: the whole, then halves, and so on down to single items.
fn runs(length: usize) -> Vec<std::ops::Range<usize>> {
    let mut runs = Vec::new();
    let mut size = length;
    while size > 0 {
        runs.extend(
            (0..length)
                .step_by(size)
                .map(|from| from..length.min(from + size)),
        );
        size /= 2;
    }
    runs
}

/// Drops of statements, modifiers, items and built-ins, and replacements by something smaller.
pub(super) fn of_rows(snippet: &Snippet) -> Vec<Edit> {
    let mut edits: Vec<Edit> = Vec::new();
    for run in runs(snippet.builtins.len()) {
        edits.push(Box::new(move |s| drop(s.builtins.drain(run.clone()))));
    }
    each(&mut snippet.clone(), |number, at| match at {
        At::Query(query) => query_edits(number, query, &mut edits),
        At::Statement(statement) => statement_edits(number, statement, &mut edits),
        At::Expr(e) => expr_edits(number, e, &mut edits),
    });
    edits
}

fn query_edits(number: usize, query: &Query, edits: &mut Vec<Edit>) {
    for run in runs(query.statements.len()) {
        edits.push(on_query(number, move |q| {
            drop(q.statements.drain(run.clone()))
        }));
    }
    // A statement gives way to the statements of its body.
    for (index, statement) in query.statements.iter().enumerate() {
        if let Some(inner) = inner_query(statement) {
            let inner = inner.statements.clone();
            edits.push(on_query(number, move |q| {
                q.statements.splice(index..=index, inner.clone());
            }));
        }
    }
}

/// The body of an `every`, or of a comprehension that is a whole statement.
fn inner_query(statement: &Statement) -> Option<&Query> {
    match &statement.literal {
        Literal::Expr(e) | Literal::NotExpr(e) => e.query(),
        _ => statement.body(),
    }
}

fn statement_edits(number: usize, statement: &Statement, edits: &mut Vec<Edit>) {
    for run in runs(statement.with.len()) {
        edits.push(on_statement(number, move |s| {
            drop(s.with.drain(run.clone()))
        }));
    }
    if let Literal::SomeVars(vars) = &statement.literal {
        for run in runs(vars.len()) {
            edits.push(on_statement(number, move |s| {
                if let Literal::SomeVars(vars) = &mut s.literal {
                    vars.drain(run.clone());
                }
            }));
        }
    }
    edits.push(on_statement(number, |s| match &mut s.literal {
        Literal::SomeIn(key, _, _) | Literal::Every(key, _, _, _) => *key = None,
        _ => {}
    }));
    // Any of its expressions as a plain statement, with its modifiers and without.
    for e in statement.exprs() {
        let e = e.clone();
        let literal = Literal::Expr(e);
        let alone = literal.clone().plain();
        edits.push(on_statement(number, move |s| *s = alone.clone()));
        edits.push(on_statement(number, move |s| s.literal = literal.clone()));
    }
}

fn expr_edits(number: usize, e: &Expr, edits: &mut Vec<Edit>) {
    edits.push(on_expr(number, |e| e.node = Node::Number));
    // Any expression right below, or of a statement in the comprehension's query.
    let in_query = e.query().into_iter().flat_map(|q| &q.statements);
    let inner = in_query.flat_map(Statement::exprs);
    for part in e.children().into_iter().chain(inner) {
        let part = part.clone();
        edits.push(on_expr(number, move |e| *e = part.clone()));
    }
    let items = match &e.node {
        Node::Array(items) | Node::Set(items) | Node::Call(_, items) => items.len(),
        Node::Object(fields) => fields.len(),
        _ => 0,
    };
    for run in runs(items) {
        edits.push(on_expr(number, move |e| match &mut e.node {
            Node::Array(items) | Node::Set(items) | Node::Call(_, items) => {
                items.drain(run.clone());
            }
            Node::Object(fields) => drop(fields.drain(run.clone())),
            _ => {}
        }));
    }
    if let Node::Membership(Some(_), _, _) = e.node {
        edits.push(on_expr(number, |e| {
            if let Node::Membership(key, _, _) = &mut e.node {
                *key = None;
            }
        }));
    }
    if let Node::RefDot(_, name) = &e.node {
        let var = Node::Var(name.clone());
        edits.push(on_expr(number, move |e| e.node = var.clone()));
    }
}

/// Drops of names that nothing refers to, merges of names, and shorter paths.
pub(super) fn of_names(snippet: &Snippet) -> Vec<Edit> {
    let mut edits: Vec<Edit> = Vec::new();
    // Names in use stay listed, so that a row dropped later does not renumber the others.
    let used = Snippet {
        spare_names: Vec::new(),
        ..snippet.clone()
    };
    let used = used.names();
    let unused = |name: &&String| !used.contains(name);
    let spare: Vec<String> = snippet.spare_names.iter().filter(unused).cloned().collect();
    for run in runs(spare.len()) {
        let dropped = spare[run].to_vec();
        edits.push(Box::new(move |s| {
            s.spare_names.retain(|name| !dropped.contains(name));
        }));
    }
    for index in 0..snippet.builtins.len() {
        edits.push(Box::new(move |s| s.builtins[index].path.truncate(1)));
        edits.push(Box::new(move |s| drop(s.builtins[index].path.pop())));
    }
    let names = snippet.names();
    for (index, name) in names.iter().enumerate().skip(1) {
        for into in [&names[0], &names[index - 1]] {
            edits.push(merge(name, into));
            edits.push(merge(into, name));
        }
    }
    edits
}

/// Every `from` becomes `into`.
fn merge(from: &str, into: &str) -> Edit {
    let (from, into) = (from.to_string(), into.to_string());
    Box::new(move |snippet| {
        let rename = |name: &mut String| {
            if *name == from {
                name.clone_from(&into);
            }
        };
        snippet.spare_names.iter_mut().for_each(rename);
        for builtin in &mut snippet.builtins {
            builtin.path.iter_mut().for_each(rename);
        }
        each(snippet, |_, at| {
            if let At::Expr(e) = at {
                match &mut e.node {
                    Node::Var(name) | Node::RefDot(_, name) | Node::String(Some(name)) => {
                        rename(name);
                    }
                    _ => {}
                }
            }
        });
    })
}

/// Smaller lines and columns, all at once and one by one, and smaller arities.
pub(super) fn of_positions(snippet: &Snippet) -> Vec<Edit> {
    let mut edits: Vec<Edit> = vec![
        on_positions(|at| *at = START),
        on_positions(|at| at.col = START.col),
        on_positions(|at| at.line = START.line),
        ranked(snippet, |at| &mut at.line),
        ranked(snippet, |at| &mut at.col),
    ];
    for (index, builtin) in snippet.builtins.iter().enumerate() {
        for arity in smaller(builtin.arity, 0) {
            edits.push(Box::new(move |s| s.builtins[index].arity = arity));
        }
    }
    each(&mut snippet.clone(), |number, at| {
        let At::Expr(e) = at else {
            return;
        };
        for line in smaller(e.at.line, START.line) {
            edits.push(on_expr(number, move |e| e.at.line = line));
        }
        for col in smaller(e.at.col, START.col) {
            edits.push(on_expr(number, move |e| e.at.col = col));
        }
    });
    edits
}

/// Where a text starts.
const START: Position = Position { line: 1, col: 1 };

/// Numbers to try in place of a larger one, the best first.
fn smaller(number: u16, least: u16) -> Vec<u16> {
    let mut tries = vec![least, number / 2, number.saturating_sub(1)];
    tries.dedup();
    tries.retain(|&n| least <= n && n < number);
    tries
}

fn on_positions(change: impl Fn(&mut Position) + 'static) -> Edit {
    Box::new(move |snippet| {
        each(snippet, |_, at| {
            if let At::Expr(e) = at {
                change(&mut e.at);
            }
        });
    })
}

/// The numbers used become 1, 2, 3 and so on, in their order.
fn ranked(snippet: &Snippet, part: fn(&mut Position) -> &mut u16) -> Edit {
    let mut used: Vec<u16> = Vec::new();
    each(&mut snippet.clone(), |_, at| {
        if let At::Expr(e) = at {
            used.push(*part(&mut e.at));
        }
    });
    used.sort_unstable();
    used.dedup();
    on_positions(move |at| {
        let number = part(at);
        let below = used.partition_point(|&n| n < *number);
        *number = below as u16 + 1;
    })
}
