//! Queries named once and twice about the deepest level. The row that names a query is judged by
//! the query that it lies in, whatever else names the same; so it may come before the named
//! query's own row.

use super::{array_compr, headings, limits, number, plain, sheet, var, Edge};
use crate::sheet::{ExprRow, Kind, Sheet, StatementRow};
use crate::tree::{Literal, Query, Statement};

pub(super) fn add(edges: &mut Vec<Edge>) {
    side_by_side(edges);
    far_apart(edges);
    level_not_known(edges);
    below_the_deepest(edges);
    edges.push(two_rows_of_query_8());
}

/// What names a query: a comprehension by its expression's row, an `every` by its statement's.
type Namer = fn(Vec<Statement>) -> Statement;

fn compr(body: Vec<Statement>) -> Statement {
    plain(array_compr(number(), body))
}

fn every(body: Vec<Statement>) -> Statement {
    let body = Query { statements: body };
    Literal::Every(None, var("v"), number(), body).plain()
}

const NAMERS: [(&str, Namer); 2] = [("comprehension", compr), ("every", every)];

/// The statements of a query of the given level, as those of the outer query.
fn at_level(level: usize, around: Namer, statements: Vec<Statement>) -> Vec<Statement> {
    (1..level).fold(statements, |inner, _| vec![around(inner)])
}

/// What names query `gone`, which has no statements, names query `kept`; larger ones move up.
fn merged(mut sheet: Sheet, kept: u16, gone: u16) -> Sheet {
    let exprs = sheet.exprs.iter_mut().map(|e| &mut e.third);
    let statements = sheet.statements.iter_mut().map(|s| &mut s.query);
    for query in exprs.chain(statements) {
        if *query == gone {
            *query = kept;
        }
        if *query > gone {
            *query -= 1;
        }
    }
    assert_eq!(sheet.queries.remove(usize::from(gone) - 1), 0);
    sheet
}

/// The lines of the rows that name a query, ascending.
fn naming_lines(sheet: &Sheet, query: u16) -> Vec<usize> {
    let at = headings(sheet);
    let exprs = (at.kind + 1..).zip(sheet.exprs.iter().map(|e| e.third));
    let statements = (at.form + 1..).zip(sheet.statements.iter().map(|s| s.query));
    exprs
        .chain(statements)
        .filter(|&(_, named)| named == query)
        .map(|(line, _)| line)
        .collect()
}

fn query_line(sheet: &Sheet, query: u16) -> usize {
    headings(sheet).statement + usize::from(query)
}

/// One row or two of a query of level 7 or 8 name the next query.
fn side_by_side(edges: &mut Vec<Edge>) {
    for (around_label, around) in NAMERS {
        for level in [limits::NESTING - 1, limits::NESTING] {
            let named = level as u16 + 1;
            for (first_label, first) in NAMERS {
                let once = sheet(at_level(level, around, vec![first(vec![])]));
                let label =
                    format!("level {named} below {around_label} bodies named by one {first_label}");
                edges.push(if level < limits::NESTING {
                    Edge::passes(label, once.text())
                } else {
                    let line = naming_lines(&once, named)[0];
                    Edge::refused(label, once.text(), 6, line)
                });
                for (second_label, second) in NAMERS {
                    let both = vec![first(vec![]), second(vec![])];
                    let twice = sheet(at_level(level, around, both));
                    let twice = merged(twice, named, named + 1);
                    let line = if level < limits::NESTING {
                        query_line(&twice, named)
                    } else {
                        naming_lines(&twice, named)[0]
                    };
                    let label = format!(
                        "level {named} below {around_label} bodies named by {first_label} and {second_label}"
                    );
                    edges.push(Edge::refused(label, twice.text(), 6, line));
                }
            }
        }
    }
}

/// A row of the outer query and one of a query of level 8 name the same: only the deep one is at
/// fault.
fn far_apart(edges: &mut Vec<Edge>) {
    let deepest = limits::NESTING;
    for (label, namer) in NAMERS {
        let deep = at_level(deepest, namer, vec![namer(vec![])]);
        // Query 9 is the deep one's and query 10 the one's behind it.
        let mut statements = deep.clone();
        statements.push(namer(vec![]));
        let behind = merged(sheet(statements), 9, 10);
        let line = naming_lines(&behind, 9)[0];
        let own_label = format!("a deep {label} and one behind it name the same");
        edges.push(Edge::refused(own_label, behind.text(), 6, line));

        // Query 2 is the one's before, and query 10 the deep one's.
        let mut statements = vec![namer(vec![])];
        statements.extend(deep);
        let before = merged(sheet(statements), 10, 2);
        let line = naming_lines(&before, 9)[1];
        let own_label = format!("a deep {label} and one before it name the same");
        edges.push(Edge::refused(own_label, before.text(), 6, line));
    }
}

/// Query 4 is named twice, so no level below it is known, and nothing there is too deep.
fn level_not_known(edges: &mut Vec<Edge>) {
    for (label, namer) in NAMERS {
        for levels in [limits::NESTING, limits::NESTING + 1] {
            let mut third = at_level(levels - 2, namer, vec![]);
            third.push(namer(vec![]));
            let whole = sheet(at_level(3, namer, third));
            let twice = merged(whole, 4, levels as u16 + 1);
            let line = query_line(&twice, 4);
            let label = format!("{levels} levels of {label} below a query named twice");
            edges.push(Edge::refused(label, twice.text(), 6, line));
        }
    }
}

/// A comprehension in a query of level 9. Where that query is named twice its level is not known,
/// and the `every` that names it is the first at fault; else the comprehension is, since
/// expressions come first.
fn below_the_deepest(edges: &mut Vec<Edge>) {
    let deepest = limits::NESTING;
    let inner = || every(vec![compr(vec![])]);
    let once = sheet(at_level(deepest, every, vec![inner()]));
    let line = naming_lines(&once, 10)[0];
    let label = "a comprehension in a query of level 9";
    edges.push(Edge::refused(label, once.text(), 6, line));

    let twice = sheet(at_level(deepest, every, vec![inner(), every(vec![])]));
    let twice = merged(twice, 9, 11);
    let line = naming_lines(&twice, 9)[0];
    let label = "a comprehension in a query of level 9 that is named twice";
    edges.push(Edge::refused(label, twice.text(), 6, line));
}

/// Each query from 1 to 7 has a statement that is a comprehension with the next query; query 8 has
/// two with query 9, in rows 15 and 17.
fn two_rows_of_query_8() -> Edge {
    let mut twice = Sheet::default();
    for (statement, query) in (1..).zip([2, 3, 4, 5, 6, 7, 8, 9, 9]) {
        let row = 2 * statement - 1;
        let at = |kind: Kind| ExprRow {
            kind: kind as u16,
            line: 1,
            col: 1,
            ..ExprRow::default()
        };
        twice.exprs.push(ExprRow {
            first: row + 1,
            third: query,
            ..at(Kind::ArrayCompr)
        });
        twice.exprs.push(at(Kind::Number));
        twice
            .statements
            .push(StatementRow::from_values([3, row, 0, 0, 0, 0, 0]));
    }
    twice.statements[7].next = 9;
    twice.queries = vec![1, 2, 3, 4, 5, 6, 7, 8, 0];
    // Row 15 stands on line 20, and query 9, which is named twice, on line 45.
    let label = "two rows of query 8 name query 9";
    Edge::refused(label, twice.text(), 6, 20)
}
