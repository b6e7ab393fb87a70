//! The shrinker finds the few rows that a planted property needs.

mod small_trees;

use sheets::check::check;
use sheets::layout::Numbering;
use sheets::limits::LIBRARY;
use sheets::rng::Rng;
use sheets::shrink::{shrink, MOST_CALLS};
use sheets::tree::{Builtin, Expr, Query, Snippet};
use sheets::{Kind, Sheet};
use small_trees::Trees;

/// All expressions below a query, nested queries included.
fn below_query<'a>(query: &'a Query, all: &mut Vec<&'a Expr>) {
    for statement in &query.statements {
        for e in statement.exprs() {
            below(e, all);
        }
        if let Some(body) = statement.body() {
            below_query(body, all);
        }
    }
}

/// An expression and all below it.
fn below<'a>(e: &'a Expr, all: &mut Vec<&'a Expr>) {
    all.push(e);
    for child in e.children() {
        below(child, all);
    }
    if let Some(query) = e.query() {
        below_query(query, all);
    }
}

fn holds(e: &Expr, kind: Kind) -> bool {
    let mut all = Vec::new();
    below(e, &mut all);
    all.iter().any(|e| e.kind() == kind)
}

/// A Membership in a SetCompr under the `with` of an outer statement.
fn membership_under_with(sheet: &Sheet) -> bool {
    let snippet = Snippet::of_sheet(sheet);
    let mut modifiers = Vec::new();
    for e in snippet.query.statements.iter().flat_map(|s| &s.with) {
        below(e, &mut modifiers);
    }
    modifiers
        .iter()
        .any(|e| e.kind() == Kind::SetCompr && holds(e, Kind::Membership))
}

/// Large valid sheets that have a property.
fn large(count: usize, property: fn(&Sheet) -> bool) -> Vec<Snippet> {
    let mut trees = Trees::new(11);
    let mut found = Vec::new();
    while found.len() < count {
        let mut snippet = trees.snippet();
        for _ in 0..8 {
            snippet
                .query
                .statements
                .extend(trees.snippet().query.statements);
        }
        let sheet = snippet.sheet();
        if sheet.exprs.len() > 60 && check(&sheet, LIBRARY).is_ok() && property(&sheet) {
            found.push(snippet);
        }
    }
    found
}

/// Shrinks, counts the calls, and asserts what always holds of the result.
fn shrunk(sheet: &Sheet, property: impl Fn(&Sheet) -> bool) -> Sheet {
    let mut calls = 0;
    let small = shrink(sheet, |candidate| {
        calls += 1;
        assert_eq!(check(candidate, LIBRARY), Ok(()));
        property(candidate)
    });
    assert!(calls <= MOST_CALLS);
    assert_eq!(check(&small, LIBRARY), Ok(()));
    assert!(property(&small));
    small
}

#[test]
fn a_planted_membership_is_left_alone() {
    for (seed, snippet) in large(20, membership_under_with).iter().enumerate() {
        let shuffled = Numbering::Shuffled(Rng::new(seed as u64));
        for sheet in [snippet.sheet(), snippet.numbered(shuffled)] {
            let small = shrunk(&sheet, membership_under_with);
            // A plain statement, its modifier, the Membership and what it must hold, and a
            // term and a statement where the Membership is in the body.
            assert!(small.exprs.len() <= 6, "{}", small.text());
            assert!(small.statements.len() <= 2, "{}", small.text());
            assert_eq!(small.queries.len(), 2, "{}", small.text());
            assert!(small.names.is_empty() && small.builtins.is_empty());
            assert!(small.exprs.iter().all(|row| row.line <= 1 && row.col <= 1));
        }
    }
}

#[test]
fn what_a_property_needs_stays() {
    // An expression on line 5 or later, and a built-in of arity 3 at least.
    let property = |sheet: &Sheet| {
        sheet.exprs.iter().any(|row| row.line >= 5) && sheet.builtins.iter().any(|b| b.arity >= 3)
    };
    for snippet in large(10, property) {
        let small = shrunk(&snippet.sheet(), property);
        assert_eq!((small.exprs.len(), small.statements.len()), (1, 1));
        assert_eq!((small.exprs[0].line, small.exprs[0].col <= 1), (5, true));
        assert_eq!(small.builtins.len(), 1);
        assert_eq!((small.builtins[0].arity, small.names.len()), (3, 1));
    }
}

#[test]
fn names_may_be_needed_for_their_number() {
    let property = |sheet: &Sheet| {
        let late = |name: u16| name >= 192;
        sheet.exprs.iter().any(|row| late(row.name))
    };
    let snippet = Snippet {
        spare_names: (0..400).map(|i| format!("n{i:03}")).collect(),
        builtins: vec![Builtin {
            arity: 1,
            path: vec!["n001".into(), "n002".into()],
        }],
        ..large(1, |_| true).remove(0)
    };
    let small = shrunk(&snippet.sheet(), property);
    assert_eq!(
        (small.names.len(), small.exprs.len()),
        (192, 1),
        "{}",
        small.text()
    );
    assert!(small.builtins.is_empty());
}

#[test]
fn an_order_of_rows_may_be_needed() {
    // Only sheets that are not in reading order have it.
    let property = |sheet: &Sheet| sheet.statements.first().is_some_and(|s| s.first > 1);
    for (seed, snippet) in large(10, |_| true).iter().enumerate() {
        let sheet = snippet.numbered(Numbering::Shuffled(Rng::new(seed as u64 + 100)));
        if property(&sheet) {
            let small = shrunk(&sheet, property);
            assert!(small.exprs.len() < sheet.exprs.len());
        }
    }
}

#[test]
fn a_property_of_one_sheet_only_gives_that_sheet() {
    let sheet = large(1, |_| true)[0].numbered(Numbering::Shuffled(Rng::new(5)));
    let small = shrunk(&sheet, |candidate| *candidate == sheet);
    assert_eq!(small, sheet);
}

#[test]
fn the_number_of_calls_is_bounded() {
    let sheet = large(1, |_| true)[0].sheet();
    // Nothing can be dropped, and positions go down in many small steps.
    let rows = sheet.exprs.len();
    let mut calls = 0;
    let small = shrink(&sheet, |candidate| {
        calls += 1;
        candidate.exprs.len() == rows
    });
    assert!(calls <= MOST_CALLS, "{calls}");
    assert_eq!(check(&small, LIBRARY), Ok(()));
}
