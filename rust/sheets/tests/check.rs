//! The check accepts every sheet made of trees and lays each fault to the row the readings say.

mod small_trees;

use sheets::check::{check, check_text, Fault};
use sheets::layout::Numbering;
use sheets::limits::PRINTING;
use sheets::rng::Rng;
use sheets::sheet::{BuiltinRow, ExprRow, Form, Kind, StatementRow, HEADINGS};
use sheets::tree::{Literal, Node, Query, Snippet, Statement};
use sheets::Sheet;
use small_trees::{array, bin, compr, number, plain, snippet, var, Trees, WORKED_EXAMPLE};

#[derive(Clone, Copy, Debug)]
enum At {
    Builtin(usize),
    Expr(usize),
    Statement(usize),
    Query(usize),
}

/// The line of a row, counted in the text itself.
fn line_of(sheet: &Sheet, at: At) -> usize {
    let (heading, row) = match at {
        At::Builtin(row) => (HEADINGS[1], row),
        At::Expr(row) => (HEADINGS[2], row),
        At::Statement(row) => (HEADINGS[3], row),
        At::Query(row) => (HEADINGS[4], row),
    };
    let text = sheet.text();
    let above = text.lines().position(|line| line == heading);
    above.expect("a heading") + 1 + row
}

/// The sheet passes, and after the change it is refused by question 6 at one row.
#[track_caller]
fn refused(sheet: &Sheet, change: impl FnOnce(&mut Sheet), at: At) {
    assert_eq!(check(sheet, PRINTING), Ok(()), "before the change");
    let mut changed = sheet.clone();
    change(&mut changed);
    let fault = Fault {
        number: 6,
        line: line_of(&changed, at),
    };
    assert_eq!(
        check(&changed, PRINTING),
        Err(fault),
        "{at:?}\n{}",
        changed.text()
    );
    let from_text = check_text(changed.text().as_bytes(), PRINTING);
    assert_eq!(from_text, Err(fault), "{at:?} from the text");
}

fn of(statements: Vec<Statement>) -> Sheet {
    snippet(statements).sheet()
}

fn every(domain: sheets::tree::Expr, body: Vec<Statement>) -> Statement {
    let body = Query { statements: body };
    Literal::Every(Some(var("k")), var("v"), domain, body).plain()
}

#[test]
fn the_worked_example_passes_and_reads_back() {
    let sheet = check_text(WORKED_EXAMPLE.as_bytes(), PRINTING).expect("a valid sheet");
    assert_eq!(check(&sheet, PRINTING), Ok(()));
    assert_eq!(sheet.text(), WORKED_EXAMPLE);
}

#[test]
fn sheets_of_trees_pass_and_read_back() {
    let mut trees = Trees::new(1);
    for seed in 0..2_000 {
        let snippet = trees.snippet();
        let shuffled = Numbering::Shuffled(Rng::new(seed));
        for sheet in [snippet.sheet(), snippet.numbered(shuffled)] {
            let text = sheet.text();
            assert_eq!(check(&sheet, PRINTING), Ok(()), "{text}");
            let read = check_text(text.as_bytes(), PRINTING);
            assert_eq!(read.as_ref(), Ok(&sheet));
            assert_eq!(read.map(|s| s.text()), Ok(text));
            assert_eq!(Snippet::of_sheet(&sheet).query, snippet.query);
        }
    }
}

#[test]
fn built_ins() {
    let mut sheet = of(vec![plain(bin(var("f"), var("g")))]);
    sheet.builtins = vec![
        BuiltinRow {
            arity: 255,
            path: [1, 0, 0],
        },
        BuiltinRow {
            arity: 0,
            path: [1, 2, 1],
        },
    ];
    let second = At::Builtin(2);
    refused(&sheet, |s| s.builtins[1].arity = 256, second);
    refused(&sheet, |s| s.builtins[1].path = [0, 0, 0], second);
    refused(&sheet, |s| s.builtins[1].path = [0, 1, 0], second);
    refused(&sheet, |s| s.builtins[1].path = [1, 0, 2], second);
    refused(&sheet, |s| s.builtins[1].path = [1, 2, 3], second);
    refused(&sheet, |s| s.builtins[1].path = [1, 0, 0], second);
}

#[test]
fn rows_not_named_so() {
    // 1 Bin, 2 Array, 3 and 4 its items, 5 Number.
    let sheet = of(vec![
        plain(bin(array(vec![number(), number()]), number())),
        plain(number()),
    ]);
    let extra = ExprRow {
        kind: Kind::Number as u16,
        ..ExprRow::default()
    };
    refused(&sheet, |s| s.exprs.push(extra), At::Expr(7));
    refused(&sheet, |s| s.exprs[0].second = 2, At::Expr(2));
    refused(&sheet, |s| s.exprs[0].second = 1, At::Expr(1));
    refused(&sheet, |s| s.exprs[1].first = 2, At::Expr(2));
    refused(&sheet, |s| s.exprs[1].first = 1, At::Expr(1));
    refused(&sheet, |s| s.statements[1].first = 5, At::Expr(5));
    refused(&sheet, |s| s.statements[0].with = 6, At::Expr(6));
    refused(&sheet, |s| s.statements[0].next = 1, At::Statement(1));
    refused(&sheet, |s| s.statements[1].next = 1, At::Statement(1));
    refused(&sheet, |s| s.statements[1].next = 2, At::Statement(2));
    refused(&sheet, |s| s.statements[0].next = 0, At::Statement(2));
    refused(&sheet, |s| s.queries[0] = 2, At::Statement(1));
    refused(&sheet, |s| s.queries.push(2), At::Statement(2));
    refused(&sheet, |s| s.queries.push(0), At::Query(2));
    // The statement is at fault too, but the line of row 6 comes first.
    refused(&sheet, |s| s.statements[1].first = 0, At::Expr(6));
}

#[test]
fn fields_unset_out_of_range_or_not_listed() {
    let sheet = of(vec![plain(bin(
        array(vec![number(), number()]),
        Node::RefDot(Box::new(var("x")), "a".into()).unplaced(),
    ))]);
    // 1 Bin, 2 Array, 3 and 4 its items, 5 RefDot, 6 Var; names a and x.
    refused(&sheet, |s| s.exprs[0].first = 0, At::Expr(1));
    refused(&sheet, |s| s.exprs[4].first = 7, At::Expr(5));
    refused(&sheet, |s| s.exprs[4].first = u16::MAX, At::Expr(5));
    refused(&sheet, |s| s.exprs[4].name = 0, At::Expr(5));
    refused(&sheet, |s| s.exprs[4].name = 3, At::Expr(5));
    refused(&sheet, |s| s.exprs[5].name = 0, At::Expr(6));
    refused(&sheet, |s| s.exprs[0].kind = 0, At::Expr(1));
    refused(&sheet, |s| s.exprs[0].kind = 23, At::Expr(1));
    refused(&sheet, |s| s.statements[0].next = 2, At::Statement(1));
    refused(&sheet, |s| s.statements[0].with = 7, At::Statement(1));
    refused(&sheet, |s| s.queries[0] = 2, At::Statement(1));
    // What is not listed names nothing: not row 3 but the row with the field is at fault.
    refused(&sheet, |s| s.exprs[3].second = 3, At::Expr(4));
    refused(&sheet, |s| s.exprs[5].third = 3, At::Expr(6));
    refused(&sheet, |s| s.exprs[2].name = 1, At::Expr(3));
    refused(&sheet, |s| s.statements[0].second = 3, At::Statement(1));
    refused(&sheet, |s| s.statements[0].query = 1, At::Statement(1));
    // A query's field out of range is the query's fault.
    let empty = of(vec![]);
    refused(&empty, |s| s.queries[0] = 1, At::Query(1));
}

#[test]
fn chains() {
    // 1 Bin, 2 Array, 3 and 4 and 5 its items, 6 Array, 7 its item.
    let sheet = of(vec![plain(bin(
        array(vec![number(), number(), number()]),
        array(vec![number()]),
    ))]);
    // `next` on a row in no chain names nothing.
    refused(&sheet, |s| s.exprs[5].next = 3, At::Expr(6));
    refused(&sheet, |s| s.exprs[0].next = 7, At::Expr(1));
    // On a member it names its row, forwards or back.
    refused(&sheet, |s| s.exprs[4].next = 7, At::Expr(7));
    refused(&sheet, |s| s.exprs[6].next = 3, At::Expr(3));
    refused(&sheet, |s| s.exprs[4].next = 5, At::Expr(5));
    refused(&sheet, |s| s.exprs[4].next = 8, At::Expr(5));
    refused(&sheet, |s| s.exprs[3].next = 0, At::Expr(5));
    // A chain that starts at a smaller row: that row is at fault for it.
    refused(&sheet, |s| s.exprs[5].first = 4, At::Expr(4));
    // A member of unknown kind is at fault, and its `next` still names.
    refused(&sheet, |s| s.exprs[3].kind = 99, At::Expr(4));
    // Row 5 is named by the larger row 6 only, so it is no member, and its `next` names nothing.
    refused(
        &sheet,
        |s| {
            s.exprs[3].next = 0;
            s.exprs[5].first = 5;
            s.exprs[4].next = 3;
        },
        At::Expr(5),
    );
    // Row 4 leads back to row 3, which leads to row 5, and that to row 7.
    refused(
        &sheet,
        |s| {
            s.exprs[2].next = 5;
            s.exprs[4].next = 7;
            s.exprs[5].first = 4;
            s.exprs[3].next = 3;
        },
        At::Expr(4),
    );
    // The parts of an `every` and a comprehension's term are in no chain.
    let sheet = of(vec![
        every(number(), vec![]),
        plain(compr(number(), vec![])),
    ]);
    for row in 1..=5 {
        refused(&sheet, |s| s.exprs[row - 1].next = 1, At::Expr(row));
    }
}

#[test]
fn variables_and_pairs() {
    let some = of(vec![Literal::SomeVars(vec![var("x"), var("y")]).plain()]);
    let to_number = |row: &mut ExprRow| (row.kind, row.name) = (Kind::Number as u16, 0);
    refused(&some, |s| to_number(&mut s.exprs[1]), At::Statement(1));
    refused(&some, |s| s.statements[0].first = 0, At::Expr(1));
    refused(&some, |s| s.exprs[1].next = 9, At::Expr(2));
    let none = |s: &mut Sheet| (s.exprs, s.statements[0].first) = (vec![], 0);
    refused(&some, none, At::Statement(1));

    let every = of(vec![every(number(), vec![])]);
    refused(&every, |s| to_number(&mut s.exprs[0]), At::Statement(1));
    refused(&every, |s| to_number(&mut s.exprs[1]), At::Statement(1));
    refused(&every, |s| s.statements[0].query = 0, At::Statement(1));

    // 1 Object, 2 to 5 keys and values.
    let pairs = vec![(number(), number()), (number(), number())];
    let object = of(vec![plain(Node::Object(pairs).unplaced())]);
    let shorter = |s: &mut Sheet| {
        s.exprs.pop();
        s.exprs[3].next = 0;
    };
    refused(&object, shorter, At::Expr(1));
    refused(&object, |s| s.exprs[3].next = 0, At::Expr(1));
    refused(&object, |s| s.exprs[3].next = 6, At::Expr(4));
    refused(&object, |s| s.exprs[3].next = 2, At::Expr(2));
}

#[test]
fn unknown_forms_keep_their_modifiers_and_neighbour() {
    let mut sheet = of(vec![plain(number()), plain(number())]);
    sheet.exprs.push(sheet.exprs[0]);
    sheet.statements[0].with = 3;
    let unknown = |s: &mut Sheet| {
        s.exprs.remove(0);
        s.statements[0] = StatementRow {
            form: 6,
            with: 2,
            next: 2,
            ..StatementRow::default()
        };
        s.statements[1].first = 1;
    };
    refused(&sheet, unknown, At::Statement(1));
}

#[test]
fn nested_queries() {
    // Expressions: 1 compr, 2 compr in its query, 3 and 4 terms. Queries 1, 2, 3.
    let sheet = of(vec![plain(compr(
        number(),
        vec![plain(compr(number(), vec![]))],
    ))]);
    refused(&sheet, |s| s.exprs[0].third = 0, At::Expr(1));
    refused(&sheet, |s| s.exprs[0].third = 4, At::Expr(1));
    refused(&sheet, |s| s.exprs[0].third = 1, At::Expr(1));
    refused(&sheet, |s| s.exprs[1].third = 2, At::Expr(2));
    refused(&sheet, |s| s.exprs[0].third = 3, At::Query(2));
    let exchange = |s: &mut Sheet| {
        (s.exprs[0].third, s.exprs[1].third) = (3, 2);
        s.queries.swap(1, 2);
    };
    refused(&sheet, exchange, At::Expr(2));
    refused(&sheet, |s| s.queries.push(0), At::Query(4));

    // A comprehension in a term lies in the outer comprehension's query.
    let in_term = of(vec![plain(compr(compr(number(), vec![]), vec![]))]);
    let exchange = |s: &mut Sheet| (s.exprs[0].third, s.exprs[1].third) = (3, 2);
    refused(&in_term, exchange, At::Expr(2));

    // Below a statement that no query names the enclosing query is not known. Queries 2 and 3
    // may stand in any order there, but query 1 is nowhere larger.
    let unnamed = of(vec![
        plain(compr(number(), vec![plain(compr(number(), vec![]))])),
        plain(number()),
    ]);
    refused(&unnamed, |s| s.queries[0] = 3, At::Statement(1));
    let no_larger = |s: &mut Sheet| {
        s.queries[0] = 3;
        s.exprs[0].third = 1;
    };
    refused(&unnamed, no_larger, At::Expr(1));
    // The query around the inner comprehension is known all the same.
    let exchanged = |s: &mut Sheet| {
        s.queries = vec![3, 0, 2];
        (s.exprs[0].third, s.exprs[1].third) = (3, 2);
    };
    refused(&unnamed, exchanged, At::Expr(2));
    // So it is where that query is named twice: rows 1 and 4 both name query 3.
    let twice = of(vec![
        plain(compr(compr(number(), vec![]), vec![])),
        plain(number()),
    ]);
    let twice_named = |s: &mut Sheet| {
        (s.exprs[0].third, s.exprs[1].third) = (3, 2);
        let number = s.exprs[3];
        s.exprs[3] = s.exprs[1];
        (s.exprs[3].first, s.exprs[3].third) = (5, 3);
        s.exprs.push(number);
    };
    refused(&twice, twice_named, At::Expr(2));
    let of_every = of(vec![every(number(), vec![]), plain(number())]);
    refused(&of_every, |s| s.statements[0].query = 1, At::Statement(1));
}

#[test]
fn rings_of_queries_end() {
    // Query 2 lies in query 3 and query 3 in query 2: each is named once.
    let sheet = of(vec![plain(compr(
        number(),
        vec![plain(compr(number(), vec![]))],
    ))]);
    let ring = |s: &mut Sheet| {
        let [outer, inner] = [s.queries[0], s.queries[1]];
        s.queries = vec![0, outer, inner];
        (s.exprs[0].third, s.exprs[1].third) = (3, 2);
    };
    refused(&sheet, ring, At::Expr(2));
}

#[test]
fn the_first_row_that_is_too_deep() {
    let nest = |first: sheets::tree::Expr| {
        (0..7).fold(first, |inner, _| compr(number(), vec![plain(inner)]))
    };
    assert_eq!(check(&of(vec![plain(nest(number()))]), PRINTING), Ok(()));
    let two = array(vec![
        number(),
        compr(number(), vec![]),
        compr(number(), vec![]),
    ]);
    let deep = of(vec![plain(nest(two))]);
    // Seven comprehensions, the array and its first item come before.
    let line = line_of(&deep, At::Expr(10));
    assert_eq!(check(&deep, PRINTING), Err(Fault { number: 6, line }));
}

#[test]
fn every_kind_and_form_is_asked_for_its_fields() {
    for &kind in Kind::ALL {
        let mut sheet = of(vec![plain(number())]);
        sheet.exprs[0].kind = kind as u16;
        let nothing_needed = matches!(
            kind,
            Kind::String
                | Kind::RawString
                | Kind::Number
                | Kind::Bool
                | Kind::Null
                | Kind::Array
                | Kind::Set
                | Kind::Object
        );
        assert_eq!(check(&sheet, PRINTING).is_ok(), nothing_needed, "{kind:?}");
    }
    for &form in Form::ALL {
        let mut sheet = of(vec![plain(var("x"))]);
        sheet.statements[0].form = form as u16;
        let one_needed = matches!(form, Form::SomeVars | Form::Expr | Form::NotExpr);
        assert_eq!(check(&sheet, PRINTING).is_ok(), one_needed, "{form:?}");
    }
}
