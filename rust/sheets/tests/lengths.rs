//! How long texts can be: every count at its limit, and every row as long as can be. The sheet and
//! the answer here mean nothing; no sheet that passes has a longer text, and none a longer answer.

use sheets::answer::{Answer, Entry, Placed, QueryAnswer, Set};
use sheets::limits::*;
use sheets::sheet::{BuiltinRow, ExprRow, StatementRow};
use sheets::Sheet;

/// What the printing program lends for the answer.
const LENT: usize = 65_536;

/// The bytes of a sheet with so many names.
fn longest(names: usize) -> usize {
    let (name, expr, statement) = (names as u16, EXPRESSIONS as u16, STATEMENTS as u16);
    let (far, kind, form, query) = (u16::MAX, 22, 5, QUERIES as u16);
    let row = ExprRow::from_values([kind, name, far, far, expr, expr, expr, expr]);
    let line = StatementRow::from_values([form, expr, expr, expr, query, expr, statement]);
    let sheet = Sheet {
        names: vec!["n".repeat(NAME_BYTES); names],
        builtins: vec![BuiltinRow::from_values([ARITY, name, name, name]); BUILTINS],
        exprs: vec![row; EXPRESSIONS],
        statements: vec![line; STATEMENTS],
        queries: vec![statement; QUERIES],
    };
    sheet.text().len()
}

/// So the printing program refuses no whole sheet with 2, and the library may.
#[test]
fn a_sheet_has_at_most_26_591_bytes_and_in_the_library_39_263() {
    let (printing, library) = (longest(PRINTING.names), longest(LIBRARY.names));
    assert_eq!((printing, library), (26_591, 39_263));
    assert!(printing < BYTES && BYTES < library);
}

/// An expression's row is at most one local or unscoped name, and one input of at most as many
/// queries as may stand around it, its own counted and the outermost not. Rows are longest in the
/// last query, and those of name 511 are no longer than those of name 127.
#[test]
fn an_answer_has_at_most_59_075_bytes() {
    let name = LIBRARY.names as u16;
    let entry = |set, line, col| Entry {
        set,
        name,
        line,
        col,
    };
    let mut entries = vec![entry(Set::Locals, u16::MAX, u16::MAX); EXPRESSIONS];
    entries.resize(EXPRESSIONS * NESTING, entry(Set::Inputs, 0, 0));
    let mut queries = vec![QueryAnswer::never_analysed(); QUERIES - 1];
    queries.push(QueryAnswer {
        placed: Placed::Yes,
        input: true,
        order: (0..STATEMENTS as u16).collect(),
        reached: vec![true; STATEMENTS],
        entries,
    });
    let length = Answer::Queries(queries).text().len();
    assert_eq!(length, 59_075);
    assert!(length < LENT);
}
