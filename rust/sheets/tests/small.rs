//! The family of small snippets: as many as there should be, all valid, no two alike, and none
//! left out.

use sheets::check::check;
use sheets::limits::PRINTING;
use sheets::sheet::{ExprRow, StatementRow};
use sheets::small::{snippets, Kinds, Listing};
use sheets::tree::Snippet;
use sheets::{Form, Kind, Sheet};
use std::collections::BTreeSet;

fn family(kinds: Kinds, exprs: usize) -> Listing<Snippet> {
    snippets(kinds, ["x", "y"], exprs, 2)
}

fn sheets(family: &Listing<Snippet>) -> impl Iterator<Item = Sheet> + '_ {
    (0..family.count()).map(|number| family.get(number).sheet())
}

/// The sums were worked out apart from the code.
#[test]
fn there_are_as_many_as_there_should_be() {
    let counts = |kinds| (0..=5).map(move |exprs| family(kinds, exprs).count());
    let all = [1, 27, 1_379, 58_283, 2_279_691, 86_098_027];
    assert_eq!(counts(Kinds::All).collect::<Vec<_>>(), all);
    let distinct = [1, 17, 550, 15_414, 408_038, 10_594_892];
    assert_eq!(counts(Kinds::Distinct).collect::<Vec<_>>(), distinct);
}

#[test]
fn they_are_valid_and_no_two_alike() {
    let family = family(Kinds::All, 3);
    let mut texts = BTreeSet::new();
    let (mut kinds, mut forms) = (BTreeSet::new(), BTreeSet::new());
    for sheet in sheets(&family) {
        assert_eq!(check(&sheet, PRINTING), Ok(()), "{}", sheet.text());
        kinds.extend(sheet.exprs.iter().map(|row| row.kind));
        forms.extend(sheet.statements.iter().map(|row| row.form));
        texts.insert(sheet.text());
    }
    assert_eq!(texts.len() as u64, family.count());
    assert_eq!(kinds.len(), Kind::ALL.len());
    assert_eq!(forms.len(), Form::ALL.len());
}

#[test]
fn the_distinct_ones_are_among_all() {
    let all: BTreeSet<String> = sheets(&family(Kinds::All, 3)).map(|s| s.text()).collect();
    let distinct = family(Kinds::Distinct, 3);
    assert!(sheets(&distinct).all(|sheet| all.contains(&sheet.text())));
}

/// Every choice of one number below each end.
fn choices<const N: usize>(ends: [u16; N]) -> impl Iterator<Item = [u16; N]> {
    let count = ends.iter().map(|&end| u64::from(end)).product();
    (0..count).map(move |number| {
        let mut left = number;
        ends.map(|end| {
            let choice = left % u64::from(end);
            left /= u64::from(end);
            choice as u16
        })
    })
}

/// Of a sheet's rows, those that make a valid sheet, as texts in reading order.
fn valid(rows: impl Iterator<Item = (Vec<ExprRow>, StatementRow)>) -> BTreeSet<String> {
    let mut sheet = family(Kinds::All, 1).get(0).sheet();
    let mut texts = BTreeSet::new();
    for (exprs, statement) in rows {
        (sheet.exprs, sheet.statements) = (exprs, vec![statement]);
        for queries in [vec![1], vec![1, 0], vec![1, 0, 0]] {
            sheet.queries = queries;
            if check(&sheet, PRINTING).is_ok() {
                texts.insert(Snippet::of_sheet(&sheet).sheet().text());
            }
        }
    }
    texts
}

fn of_family(exprs: usize, wanted: impl Fn(&Sheet) -> bool) -> BTreeSet<String> {
    let own = |sheet: &Sheet| sheet.exprs.len() == exprs && sheet.statements.len() == 1;
    sheets(&snippets(Kinds::All, ["x", "y"], exprs, 1))
        .filter(|sheet| own(sheet) && wanted(sheet))
        .map(|sheet| sheet.text())
        .collect()
}

/// Two expressions with any fields in a statement that is one.
#[test]
fn no_expression_is_left_out() {
    let plain = StatementRow::from_values([3, 1, 0, 0, 0, 0, 0]);
    let rows = choices([23, 3, 3, 3, 4, 3, 23, 3]).map(|choice| {
        let [kind, name, first, second, third, next, inner, inner_name] = choice;
        let exprs = [
            [kind, name, 0, 0, first, second, third, next],
            [inner, inner_name, 0, 0, 0, 0, 0, 0],
        ];
        (exprs.map(ExprRow::from_values).to_vec(), plain)
    });
    let found = valid(rows);
    assert_eq!(found.len(), 96);
    assert_eq!(found, of_family(2, |sheet| sheet.statements[0] == plain));
}

/// A statement with any fields over three variables.
#[test]
fn no_statement_is_left_out() {
    let rows = choices([6, 4, 4, 4, 3, 4, 4, 4]).map(|choice| {
        let [form, first, second, third, query, with, one, two] = choice;
        let var = |next| ExprRow::from_values([6, 1, 0, 0, 0, 0, 0, next]);
        let statement = [form, first, second, third, query, with, 0];
        let exprs = vec![var(one), var(two), var(0)];
        (exprs, StatementRow::from_values(statement))
    });
    let vars = |sheet: &Sheet| sheet.exprs.iter().all(|row| (row.kind, row.name) == (6, 1));
    let found = valid(rows);
    assert_eq!(found.len(), 9);
    assert_eq!(found, of_family(3, vars));
}
