//! The table of question 6: what the fields of each kind and form hold.

use crate::sheet::{Form, Kind};

/// What a field refers to.
#[derive(Clone, Copy, Debug, PartialEq, Eq)]
pub(super) enum Refers {
    Name,
    /// An expression in the query that the row itself lies in.
    Part,
    /// An expression in the query that the row names: a comprehension's term, key or value.
    Term,
    /// An expression that must be a `Var`.
    Var,
    /// The first row of a chain of expressions.
    Chain,
    /// The first row of a chain in which every member must be a `Var`.
    Vars,
    /// The first row of a chain of keys and values in turn.
    Pairs,
    Query,
}

impl Refers {
    /// Whether the row referred to is the first of a chain.
    pub(super) fn starts_chain(self) -> bool {
        matches!(self, Refers::Chain | Refers::Vars | Refers::Pairs)
    }
}

/// A field that a kind or form lists.
#[derive(Clone, Copy, Debug)]
pub(super) struct Field {
    /// Its column, counted from 0 as in the row's `values()`.
    pub(super) column: usize,
    pub(super) refers: Refers,
    /// Whether 0, for none, is allowed.
    pub(super) or_zero: bool,
}

const fn set(column: usize, refers: Refers) -> Field {
    Field {
        column,
        refers,
        or_zero: false,
    }
}

const fn may(column: usize, refers: Refers) -> Field {
    Field {
        column,
        refers,
        or_zero: true,
    }
}

/// Columns of `kind name line col first second third next`.
mod expr {
    pub(super) const NAME: usize = 1;
    pub(super) const FIRST: usize = 4;
    pub(super) const SECOND: usize = 5;
    pub(super) const THIRD: usize = 6;
}

/// Columns of `form first second third query with next`.
mod statement {
    pub(super) const FIRST: usize = 1;
    pub(super) const SECOND: usize = 2;
    pub(super) const THIRD: usize = 3;
    pub(super) const QUERY: usize = 4;
    pub(super) const WITH: usize = 5;
}

/// The columns of an expression that a kind may list. `line` and `col` are free, and `next`
/// belongs to the chain and not to the kind.
pub(super) const EXPR_COLUMNS: [usize; 4] = [expr::NAME, expr::FIRST, expr::SECOND, expr::THIRD];

/// The columns of a statement that a form may list. `next` is every statement's.
pub(super) const STATEMENT_COLUMNS: [usize; 5] = [
    statement::FIRST,
    statement::SECOND,
    statement::THIRD,
    statement::QUERY,
    statement::WITH,
];

const KINDS: [(Kind, &[Field]); 22] = {
    use expr::*;
    use Refers::{Chain, Name, Pairs, Part, Query, Term};
    [
        (Kind::String, &[may(NAME, Name)]),
        (Kind::RawString, &[]),
        (Kind::Number, &[]),
        (Kind::Bool, &[]),
        (Kind::Null, &[]),
        (Kind::Var, &[set(NAME, Name)]),
        (Kind::Array, &[may(FIRST, Chain)]),
        (Kind::Set, &[may(FIRST, Chain)]),
        (Kind::Object, &[may(FIRST, Pairs)]),
        (Kind::ArrayCompr, &[set(FIRST, Term), set(THIRD, Query)]),
        (Kind::SetCompr, &[set(FIRST, Term), set(THIRD, Query)]),
        (
            Kind::ObjectCompr,
            &[set(FIRST, Term), set(SECOND, Term), set(THIRD, Query)],
        ),
        (Kind::Call, &[set(FIRST, Part), may(SECOND, Chain)]),
        (Kind::UnaryExpr, &[set(FIRST, Part)]),
        (Kind::RefDot, &[set(FIRST, Part), set(NAME, Name)]),
        (Kind::RefBrack, &[set(FIRST, Part), set(SECOND, Part)]),
        (Kind::BinExpr, &[set(FIRST, Part), set(SECOND, Part)]),
        (Kind::BoolExpr, &[set(FIRST, Part), set(SECOND, Part)]),
        (Kind::ArithExpr, &[set(FIRST, Part), set(SECOND, Part)]),
        (Kind::AssignEq, &[set(FIRST, Part), set(SECOND, Part)]),
        (Kind::AssignColEq, &[set(FIRST, Part), set(SECOND, Part)]),
        (
            Kind::Membership,
            &[may(FIRST, Part), set(SECOND, Part), set(THIRD, Part)],
        ),
    ]
};

/// The modifiers, which every statement may have, even one of unknown form.
const WITH: Field = may(statement::WITH, Refers::Chain);

const FORMS: [(Form, &[Field]); 5] = {
    use statement::{FIRST, QUERY, SECOND, THIRD};
    use Refers::{Part, Query, Var, Vars};
    [
        (Form::SomeVars, &[set(FIRST, Vars), WITH]),
        (
            Form::SomeIn,
            &[may(FIRST, Part), set(SECOND, Part), set(THIRD, Part), WITH],
        ),
        (Form::Expr, &[set(FIRST, Part), WITH]),
        (Form::NotExpr, &[set(FIRST, Part), WITH]),
        (
            Form::Every,
            &[
                may(FIRST, Var),
                set(SECOND, Var),
                set(THIRD, Part),
                set(QUERY, Query),
                WITH,
            ],
        ),
    ]
};

/// The fields that a kind lists, if there is such a kind.
pub(super) fn of_kind(number: u16) -> Option<&'static [Field]> {
    let entry = KINDS.iter().find(|(kind, _)| *kind as u16 == number)?;
    Some(entry.1)
}

/// The fields that a form lists, if there is such a form.
pub(super) fn of_form(number: u16) -> Option<&'static [Field]> {
    let entry = FORMS.iter().find(|(form, _)| *form as u16 == number)?;
    Some(entry.1)
}

/// The fields of a statement of unknown form.
pub(super) const UNKNOWN_FORM: &[Field] = &[WITH];
