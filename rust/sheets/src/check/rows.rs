//! Question 6: all rows at fault are found, and the smallest line is reported.

use super::fields::{self, Field, Refers, EXPR_COLUMNS, STATEMENT_COLUMNS};
use super::naming::{Namings, Row};
use super::Lines;
use crate::sheet::{limits, Kind, Sheet};

/// The first line at fault, if there is one. Every section has at most its limit of rows.
pub(super) fn first_line_at_fault(sheet: &Sheet, lines: &Lines) -> Option<usize> {
    let mut check = Check {
        sheet,
        faults: Vec::new(),
        references: Vec::new(),
    };
    let bad_builtins = bad_builtins(sheet).into_iter().map(|r| lines.builtin(r));
    check.fields();
    let namings = check.namings();
    check.named_so(&namings);
    check.chains();
    check.nesting(&namings);
    let bad_rows = check.faults.iter().map(|row| match *row {
        Row::Expr(r) => lines.expr(r),
        Row::Statement(r) => lines.statement(r),
        Row::Query(r) => lines.query(r),
    });
    bad_builtins.chain(bad_rows).min()
}

/// Built-ins with a bad arity or path, or with the path of an earlier one.
fn bad_builtins(sheet: &Sheet) -> Vec<usize> {
    let mut bad = Vec::new();
    for (index, builtin) in sheet.builtins.iter().enumerate() {
        let [first, second, third] = builtin.path;
        let gap = first == 0 || (second == 0 && third != 0);
        let beyond = builtin
            .path
            .iter()
            .any(|&part| part as usize > sheet.names.len());
        let twice = sheet.builtins[..index]
            .iter()
            .any(|b| b.path == builtin.path);
        if builtin.arity > limits::ARITY || gap || beyond || twice {
            bad.push(index + 1);
        }
    }
    bad
}

/// A listed field that is set and in range.
struct Reference {
    by: Row,
    refers: Refers,
    to: usize,
}

struct Check<'a> {
    sheet: &'a Sheet,
    /// The rows at fault, in the order found.
    faults: Vec<Row>,
    references: Vec<Reference>,
}

impl Check<'_> {
    /// Every field against the table: listed ones set and in range, all others 0.
    fn fields(&mut self) {
        for (index, row) in self.sheet.exprs.iter().enumerate() {
            let by = Row::Expr(index + 1);
            let listed = fields::of_kind(row.kind).unwrap_or_else(|| {
                self.faults.push(by);
                &[]
            });
            self.row(by, &row.values(), &EXPR_COLUMNS, listed);
        }
        for (index, row) in self.sheet.statements.iter().enumerate() {
            let by = Row::Statement(index + 1);
            let listed = fields::of_form(row.form).unwrap_or_else(|| {
                self.faults.push(by);
                fields::UNKNOWN_FORM
            });
            self.row(by, &row.values(), &STATEMENT_COLUMNS, listed);
        }
    }

    fn row(&mut self, by: Row, values: &[u16], columns: &[usize], listed: &[Field]) {
        for &column in columns {
            let value = values[column] as usize;
            match listed.iter().find(|field| field.column == column) {
                None if value == 0 => {}
                Some(field) if value == 0 && field.or_zero => {}
                Some(field) if value != 0 && value <= self.count(field.refers) => {
                    self.references.push(Reference {
                        by,
                        refers: field.refers,
                        to: value,
                    });
                }
                _ => self.faults.push(by),
            }
        }
    }

    /// How many rows there are of what a field refers to.
    fn count(&self, refers: Refers) -> usize {
        match refers {
            Refers::Name => self.sheet.names.len(),
            Refers::Query => self.sheet.queries.len(),
            _ => self.sheet.exprs.len(),
        }
    }

    /// Who names whom: by a listed field, by `next`, and as a query's first statement.
    fn namings(&mut self) -> Namings {
        let sheet = self.sheet;
        let mut namings = Namings::of(sheet);
        for reference in &self.references {
            match reference.refers {
                Refers::Name => {}
                Refers::Query => namings.query(reference.to, reference.by),
                Refers::Term => namings.term(reference.to, reference.by),
                _ => namings.expr(reference.to, reference.by),
            }
        }
        let members = self.chain_members();
        for (index, expr) in sheet.exprs.iter().enumerate() {
            let by = Row::Expr(index + 1);
            let next = expr.next as usize;
            if next != 0 && members[index] && next <= sheet.exprs.len() {
                namings.expr(next, by);
            } else if next != 0 {
                self.faults.push(by);
            }
        }
        for (index, statement) in sheet.statements.iter().enumerate() {
            self.names_statement(&mut namings, statement.next, Row::Statement(index + 1));
        }
        for (index, &first) in sheet.queries.iter().enumerate() {
            self.names_statement(&mut namings, first, Row::Query(index + 1));
        }
        namings
    }

    fn names_statement(&mut self, namings: &mut Namings, to: u16, by: Row) {
        let to = to as usize;
        if to > self.sheet.statements.len() {
            self.faults.push(by);
        } else if to != 0 {
            namings.statement(to, by);
        }
    }

    /// For each expression, row `r` at index `r - 1`, whether it is in a chain. Only a smaller
    /// row or a statement makes a row a member, so one pass upwards settles it.
    fn chain_members(&self) -> Vec<bool> {
        let mut members = vec![false; self.sheet.exprs.len()];
        for reference in &self.references {
            let forwards = match reference.by {
                Row::Expr(row) => row < reference.to,
                _ => true,
            };
            if reference.refers.starts_chain() && forwards {
                members[reference.to - 1] = true;
            }
        }
        for row in 1..=members.len() {
            if let (true, Some(next)) = (members[row - 1], later_next(self.sheet, row)) {
                members[next - 1] = true;
            }
        }
        members
    }

    /// Each expression, each statement and each query after row 1 is named so.
    fn named_so(&mut self, namings: &Namings) {
        let exprs = (1..=self.sheet.exprs.len()).map(Row::Expr);
        let statements = (1..=self.sheet.statements.len()).map(Row::Statement);
        let queries = (2..=self.sheet.queries.len()).map(Row::Query);
        let rows = exprs.chain(statements).chain(queries);
        self.faults
            .extend(rows.filter(|&row| namings.only(row).is_none()));
    }

    /// What a field asks of the rows it refers to: variables, and keys with their values.
    fn chains(&mut self) {
        let sheet = self.sheet;
        let is_var = |row: usize| sheet.exprs[row - 1].kind == Kind::Var as u16;
        for reference in &self.references {
            let holds = match reference.refers {
                Refers::Var => is_var(reference.to),
                Refers::Vars => chain(sheet, reference.to).rows.into_iter().all(is_var),
                Refers::Pairs => {
                    let chain = chain(sheet, reference.to);
                    !chain.ends || chain.rows.len().is_multiple_of(2)
                }
                _ => true,
            };
            if !holds {
                self.faults.push(reference.by);
            }
        }
    }

    /// A nested query's row is larger than its enclosing query's, and that one's level below 8.
    fn nesting(&mut self, namings: &Namings) {
        for reference in &self.references {
            if reference.refers != Refers::Query {
                continue;
            }
            let enclosing = namings.enclosing(reference.by);
            // Row 1 is larger than no query's, also where the enclosing one is not known.
            let too_small = reference.to == 1 || enclosing.is_some_and(|q| reference.to <= q);
            // The level of the query around is known also where the named one is named twice.
            let level = enclosing.and_then(|q| namings.level(q));
            let too_deep = level.is_some_and(|level| level >= limits::NESTING);
            if too_small || too_deep {
                self.faults.push(reference.by);
            }
        }
    }
}

fn expr_next(sheet: &Sheet, row: usize) -> usize {
    sheet.exprs[row - 1].next as usize
}

/// The `next` of a row, where it names a later row.
fn later_next(sheet: &Sheet, row: usize) -> Option<usize> {
    let next = expr_next(sheet, row);
    (row < next && next <= sheet.exprs.len()).then_some(next)
}

/// The rows of a chain up to its end, or up to the first `next` that names no later row.
struct Chain {
    rows: Vec<usize>,
    ends: bool,
}

fn chain(sheet: &Sheet, first: usize) -> Chain {
    let rows: Vec<usize> =
        std::iter::successors(Some(first), |&row| later_next(sheet, row)).collect();
    let last = *rows.last().expect("a first row");
    Chain {
        ends: expr_next(sheet, last) == 0,
        rows,
    }
}
