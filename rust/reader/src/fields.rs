//! Question 6: fields, namings and nesting.

use crate::references::{How, References, Row, EXPRESSION, QUERY, STATEMENT};
use crate::Rows;
use std::collections::BTreeSet;

const BUILTIN: usize = 1;
const VAR: u16 = 6;
const OBJECT: u16 = 9;

/// The smallest line of a row at fault.
pub fn check(rows: &Rows) -> Result<(), usize> {
    let mut checker = Checker {
        rows,
        references: References::new(rows),
        faults: BTreeSet::new(),
    };
    checker.builtins();
    checker.queries();
    checker.statements();
    checker.expressions();
    checker.namings();
    checker.nesting();
    match checker.faults.first() {
        Some(&line) => Err(line),
        None => Ok(()),
    }
}

struct Checker<'a> {
    rows: &'a Rows,
    references: References,
    faults: BTreeSet<usize>,
}

/// What a listed field may hold, by its letter: `n` a name, `e` an expression, `o` an expression
/// that a comprehension puts out, `v` a Var, `c` a chain, `w` a chain of Vars, `q` a query; a
/// capital letter allows 0 too; `-` is not listed.
fn listed(section: usize, kind: u16) -> &'static [u8; 4] {
    match (section, kind) {
        // name first second third
        (EXPRESSION, 1) => b"N---",
        (EXPRESSION, 6) => b"n---",
        (EXPRESSION, 7..=9) => b"-C--",
        (EXPRESSION, 10 | 11) => b"-o-q",
        (EXPRESSION, 12) => b"-ooq",
        (EXPRESSION, 13) => b"-eC-",
        (EXPRESSION, 14) => b"-e--",
        (EXPRESSION, 15) => b"ne--",
        (EXPRESSION, 16..=21) => b"-ee-",
        (EXPRESSION, 22) => b"-Eee",
        // first second third query
        (STATEMENT, 1) => b"w---",
        (STATEMENT, 2) => b"Eee-",
        (STATEMENT, 3 | 4) => b"e---",
        (STATEMENT, 5) => b"Vveq",
        _ => b"----",
    }
}

impl Checker<'_> {
    fn count(&self, section: usize) -> usize {
        match section {
            0 => self.rows.names.len(),
            _ => self.rows.sections[section - 1].len(),
        }
    }

    fn values(&self, row: Row) -> &[u16] {
        &self.rows.sections[row.section - 1][row.number - 1]
    }

    fn all(&self, section: usize) -> impl Iterator<Item = Row> {
        (1..=self.count(section)).map(move |number| Row { section, number })
    }

    fn fault(&mut self, row: Row) {
        self.faults.insert(self.rows.line(row.section, row.number));
    }

    fn fault_if(&mut self, row: Row, at_fault: bool) {
        if at_fault {
            self.fault(row);
        }
    }

    fn builtins(&mut self) {
        let names = self.count(0);
        let mut paths = BTreeSet::new();
        for row in self.all(BUILTIN) {
            let [arity, first, second, third] = self.values(row)[..] else {
                unreachable!("four values")
            };
            let path = [first, second, third];
            let beyond = path.iter().any(|&part| usize::from(part) > names);
            let gap = first == 0 || (second == 0 && third != 0);
            let again = !paths.insert(path);
            self.fault_if(row, arity > 255 || gap || beyond || again);
        }
    }

    /// A reference from `by` to a row of `section`; out of range it is a fault and names nothing.
    fn refer(&mut self, by: Row, section: usize, value: u16, how: How) {
        if value == 0 {
            return;
        }
        if usize::from(value) > self.count(section) {
            return self.fault(by);
        }
        if section != 0 {
            let to = Row {
                section,
                number: usize::from(value),
            };
            self.references.add(by, to, how);
        }
    }

    fn queries(&mut self) {
        for row in self.all(QUERY) {
            let first = self.values(row)[0];
            self.refer(row, STATEMENT, first, How::ChainStart);
        }
    }

    fn field(&mut self, row: Row, value: u16, letter: u8) {
        self.fault_if(row, letter == b'-' && value != 0);
        self.fault_if(row, letter.is_ascii_lowercase() && value == 0);
        let (section, how) = match letter.to_ascii_lowercase() {
            b'n' => (0, How::Plain),
            b'e' | b'v' => (EXPRESSION, How::Plain),
            b'o' => (EXPRESSION, How::Output),
            b'c' | b'w' => (EXPRESSION, How::ChainStart),
            b'q' => (QUERY, How::Query),
            _ => return,
        };
        self.refer(row, section, value, how);
    }

    fn statements(&mut self) {
        for row in self.all(STATEMENT) {
            let values = self.values(row).to_vec();
            self.fault_if(row, !(1..=5).contains(&values[0]));
            let letters = listed(STATEMENT, values[0]);
            for (&value, &letter) in values[1..5].iter().zip(letters) {
                self.field(row, value, letter);
                let var = letter.eq_ignore_ascii_case(&b'v');
                self.fault_if(row, var && self.is_other_than_var(value));
            }
            if letters[0] == b'w' {
                let others = self
                    .chain(values[1])
                    .0
                    .iter()
                    .any(|&e| self.is_other_than_var(e));
                self.fault_if(row, others);
            }
            self.refer(row, EXPRESSION, values[5], How::ChainStart);
            self.refer(row, STATEMENT, values[6], How::Next);
        }
    }

    /// Names ascend here, so that chain members are known when their `next` is looked at.
    fn expressions(&mut self) {
        for row in self.all(EXPRESSION) {
            let values = self.values(row).to_vec();
            self.fault_if(row, !(1..=22).contains(&values[0]));
            let fields = [values[1], values[4], values[5], values[6]];
            for (value, &letter) in fields.into_iter().zip(listed(EXPRESSION, values[0])) {
                self.field(row, value, letter);
            }
            if self.references.is_member(row.number) {
                self.refer(row, EXPRESSION, values[7], How::Next);
            } else {
                self.fault_if(row, values[7] != 0);
            }
            if values[0] == OBJECT {
                let (items, ends) = self.chain(values[4]);
                self.fault_if(row, ends && items.len() % 2 == 1);
            }
        }
    }

    fn is_other_than_var(&self, expression: u16) -> bool {
        let number = usize::from(expression);
        (1..=self.count(EXPRESSION)).contains(&number)
            && self.rows.sections[EXPRESSION - 1][number - 1][0] != VAR
    }

    /// The rows of a chain as far as each `next` names a later row, and whether it ends there.
    fn chain(&self, first: u16) -> (Vec<u16>, bool) {
        let mut items = Vec::new();
        let mut at = first;
        loop {
            if at == 0 {
                return (items, true);
            }
            let before = items.last().copied().unwrap_or(0);
            if usize::from(at) > self.count(EXPRESSION) || at <= before {
                return (items, false);
            }
            items.push(at);
            at = self.rows.sections[EXPRESSION - 1][usize::from(at) - 1][7];
        }
    }

    fn namings(&mut self) {
        for section in [EXPRESSION, STATEMENT, QUERY] {
            for row in self.all(section) {
                let outer = section == QUERY && row.number == 1;
                self.fault_if(row, !outer && !self.references.named_so(row));
            }
        }
    }

    /// The query that a comprehension or an `every` names, if it is in range.
    fn named_query(&self, row: Row) -> Option<usize> {
        let values = self.values(row);
        let query = match (row.section, values[0]) {
            (EXPRESSION, 10..=12) => values[6],
            (STATEMENT, 5) => values[4],
            _ => 0,
        };
        let query = usize::from(query);
        (1..=self.count(QUERY)).contains(&query).then_some(query)
    }

    fn nesting(&mut self) {
        for section in [EXPRESSION, STATEMENT] {
            for row in self.all(section) {
                let Some(query) = self.named_query(row) else {
                    continue;
                };
                let output_query = |r: Row| self.named_query(r);
                let around = self.references.enclosing(row, &output_query);
                let not_larger = query == 1 || around.is_some_and(|q| query <= q);
                let level =
                    around.and_then(|q| self.references.level(q, &output_query, &mut Vec::new()));
                let too_deep = level.is_some_and(|level| level >= 8);
                self.fault_if(row, not_larger || too_deep);
            }
        }
    }
}
