//! Question 6 said once more, from the outer query downwards: a sheet is valid if one descent
//! meets every row exactly once. It says nothing about lines.

use sheets::sheet::{ExprRow, StatementRow};
use sheets::Sheet;

/// Whether a sheet that passes questions 2 to 5 passes question 6.
pub fn valid(sheet: &Sheet) -> bool {
    let mut descent = Descent {
        sheet,
        exprs: vec![false; sheet.exprs.len()],
        statements: vec![false; sheet.statements.len()],
        queries: vec![false; sheet.queries.len()],
    };
    let met = descent.query(1, 1).is_some();
    let all = |marks: &[bool]| marks.iter().all(|&mark| mark);
    met && all(&descent.exprs)
        && all(&descent.statements)
        && all(&descent.queries)
        && builtins(sheet)
}

fn builtins(sheet: &Sheet) -> bool {
    let mut paths: Vec<[u16; 3]> = sheet.builtins.iter().map(|b| b.path).collect();
    paths.sort_unstable();
    paths.windows(2).all(|pair| pair[0] != pair[1])
        && sheet.builtins.iter().all(|b| {
            let [first, second, third] = b.path;
            let named = |part: u16| part as usize <= sheet.names.len();
            b.arity < 256
                && first != 0
                && (second != 0 || third == 0)
                && b.path.iter().all(|&part| named(part))
        })
}

struct Descent<'a> {
    sheet: &'a Sheet,
    exprs: Vec<bool>,
    statements: Vec<bool>,
    queries: Vec<bool>,
}

/// The query that a row lies in.
#[derive(Clone, Copy)]
struct Place {
    query: u16,
    level: usize,
}

/// Marks a row, once.
fn meet(marks: &mut [bool], row: u16) -> Option<()> {
    let mark = marks.get_mut((row as usize).checked_sub(1)?)?;
    (!std::mem::replace(mark, true)).then_some(())
}

fn need(condition: bool) -> Option<()> {
    condition.then_some(())
}

impl Descent<'_> {
    fn query(&mut self, row: u16, level: usize) -> Option<()> {
        need(level <= 8)?;
        meet(&mut self.queries, row)?;
        let place = Place { query: row, level };
        let mut before = 0;
        let mut next = self.sheet.queries[row as usize - 1];
        while next != 0 {
            need(next > before)?;
            meet(&mut self.statements, next)?;
            let statement = self.sheet.statements[next as usize - 1];
            self.statement(statement, place)?;
            before = next;
            next = statement.next;
        }
        Some(())
    }

    fn nested(&mut self, row: u16, around: Place) -> Option<Place> {
        need(row > around.query)?;
        let level = around.level + 1;
        self.query(row, level)?;
        Some(Place { query: row, level })
    }

    fn statement(&mut self, s: StatementRow, place: Place) -> Option<()> {
        self.chain(s.with, 0, place)?;
        match s.form {
            1 => {
                need(s.second == 0 && s.third == 0 && s.query == 0)?;
                let vars = self.chain(s.first, 0, place)?;
                need(!vars.is_empty() && vars.iter().all(|&v| self.is_var(v)))
            }
            2 | 5 => {
                if s.first != 0 {
                    self.part(s.first, 0, place)?;
                }
                self.part(s.second, 0, place)?;
                self.part(s.third, 0, place)?;
                if s.form == 2 {
                    return need(s.query == 0);
                }
                need(s.first == 0 || self.is_var(s.first))?;
                need(self.is_var(s.second))?;
                self.nested(s.query, place).map(|_| ())
            }
            3 | 4 => {
                need(s.second == 0 && s.third == 0 && s.query == 0)?;
                self.part(s.first, 0, place)
            }
            _ => None,
        }
    }

    fn is_var(&self, row: u16) -> bool {
        self.sheet.exprs[row as usize - 1].kind == 6
    }

    /// The members of a chain whose first row comes after `after`.
    fn chain(&mut self, first: u16, after: u16, place: Place) -> Option<Vec<u16>> {
        let mut members = Vec::new();
        let (mut before, mut row) = (after, first);
        while row != 0 {
            self.expr(row, before, place)?;
            members.push(row);
            before = row;
            row = self.sheet.exprs[row as usize - 1].next;
        }
        Some(members)
    }

    /// An expression that is in no chain.
    fn part(&mut self, row: u16, after: u16, place: Place) -> Option<()> {
        self.expr(row, after, place)?;
        need(self.sheet.exprs[row as usize - 1].next == 0)
    }

    fn expr(&mut self, row: u16, after: u16, place: Place) -> Option<()> {
        need(row > after)?;
        meet(&mut self.exprs, row)?;
        let e = self.sheet.exprs[row as usize - 1];
        let ExprRow {
            name,
            first,
            second,
            third,
            ..
        } = e;
        let named = match e.kind {
            1 => name as usize <= self.sheet.names.len(),
            6 | 15 => name != 0 && name as usize <= self.sheet.names.len(),
            _ => name == 0,
        };
        need(named)?;
        match e.kind {
            1..=6 => need([first, second, third] == [0; 3]),
            7..=9 => {
                need([second, third] == [0; 2])?;
                let members = self.chain(first, row, place)?;
                need(e.kind != 9 || members.len() % 2 == 0)
            }
            10 | 11 => {
                need(second == 0)?;
                let inside = self.nested(third, place)?;
                self.part(first, row, inside)
            }
            12 => {
                let inside = self.nested(third, place)?;
                self.part(first, row, inside)?;
                self.part(second, row, inside)
            }
            13 => {
                need(third == 0)?;
                self.part(first, row, place)?;
                self.chain(second, row, place).map(|_| ())
            }
            14 | 15 => {
                need([second, third] == [0; 2])?;
                self.part(first, row, place)
            }
            16..=21 => {
                need(third == 0)?;
                self.part(first, row, place)?;
                self.part(second, row, place)
            }
            22 => {
                if first != 0 {
                    self.part(first, row, place)?;
                }
                self.part(second, row, place)?;
                self.part(third, row, place)
            }
            _ => None,
        }
    }
}
