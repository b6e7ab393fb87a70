//! Calls the original and reads its answer.

use crate::ast::{Query, Ref};
use crate::builtins::BUILTINS;
use crate::from_rows::Rows;
use crate::lexer::SourceStr;
use crate::probe;
use crate::query::traversal::Scope;
use crate::scheduler::{self, Analyzer, QuerySchedule, SortResult, StmtInfo};
use crate::{Analysis, Outcome, Run, TRAVERSE_LIMIT};
use sheets::answer::{Answer, Entry, Placed, QueryAnswer, Set};
use sheets::lists::{Definition, List, Scheduled};
use sheets::Sheet;
use std::collections::BTreeMap;

pub fn analyze(sheet: &Sheet) -> Run {
    BUILTINS.supply(arities(sheet));
    let rows = Rows::new(sheet);
    let outer = rows.query(1);
    probe::restart(TRAVERSE_LIMIT);
    let result = Analyzer::new().analyze_query_snippet(&[], &outer);
    let names = NameRows::of(sheet);
    let analyses: Vec<Analysis> = probe::take_analyses()
        .into_iter()
        .map(|a| names.analysis(sheet, &rows, a))
        .collect();
    let outcome = match result {
        Ok(schedule) => {
            let query = |row: u16| {
                // The answer is the table's; the marks are those of the analysis that wrote it.
                let table = &schedule.queries;
                let stored = table.get_checked(0, rows.qidx(row)).expect("a slot");
                match (stored, analyses.iter().rfind(|a| a.query == row)) {
                    (None, None) => QueryAnswer::never_analysed(),
                    (Some(stored), Some(last)) => {
                        assert_eq!(stored.order, last.answer.order, "the table's order");
                        last.answer.clone()
                    }
                    _ => panic!("query {row}: the table and the log disagree"),
                }
            };
            let queries = (1..=sheet.queries.len() as u16).map(query).collect();
            Outcome::Answered(Answer::Queries(queries))
        }
        Err(error) => refusal(&error.to_string()),
    };
    Run {
        outcome,
        traverse_entries: probe::entries(),
        analyses,
    }
}

/// The arity of each built-in, by its path.
fn arities(sheet: &Sheet) -> BTreeMap<String, u8> {
    let path = |parts: &[u16]| {
        let names = parts.iter().filter(|&&p| p != 0);
        let texts: Vec<&str> = names
            .map(|&p| sheet.names[usize::from(p) - 1].as_str())
            .collect();
        texts.join(".")
    };
    let builtins = sheet.builtins.iter();
    builtins.map(|b| (path(&b.path), b.arity as u8)).collect()
}

/// The outer query as the original has it, and the built-ins.
pub struct Built {
    outer: Ref<Query>,
    arities: BTreeMap<String, u8>,
}

impl Built {
    pub fn new(sheet: &Sheet) -> Built {
        Built {
            outer: Rows::new(sheet).query(1),
            arities: arities(sheet),
        }
    }

    pub fn supply_builtins(&self) {
        BUILTINS.supply(self.arities.clone());
    }

    /// The analysis with nothing recorded; is there an answer?
    pub fn analyze_only(&self) -> bool {
        probe::set_recording(false);
        probe::allow(u64::MAX);
        let result = Analyzer::new().analyze_query_snippet(&[], &self.outer);
        probe::set_recording(true);
        result.is_ok()
    }
}

/// The original's errors, known by their message, with the position that the message starts with.
fn refusal(message: &str) -> Outcome {
    if message == probe::TOO_LONG {
        return Outcome::TooLong;
    }
    let numbers = [
        ("error: use of undefined variable", 11),
        ("used before definition below", 12),
        ("error: mismatch in number of array elements", 13),
        ("internal error: non empty definitions", 14),
    ];
    let number = numbers.iter().find(|(text, _)| message.contains(text));
    let Some(&(_, number)) = number else {
        panic!("the original failed otherwise: {message}")
    };
    let (line, col) = position(message).unwrap_or((0, 0));
    Outcome::Answered(Answer::Refusal { number, line, col })
}

/// `\n--> sheet:LINE:COL\n`
fn position(message: &str) -> Option<(u16, u16)> {
    let place = message.strip_prefix("\n--> sheet:")?.lines().next()?;
    let (line, col) = place.split_once(':')?;
    Some((line.parse().ok()?, col.parse().ok()?))
}

struct NameRows(BTreeMap<String, u16>);

impl NameRows {
    fn of(sheet: &Sheet) -> NameRows {
        let rows = sheet.names.iter().zip(1u16..);
        NameRows(rows.map(|(name, row)| (name.clone(), row)).collect())
    }

    fn row(&self, name: &str) -> u16 {
        if name.is_empty() {
            0
        } else {
            self.0[name]
        }
    }

    fn analysis(&self, sheet: &Sheet, rows: &Rows, a: probe::Analysis) -> Analysis {
        let numbers = 1..=sheet.queries.len() as u16;
        Analysis {
            query: numbers
                .into_iter()
                .find(|&q| rows.qidx(q) == a.qidx)
                .expect("a query"),
            list: List {
                statements: a.statements as u16,
                definitions: a.definitions.iter().map(|d| self.definition(d)).collect(),
            },
            answer: self.answer(&a.schedule, &a.placed),
        }
    }

    fn definition(&self, d: &probe::Recorded) -> Definition {
        Definition {
            statement: d.statement as u16,
            name: self.row(&d.name),
            used: d.used.iter().map(|u| self.row(u)).collect(),
        }
    }

    fn answer(&self, schedule: &QuerySchedule, placed: &[u16]) -> QueryAnswer {
        let QuerySchedule { scope, order } = schedule;
        let marks = marks(order.len(), placed);
        QueryAnswer {
            placed: if placed.len() == order.len() {
                Placed::Yes
            } else {
                Placed::No
            },
            input: scope.uses_input,
            order: order.clone(),
            reached: marks,
            entries: self.entries(scope),
        }
    }

    fn entries(&self, scope: &Scope) -> Vec<Entry> {
        let plain = |set: Set| {
            move |name: &SourceStr| Entry {
                set,
                name: self.row(name.text()),
                line: 0,
                col: 0,
            }
        };
        let locals = scope.locals.iter().map(|(name, span)| Entry {
            line: span.line as u16,
            col: span.col as u16,
            ..plain(Set::Locals)(name)
        });
        locals
            .chain(scope.unscoped.iter().map(plain(Set::Unscoped)))
            .chain(scope.inputs.iter().map(plain(Set::Inputs)))
            .collect()
    }
}

fn marks(statements: usize, placed: &[u16]) -> Vec<bool> {
    let mut marks = vec![false; statements];
    for &index in placed {
        marks[usize::from(index)] = true;
    }
    marks
}

/// The list in the form that the original's `schedule` takes.
pub fn infos(list: &List) -> Vec<StmtInfo<u16>> {
    let mut infos: Vec<StmtInfo<u16>> = (0..list.statements)
        .map(|_| StmtInfo {
            definitions: Vec::new(),
        })
        .collect();
    for d in &list.definitions {
        let info = &mut infos[usize::from(d.statement)];
        info.definitions.push(scheduler::Definition {
            var: d.name,
            used_vars: d.used.clone(),
        });
    }
    infos
}

pub fn schedule(list: &List) -> Scheduled {
    probe::restart(0);
    let Ok(SortResult::Order(order)) = scheduler::schedule(&mut infos(list), &0) else {
        panic!("the original's `schedule` handed out no order");
    };
    let placed = probe::last_placed();
    Scheduled {
        placed: placed.len() == order.len(),
        reached: marks(order.len(), &placed),
        order,
    }
}

/// `schedule` with nothing recorded; how long the order is.
pub fn schedule_only(infos: &mut [StmtInfo<u16>]) -> usize {
    probe::set_recording(false);
    let result = scheduler::schedule(infos, &0);
    probe::set_recording(true);
    match result {
        Ok(SortResult::Order(order)) => order.len(),
        _ => panic!("the original's `schedule` handed out no order"),
    }
}
