//! What the lines added to the original report: entries of `traverse`, the definitions handed to
//! `schedule`, what it placed, and each analysis of a query.

use crate::lexer::SourceStr;
use crate::scheduler::{QuerySchedule, StmtInfo};
use std::cell::{Cell, RefCell};

/// A definition with its names as texts; the empty name is the empty text.
#[derive(Clone, Debug, PartialEq, Eq)]
pub struct Recorded {
    pub statement: usize,
    pub name: String,
    pub used: Vec<String>,
}

/// One analysis of one query.
#[derive(Clone, Debug)]
pub struct Analysis {
    pub qidx: u32,
    pub statements: usize,
    pub definitions: Vec<Recorded>,
    /// The statements placed, in the order of their placing.
    pub placed: Vec<u16>,
    pub schedule: QuerySchedule,
}

#[derive(Default)]
struct Log {
    /// Definitions and placements of queries whose analysis is not finished.
    definitions: Vec<(u32, usize, Vec<Recorded>)>,
    placed: Vec<u16>,
    finished: Vec<(u32, usize, Vec<Recorded>, Vec<u16>)>,
    analyses: Vec<Analysis>,
}

thread_local! {
    static LOG: RefCell<Log> = RefCell::default();
    /// Entries of `traverse`, and how many are allowed. These are counted while the original is
    /// timed too, so they cost as little as can be.
    static ENTRIES: Cell<u64> = const { Cell::new(0) };
    static LIMIT: Cell<u64> = const { Cell::new(0) };
    /// Off while the original is timed: then only entries of `traverse` are counted.
    static RECORDING: Cell<bool> = const { Cell::new(true) };
}

pub const TOO_LONG: &str = "traverse was entered too often";

pub fn enter_traverse() -> anyhow::Result<()> {
    let entries = ENTRIES.get() + 1;
    ENTRIES.set(entries);
    if entries > LIMIT.get() {
        anyhow::bail!(TOO_LONG)
    }
    Ok(())
}

pub fn record_definitions(qidx: u32, infos: &[StmtInfo<SourceStr>]) {
    if !RECORDING.get() {
        return;
    }
    let mut definitions = Vec::new();
    for (statement, info) in infos.iter().enumerate() {
        for definition in &info.definitions {
            definitions.push(Recorded {
                statement,
                name: definition.var.text().to_string(),
                used: texts(&definition.used_vars),
            });
        }
    }
    LOG.with_borrow_mut(|log| log.definitions.push((qidx, infos.len(), definitions)));
}

pub fn record_placed(order: &[u16]) {
    if !RECORDING.get() {
        return;
    }
    LOG.with_borrow_mut(|log| {
        log.placed = order.to_vec();
        // `schedule` may also be called by itself, on a plain list.
        if let Some((qidx, statements, definitions)) = log.definitions.pop() {
            let placed = log.placed.clone();
            log.finished.push((qidx, statements, definitions, placed));
        }
    });
}

pub fn record_analysis(qidx: u32, schedule: &QuerySchedule) {
    if !RECORDING.get() {
        return;
    }
    LOG.with_borrow_mut(|log| {
        // Comprehensions in output expressions are analysed between `schedule` and here, so the
        // query's own entry is the last one with its index.
        let at = log.finished.iter().rposition(|entry| entry.0 == qidx);
        let Some(at) = at else { return };
        let (_, statements, definitions, placed) = log.finished.remove(at);
        log.analyses.push(Analysis {
            qidx,
            statements,
            definitions,
            placed,
            schedule: schedule.clone(),
        });
    });
}

fn texts(names: &[SourceStr]) -> Vec<String> {
    names.iter().map(|name| name.text().to_string()).collect()
}

pub fn set_recording(on: bool) {
    RECORDING.set(on);
}

/// Forgets everything and allows `limit` entries of `traverse`.
pub fn restart(limit: u64) {
    allow(limit);
    LOG.set(Log::default());
}

/// Starts to count entries of `traverse` anew.
pub fn allow(limit: u64) {
    ENTRIES.set(0);
    LIMIT.set(limit);
}

pub fn entries() -> u64 {
    ENTRIES.get()
}

pub fn last_placed() -> Vec<u16> {
    LOG.with_borrow(|log| log.placed.clone())
}

pub fn take_analyses() -> Vec<Analysis> {
    LOG.with_borrow_mut(|log| std::mem::take(&mut log.analyses))
}
