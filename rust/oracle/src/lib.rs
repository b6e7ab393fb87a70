//! The original analyser, asked through sheets.
//!
//! The build compiles the original files as they are (see `build.rs`), and this crate turns a
//! sheet's rows into the original's syntax tree, calls `Analyzer::analyze_query_snippet` with no
//! module, and reads the answer out of its tables. Where the original files are not at hand every
//! call answers [`NotAtHand`].

use sheets::answer::Answer;
use sheets::lists::{List, Scheduled};
use sheets::Sheet;
use std::fmt;

#[cfg(original)]
extern crate alloc;

// The original files name their neighbours and the stand-ins from the crate's root.
#[cfg(original)]
include!(concat!(env!("OUT_DIR"), "/original.rs"));
#[cfg(original)]
pub use {alloc::rc::Rc, parser::serde_json, value::Value};

#[cfg(original)]
mod builtins;
#[cfg(original)]
mod from_rows;
#[cfg(original)]
mod parser;
#[cfg(original)]
mod probe;
#[cfg(original)]
mod run;
#[cfg(original)]
mod value;

pub mod shares;

/// Past this many entries of `traverse` a sheet is given up.
pub const TRAVERSE_LIMIT: u64 = 1_000_000;

/// Were the original files there when this crate was built?
pub const AT_HAND: bool = cfg!(original);

#[derive(Clone, Copy, Debug, PartialEq, Eq)]
pub struct NotAtHand;

impl fmt::Display for NotAtHand {
    fn fmt(&self, f: &mut fmt::Formatter<'_>) -> fmt::Result {
        f.write_str(
            "the original files are not at hand: set REGORUS_DIR to a checkout of regorus, \
             or put shared/ beside the repository, and build again",
        )
    }
}

impl std::error::Error for NotAtHand {}

/// One analysis of one query. A query can be analysed more than once.
#[derive(Clone, Debug, PartialEq, Eq)]
pub struct Analysis {
    pub query: u16,
    /// What `schedule` got.
    pub list: List,
    pub answer: sheets::answer::QueryAnswer,
}

#[derive(Clone, Debug, PartialEq, Eq)]
pub enum Outcome {
    Answered(Answer),
    /// More than [`TRAVERSE_LIMIT`] entries of `traverse`.
    TooLong,
}

/// An outcome with what was seen on the way.
#[derive(Clone, Debug)]
pub struct Run {
    pub outcome: Outcome,
    pub traverse_entries: u64,
    /// Finished analyses, in the order in which they finished.
    pub analyses: Vec<Analysis>,
}

/// Analyses a sheet that passes questions 2 to 6.
///
/// # Panics
/// Where the sheet does not pass them, or the original fails with an error that document 01 does
/// not number.
pub fn analyze(sheet: &Sheet) -> Result<Run, NotAtHand> {
    #[cfg(original)]
    return Ok(on_deep_stack(|| run::analyze(sheet)));
    #[cfg(not(original))]
    {
        let _ = sheet;
        Err(NotAtHand)
    }
}

/// Calls the original's generic `schedule` on a plain list of definitions.
pub fn schedule(list: &List) -> Result<Scheduled, NotAtHand> {
    #[cfg(original)]
    return Ok(run::schedule(list));
    #[cfg(not(original))]
    {
        let _ = list;
        Err(NotAtHand)
    }
}

/// A list in the form that the original's `schedule` takes, so that the call alone can be timed.
pub struct Prepared {
    #[cfg(original)]
    infos: Vec<scheduler::StmtInfo<u16>>,
}

impl Prepared {
    pub fn new(list: &List) -> Result<Prepared, NotAtHand> {
        #[cfg(original)]
        return Ok(Prepared {
            infos: run::infos(list),
        });
        #[cfg(not(original))]
        {
            let _ = list;
            Err(NotAtHand)
        }
    }

    /// Calls `schedule`; the added lines record nothing.
    pub fn schedule(&mut self) -> usize {
        #[cfg(original)]
        {
            run::schedule_only(&mut self.infos)
        }
        #[cfg(not(original))]
        0
    }
}

/// A sheet as the original's own tree, so that the analysis alone can be timed.
pub struct Built {
    #[cfg(original)]
    built: run::Built,
}

impl Built {
    pub fn new(sheet: &Sheet) -> Result<Built, NotAtHand> {
        #[cfg(original)]
        return Ok(Built {
            built: run::Built::new(sheet),
        });
        #[cfg(not(original))]
        {
            let _ = sheet;
            Err(NotAtHand)
        }
    }

    /// Makes the sheet's built-ins those of this thread. To be called before [`Built::analyze`],
    /// and again after another sheet's.
    pub fn supply_builtins(&self) {
        #[cfg(original)]
        self.built.supply_builtins();
    }

    /// Calls `analyze_query_snippet`; the added lines record nothing, and the call is never given
    /// up. Is there an answer? Call it on a deep stack.
    pub fn analyze(&self) -> bool {
        #[cfg(original)]
        return self.built.analyze_only();
        #[cfg(not(original))]
        false
    }
}

/// Runs `work` on a thread whose stack holds the deepest sheets. The original recurses once for
/// each level of an expression, and a sheet's expression may have 511.
pub fn on_deep_stack<T: Send>(work: impl FnOnce() -> T + Send) -> T {
    use std::cell::Cell;
    const STACK: usize = 512 << 20;
    thread_local!(static DEEP: Cell<bool> = const { Cell::new(false) });
    if DEEP.get() {
        return work();
    }
    let deep = || {
        DEEP.set(true);
        work()
    };
    std::thread::scope(|scope| {
        let thread = std::thread::Builder::new().stack_size(STACK);
        let handle = thread.spawn_scoped(scope, deep).expect("a thread");
        match handle.join() {
            Ok(value) => value,
            Err(panic) => std::panic::resume_unwind(panic),
        }
    })
}
