//! A proved call on a sheet and lent buffers, and what has to come of it: the result, and every
//! element of the buffers.

mod command;
mod difference;
mod edges;
mod lent;
mod smaller;
mod spread;
mod tally;

pub use command::{command, Report};
pub use difference::Difference;
pub use edges::compare_edges;
pub use lent::Lent;
pub use smaller::smaller;
pub use spread::spread;
pub use tally::{Outcome, Tally};

use nokchbem::Refusal;
use reader::Rows;
use sheets::limits::{Limits, TABLES};
use std::fmt;

/// How long the lent buffers are.
#[derive(Clone, Copy, Debug, PartialEq, Eq)]
pub struct Lengths {
    pub tables: usize,
    pub work: usize,
    /// 0 for a call that is lent none.
    pub answer: usize,
}

impl Lengths {
    /// Just what question 1 asks for, and so many bytes of answer.
    pub const fn exact(limits: Limits, answer: usize) -> Lengths {
        Lengths {
            tables: TABLES,
            work: limits.work,
            answer,
        }
    }

    /// More than what question 1 asks for.
    pub const fn longer(limits: Limits, answer: usize) -> Lengths {
        Lengths {
            tables: TABLES + 37,
            work: limits.work + 5,
            answer,
        }
    }

    pub fn enough(&self, limits: Limits) -> bool {
        self.tables >= TABLES && self.work >= limits.work
    }
}

impl fmt::Display for Lengths {
    fn fmt(&self, f: &mut fmt::Formatter<'_>) -> fmt::Result {
        write!(
            f,
            "tables of {}, work of {} and answer of {}",
            self.tables, self.work, self.answer
        )
    }
}

/// The refusal of a question that lays no column.
pub fn refusal(number: u16, line: usize) -> Refusal {
    Refusal {
        number,
        line: u16::try_from(line).expect("a sheet has fewer lines"),
        col: 0,
    }
}

/// What has to come of a call. Work has to be zeros in any case.
#[derive(Clone, Debug)]
pub struct Due {
    pub outcome: Outcome,
    /// None where nobody knows: then the answer is well formed, or zeros if the sheet is refused, by
    /// a question that no reader asks.
    pub result: Option<Result<(), Refusal>>,
    /// The front of the tables, and of the answer; zeros behind it.
    pub tables: Vec<u16>,
    pub answer: Vec<u8>,
}

impl Due {
    pub fn refused(refusal: Refusal) -> Due {
        Due {
            result: Some(Err(refusal)),
            ..Due::unknown(Outcome::Refused(refusal.number))
        }
    }

    pub fn passed(outcome: Outcome) -> Due {
        Due {
            result: Some(Ok(())),
            ..Due::unknown(outcome)
        }
    }

    pub fn unknown(outcome: Outcome) -> Due {
        Due {
            outcome,
            result: None,
            tables: Vec::new(),
            answer: Vec::new(),
        }
    }
}

/// A proved call, with what it is compared with.
pub trait Call {
    const LIMITS: Limits;

    /// How many names the plain reader lets pass, by its own account.
    const READER_NAMES: usize;

    fn call(
        sheet: &[u8],
        tables: &mut [u16],
        work: &mut [u64],
        answer: &mut [u8],
    ) -> Result<(), Refusal>;

    /// Question 1 comes first; 2 to 6 are the plain reader's.
    fn rows(sheet: &[u8], lengths: Lengths) -> Result<Rows, Refusal> {
        if !lengths.enough(Self::LIMITS) {
            return Err(refusal(1, 0));
        }
        let read = reader::read(sheet, Self::READER_NAMES);
        read.map_err(|fault| refusal(fault.number, fault.line))
    }

    fn due(sheet: &[u8], lengths: Lengths) -> Due;

    /// Could this be an answer? Asked where nobody knows which one is due.
    fn well_formed(answer: &[u8]) -> bool;
}

/// Compares sheet after sheet, on buffers of just the length and on longer ones.
pub struct Comparer<C> {
    exact: Lent<C>,
    longer: Lent<C>,
    tally: Tally,
}

impl<C: Call> Comparer<C> {
    /// With answers of so many bytes.
    fn new(answer: usize) -> Comparer<C> {
        Comparer {
            exact: Lent::new(Lengths::exact(C::LIMITS, answer)),
            longer: Lent::new(Lengths::longer(C::LIMITS, answer)),
            tally: Tally::default(),
        }
    }

    pub fn compare(&mut self, sheet: &[u8]) -> Result<(), Difference> {
        // The sheet alone says which buffers are lent, so that a difference can be had again.
        let lent = if sheet.len() % 8 == 7 {
            &mut self.longer
        } else {
            &mut self.exact
        };
        self.tally.count(lent.compare(sheet)?);
        self.tally.count_names(sheet);
        Ok(())
    }
}
