//! What an exported call refuses with.

use std::fmt;

/// A number of the specification, and a position.
#[derive(Clone, Copy, Debug, PartialEq, Eq)]
pub struct Refusal {
    pub number: u16,
    pub line: u16,
    pub col: u16,
}

impl Refusal {
    /// Every exported call packs a refusal as number x 2^32 + line x 2^16 + col.
    pub fn unpack(packed: u64) -> Refusal {
        Refusal {
            number: (packed >> 32) as u16,
            line: (packed >> 16) as u16,
            col: packed as u16,
        }
    }

    /// What the number says; nothing for one that no call refuses with.
    pub fn reason(&self) -> Option<&'static str> {
        Some(match self.number {
            1 => "the tables or work are too short",
            2 => "the sheet is too long",
            3 => "the sheet has not the form of five sections",
            4 => "a name is none, or not above the one before it",
            5 => "a section has too many rows, or there is no query",
            6 => "a field or the nesting is not as it should be",
            7 => "the text is longer than the answer's bytes",
            8 => "the definitions, or the buffers for their order, are out of bounds",
            11 => "an undefined variable",
            12 => "a variable used before its definition",
            13 => "arrays whose lengths differ",
            14 => "an index variable inside a some-in pattern",
            _ => return None,
        })
    }
}

impl fmt::Display for Refusal {
    fn fmt(&self, f: &mut fmt::Formatter<'_>) -> fmt::Result {
        let Refusal { number, line, col } = self;
        write!(f, "refused with {number} at line {line}, column {col}")?;
        match self.reason() {
            Some(reason) => write!(f, ": {reason}"),
            None => Ok(()),
        }
    }
}

impl std::error::Error for Refusal {}
