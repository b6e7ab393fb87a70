//! The proved analysis of a whole sheet, by the library's call and by the printing program's, beside
//! the plain reader and the original: equal refusals and positions, equal texts, and every element
//! of the lent buffers as it has to be.

mod expected;
pub mod parts;

pub use expected::{AnalyzeCall, NarrowCall};

use sheets::vectors::{self, Vector};

/// The fixed list of sheets with the original's answers.
pub fn fixed_list() -> Vec<Vector> {
    vectors::read(include_str!("../../vectors/sheets.txt"))
}
