//! A sheet on which the two sides differ.

use super::Lengths;
use std::fmt;

#[derive(Clone, Debug)]
pub struct Difference {
    pub sheet: Vec<u8>,
    pub lengths: Lengths,
    pub found: String,
}

/// How many bytes of a sheet are shown.
const SHOWN: usize = 8_000;

impl fmt::Display for Difference {
    fn fmt(&self, f: &mut fmt::Formatter<'_>) -> fmt::Result {
        let bytes = self.sheet.len();
        writeln!(f, "{}", self.found)?;
        writeln!(f, "with {}, on this sheet of {bytes} bytes:", self.lengths)?;
        let shown = &self.sheet[..bytes.min(SHOWN)];
        for line in shown.split_inclusive(|&byte| byte == b'\n') {
            match line.strip_suffix(b"\n") {
                Some(whole) => writeln!(f, "{}", whole.escape_ascii())?,
                None => writeln!(f, "{} (no line end)", line.escape_ascii())?,
            }
        }
        if bytes > SHOWN {
            writeln!(f, "({} bytes more)", bytes - SHOWN)?;
        }
        Ok(())
    }
}

impl std::error::Error for Difference {}
