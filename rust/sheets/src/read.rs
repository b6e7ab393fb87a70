//! Reads a sheet's text back into rows, asking only for the form (five sections, whole rows of
//! decimal values). Whether the rows make sense is [`crate::check`]'s question.

use crate::sheet::{BuiltinRow, ExprRow, Sheet, StatementRow, HEADINGS};
use std::fmt;

/// The first line that has not the form. Lines count from 1.
#[derive(Clone, Copy, Debug, PartialEq, Eq)]
pub struct Malformed {
    pub line: usize,
}

impl fmt::Display for Malformed {
    fn fmt(&self, f: &mut fmt::Formatter<'_>) -> fmt::Result {
        write!(f, "line {} has not the form of a sheet", self.line)
    }
}

impl std::error::Error for Malformed {}

struct Lines<'a> {
    rest: &'a str,
    line: usize,
}

impl<'a> Lines<'a> {
    /// The next whole line, or the place where one is missing.
    fn next(&mut self) -> Result<&'a str, Malformed> {
        self.line += 1;
        let end = self.rest.find('\n').ok_or(Malformed { line: self.line })?;
        let (line, rest) = self.rest.split_at(end);
        self.rest = &rest[1..];
        Ok(line)
    }

    /// A heading, then every line up to the empty one.
    fn section<T>(
        &mut self,
        heading: &str,
        parse: impl Fn(&str) -> Option<T>,
    ) -> Result<Vec<T>, Malformed> {
        if self.next()? != heading {
            return Err(Malformed { line: self.line });
        }
        let mut rows = Vec::new();
        loop {
            let text = self.next()?;
            if text.is_empty() {
                return Ok(rows);
            }
            rows.push(parse(text).ok_or(Malformed { line: self.line })?);
        }
    }
}

fn value(text: &str) -> Option<u16> {
    let plain = text.bytes().all(|b| b.is_ascii_digit());
    if !plain || (text.len() > 1 && text.starts_with('0')) {
        return None;
    }
    text.parse().ok()
}

/// Exactly `N` values with one space between.
pub(crate) fn values<const N: usize>(text: &str) -> Option<[u16; N]> {
    let fields = text.split(' ').map(value).collect::<Option<Vec<u16>>>()?;
    fields.try_into().ok()
}

impl Sheet {
    pub fn read(text: &str) -> Result<Sheet, Malformed> {
        let mut lines = Lines {
            rest: text,
            line: 0,
        };
        let sheet = Sheet {
            names: lines.section(HEADINGS[0], |t| Some(t.to_string()))?,
            builtins: lines.section(HEADINGS[1], |t| values(t).map(BuiltinRow::from_values))?,
            exprs: lines.section(HEADINGS[2], |t| values(t).map(ExprRow::from_values))?,
            statements: lines.section(HEADINGS[3], |t| values(t).map(StatementRow::from_values))?,
            queries: lines.section(HEADINGS[4], |t| values(t).map(|[first]| first))?,
        };
        if lines.rest.is_empty() {
            Ok(sheet)
        } else {
            Err(Malformed {
                line: lines.line + 1,
            })
        }
    }
}
