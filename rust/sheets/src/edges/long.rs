//! Sheets that are as they should be but for their length. Only one with more names than the
//! printing program takes can be too long and nothing else.

use super::{counts, limits, Edge};
use crate::sheet::Sheet;

pub(super) fn add(edges: &mut Vec<Edge>, most_names: usize) {
    let longest = longest();
    for bytes in [limits::BYTES - 1, limits::BYTES, limits::BYTES + 1] {
        let sheet = shortened(longest.clone(), bytes);
        let label = format!("{bytes} bytes of a whole sheet");
        edges.push(by_bytes(label, &sheet, most_names));
    }
    let label = "every count at its limit, long names and long positions";
    edges.push(by_bytes(label.to_string(), &longest, most_names));
}

fn by_bytes(label: String, sheet: &Sheet, most_names: usize) -> Edge {
    if sheet.text().len() <= limits::BYTES {
        Edge::by_names(label, sheet, most_names)
    } else {
        Edge::refused(label, sheet.text(), 2, 0)
    }
}

/// Every count at the library's limit, every name and every position as long as can be.
fn longest() -> Sheet {
    let [_, most] = limits::NAMES;
    let mut sheet = counts::full_sheet(most);
    for name in &mut sheet.names {
        *name = format!("{name:_<width$}", width = limits::NAME_BYTES);
    }
    for row in &mut sheet.exprs {
        (row.line, row.col) = (u16::MAX, u16::MAX);
    }
    sheet
}

/// The same with shorter names, so that it has so many bytes.
fn shortened(mut sheet: Sheet, bytes: usize) -> Sheet {
    let mut excess = sheet.text().len() - bytes;
    for name in sheet.names.iter_mut().rev() {
        let padding = name.bytes().rev().take_while(|&byte| byte == b'_').count();
        let gone = padding.min(excess);
        name.truncate(name.len() - gone);
        excess -= gone;
    }
    assert_eq!(sheet.text().len(), bytes);
    sheet
}
