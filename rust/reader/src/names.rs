//! Question 4: names.

use crate::Rows;

/// The line of the first name that is none, or not after the one before it.
pub fn check(rows: &Rows) -> Result<(), usize> {
    let mut before: &[u8] = b"";
    for (index, name) in rows.names.iter().enumerate() {
        if !is_name(name) || name.as_slice() <= before {
            return Err(rows.line(0, index + 1));
        }
        before = name;
    }
    Ok(())
}

fn is_name(name: &[u8]) -> bool {
    let start = |b: u8| b == b'_' || b.is_ascii_alphabetic();
    name.len() <= 32 && start(name[0]) && name.iter().all(|&b| start(b) || b.is_ascii_digit())
}
