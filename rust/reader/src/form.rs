//! Question 3, the form of the text, and question 5, the counts.

/// The sections: heading, and how many values a row has (0: any line that is not empty).
const SECTIONS: [(&[u8], usize); 5] = [
    (b"name", 0),
    (b"arity first second third", 4),
    (b"kind name line col first second third next", 8),
    (b"form first second third query with next", 7),
    (b"statement", 1),
];

/// What a sheet holds. Rows count from 1, so row `r` stands at index `r - 1`.
#[derive(Clone, Debug, Default, PartialEq, Eq)]
pub struct Rows {
    pub names: Vec<Vec<u8>>,
    /// Built-ins, expressions, statements and queries.
    pub sections: [Vec<Vec<u16>>; 4],
}

/// The first line that has not the form.
pub fn read(sheet: &[u8]) -> Result<Rows, usize> {
    // What stands behind the last byte 10 is no line.
    let mut lines: Vec<&[u8]> = sheet.split(|&b| b == 10).collect();
    let rest = lines.pop().unwrap_or_default();
    let missing = lines.len() + 1;
    let mut rows = Rows::default();
    let mut at = 0;
    for (index, (heading, width)) in SECTIONS.into_iter().enumerate() {
        if *lines.get(at).ok_or(missing)? != heading {
            return Err(at + 1);
        }
        loop {
            at += 1;
            let line = *lines.get(at).ok_or(missing)?;
            if line.is_empty() {
                at += 1;
                break;
            }
            if width == 0 {
                rows.names.push(line.to_vec());
            } else {
                let values = values(line, width).ok_or(at + 1)?;
                rows.sections[index - 1].push(values);
            }
        }
    }
    if at < lines.len() || !rest.is_empty() {
        return Err(at + 1);
    }
    Ok(rows)
}

fn values(line: &[u8], width: usize) -> Option<Vec<u16>> {
    let fields: Vec<&[u8]> = line.split(|&b| b == b' ').collect();
    if fields.len() != width {
        return None;
    }
    fields.into_iter().map(value).collect()
}

fn value(field: &[u8]) -> Option<u16> {
    let mut value = 0u32;
    for &byte in field {
        if !byte.is_ascii_digit() || value > 6_553 {
            return None;
        }
        value = value * 10 + u32::from(byte - b'0');
    }
    let leading_zero = field.len() > 1 && field[0] == b'0';
    if field.is_empty() || leading_zero {
        return None;
    }
    u16::try_from(value).ok()
}

impl Rows {
    fn section_rows(&self, section: usize) -> usize {
        match section {
            0 => self.names.len(),
            _ => self.sections[section - 1].len(),
        }
    }

    /// The line of a row; of the heading for row 0. Sections count from 0.
    pub(crate) fn line(&self, section: usize, row: usize) -> usize {
        let before: usize = (0..section).map(|s| self.section_rows(s) + 2).sum();
        before + 1 + row
    }

    /// The line of the first row over its section's limit, or of `statement` where no query is.
    pub(crate) fn counts(&self, most_names: usize) -> Result<(), usize> {
        for (section, limit) in [most_names, 64, 512, 128, 32].into_iter().enumerate() {
            if self.section_rows(section) > limit {
                return Err(self.line(section, limit + 1));
            }
        }
        match self.section_rows(4) {
            0 => Err(self.line(4, 0)),
            _ => Ok(()),
        }
    }
}
