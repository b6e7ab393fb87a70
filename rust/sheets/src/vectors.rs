//! The fixed list of sheets with their answers, as a text.
//!
//! A line that starts with `#` opens a part: `# sheet LABEL`, then `# answer`. No sheet that the
//! list holds, and no answer, has such a line. Lines before the first part say what the list is.

use std::fmt::Write;

#[derive(Clone, Debug, PartialEq, Eq)]
pub struct Vector {
    pub label: String,
    pub sheet: String,
    pub answer: String,
}

pub fn write(title: &str, vectors: &[Vector]) -> String {
    let mut text = format!("# {title}\n");
    for v in vectors {
        let _ = write!(
            text,
            "# sheet {}\n{}# answer\n{}",
            v.label, v.sheet, v.answer
        );
    }
    text
}

/// Reads the list back.
///
/// # Panics
/// Where the text is no such list.
pub fn read(text: &str) -> Vec<Vector> {
    let mut vectors: Vec<Vector> = Vec::new();
    let mut in_answer = false;
    for line in text.split_inclusive('\n') {
        if let Some(label) = line.strip_prefix("# sheet ") {
            vectors.push(Vector {
                label: label.trim_end().to_string(),
                sheet: String::new(),
                answer: String::new(),
            });
            in_answer = false;
        } else if line == "# answer\n" {
            in_answer = true;
        } else if let Some(vector) = vectors.last_mut() {
            assert!(!line.starts_with('#'), "a strange part: {line}");
            let part = if in_answer {
                &mut vector.answer
            } else {
                &mut vector.sheet
            };
            part.push_str(line);
        }
    }
    vectors
}
