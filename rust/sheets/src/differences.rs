//! The rows of `docs/DIFFERENCES.md` in which the original is held beside the language's
//! reference: each query as Rego text, with the original's answer, in the order of that page.

mod rows;

pub use rows::DIFFERENCES;

use crate::rego;
use crate::sheet::Sheet;
use crate::tree::{Builtin, Snippet};

pub struct Difference {
    /// The query, mostly a statement a line.
    pub rego: &'static str,
    /// The path of the one built-in that the sheet lists, a function of one argument.
    pub function: Option<&'static str>,
    said: Said,
}

/// What the original says.
enum Said {
    /// The rows of the answer's three sections, with commas between them.
    Answer([&'static str; 3]),
    /// A refusal's number, line and column.
    Refusal(u16, u16, u16),
}

const fn answers(
    rego: &'static str,
    marks: &'static str,
    places: &'static str,
    sets: &'static str,
) -> Difference {
    Difference {
        rego,
        function: None,
        said: Said::Answer([marks, places, sets]),
    }
}

const fn refuses(rego: &'static str, number: u16, line: u16, col: u16) -> Difference {
    Difference {
        rego,
        function: None,
        said: Said::Refusal(number, line, col),
    }
}

impl Difference {
    const fn calling(self, function: &'static str) -> Difference {
        Difference {
            function: Some(function),
            ..self
        }
    }

    /// The query as the page writes it.
    pub fn label(&self) -> String {
        let lines: Vec<String> = self.rego.lines().map(|line| format!("`{line}`")).collect();
        let query = lines.join(" above ");
        match self.function {
            Some(path) => format!("{query}, {path} of one argument"),
            None => query,
        }
    }

    pub fn sheet(&self) -> Sheet {
        let builtin = |path: &str| Builtin {
            arity: 1,
            path: path.split('.').map(str::to_string).collect(),
        };
        let snippet = Snippet {
            builtins: self.function.map(builtin).into_iter().collect(),
            query: rego::query(self.rego),
            ..Snippet::default()
        };
        snippet.sheet()
    }

    /// The text of the original's answer.
    pub fn answer(&self) -> String {
        let sections = match self.said {
            Said::Refusal(number, line, col) => {
                return format!("refusal line col\n{number} {line} {col}\n\n");
            }
            Said::Answer(sections) => sections,
        };
        let headings = [
            "query placed input",
            "query place index reached",
            "query set name line col",
        ];
        let mut text = String::new();
        for (heading, rows) in headings.into_iter().zip(sections) {
            text.push_str(heading);
            text.push('\n');
            for row in rows.split(", ").filter(|row| !row.is_empty()) {
                text.push_str(row);
                text.push('\n');
            }
            text.push('\n');
        }
        text
    }
}
