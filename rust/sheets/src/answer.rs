//! The answer to a sheet, and its text.

use crate::read::values;
use crate::sheet::row;
use std::fmt::Write;

/// Whether a query's statements could be put in an order.
#[derive(Clone, Copy, Debug, PartialEq, Eq)]
pub enum Placed {
    /// No order was found: the written one stands.
    No = 0,
    Yes = 1,
    /// The walk never came to the query.
    NeverAnalysed = 2,
}

/// Which of a scope's sets a name is in.
#[derive(Clone, Copy, Debug, PartialEq, Eq, PartialOrd, Ord)]
pub enum Set {
    Locals = 1,
    Unscoped = 2,
    Inputs = 3,
}

/// A name in one of the sets; line and col are 0 but for locals.
#[derive(Clone, Copy, Debug, PartialEq, Eq)]
pub struct Entry {
    pub set: Set,
    pub name: u16,
    pub line: u16,
    pub col: u16,
}

#[derive(Clone, Debug, PartialEq, Eq)]
pub struct QueryAnswer {
    pub placed: Placed,
    pub input: bool,
    /// Statement indexes in the order handed out.
    pub order: Vec<u16>,
    /// By statement index.
    pub reached: Vec<bool>,
    pub entries: Vec<Entry>,
}

impl QueryAnswer {
    pub fn never_analysed() -> QueryAnswer {
        QueryAnswer {
            placed: Placed::NeverAnalysed,
            input: false,
            order: Vec::new(),
            reached: Vec::new(),
            entries: Vec::new(),
        }
    }
}

#[derive(Clone, Debug, PartialEq, Eq)]
pub enum Answer {
    /// One for each query, row 1 first.
    Queries(Vec<QueryAnswer>),
    Refusal {
        number: u16,
        line: u16,
        col: u16,
    },
}

const HEADINGS: [&str; 3] = [
    "query placed input",
    "query place index reached",
    "query set name line col",
];
const REFUSAL: &str = "refusal line col";

impl Answer {
    pub fn text(&self) -> String {
        let sections: Vec<(&str, Vec<Vec<u16>>)> = match self {
            Answer::Refusal { number, line, col } => {
                vec![(REFUSAL, vec![vec![*number, *line, *col]])]
            }
            Answer::Queries(queries) => HEADINGS
                .into_iter()
                .zip([marks(queries), places(queries), sets(queries)])
                .collect(),
        };
        let mut text = String::new();
        for (heading, rows) in sections {
            let _ = writeln!(text, "{heading}");
            for values in rows {
                let _ = writeln!(text, "{}", row(&values));
            }
            text.push('\n');
        }
        text
    }

    /// Reads an answer's text back; `None` where it is not one: rows out of order, places that
    /// are no permutation, marks that contradict each other.
    pub fn read(text: &str) -> Option<Answer> {
        if let Some(rest) = text.strip_prefix("refusal line col\n") {
            let [number, line, col] = values(rest.strip_suffix("\n\n")?)?;
            return Some(Answer::Refusal { number, line, col });
        }
        let mut rest = text;
        let marks: Vec<[u16; 3]> = section(&mut rest, HEADINGS[0])?;
        let places: Vec<[u16; 4]> = section(&mut rest, HEADINGS[1])?;
        let sets: Vec<[u16; 5]> = section(&mut rest, HEADINGS[2])?;
        let mut queries = Vec::new();
        for (index, &[query, placed, input]) in marks.iter().enumerate() {
            if usize::from(query) != index + 1 || input > 1 {
                return None;
            }
            let own: Vec<_> = places.iter().filter(|p| p[0] == query).collect();
            let mut reached = vec![false; own.len()];
            for p in &own {
                *reached.get_mut(usize::from(p[2]))? = p[3] == 1;
            }
            queries.push(QueryAnswer {
                placed: placed_mark(placed)?,
                input: input == 1,
                order: own.iter().map(|p| p[2]).collect(),
                reached,
                entries: sets
                    .iter()
                    .filter(|s| s[0] == query)
                    .map(|&[_, set, name, line, col]| {
                        Some(Entry {
                            set: set_number(set)?,
                            name,
                            line,
                            col,
                        })
                    })
                    .collect::<Option<_>>()?,
            });
        }
        let answer = Answer::Queries(queries);
        (rest.is_empty() && answer.text() == text && answer.consistent()).then_some(answer)
    }

    /// What every answer satisfies, whatever the sheet.
    fn consistent(&self) -> bool {
        let Answer::Queries(queries) = self else {
            return true;
        };
        queries.iter().all(|q| {
            let mut sorted = q.order.clone();
            sorted.sort_unstable();
            let index_order: Vec<u16> = (0..q.order.len() as u16).collect();
            let permutation = sorted == index_order;
            let ascending = q
                .entries
                .windows(2)
                .all(|w| (w[0].set, w[0].name) < (w[1].set, w[1].name));
            permutation
                && ascending
                && match q.placed {
                    Placed::Yes => q.reached.iter().all(|&r| r),
                    Placed::No => q.order == index_order && q.reached.contains(&false),
                    Placed::NeverAnalysed => *q == QueryAnswer::never_analysed(),
                }
        })
    }
}

fn section<const N: usize>(rest: &mut &str, heading: &str) -> Option<Vec<[u16; N]>> {
    let mut rows = Vec::new();
    let mut line = || {
        let (line, after) = rest.split_once('\n')?;
        *rest = after;
        Some(line)
    };
    if line()? != heading {
        return None;
    }
    loop {
        match line()? {
            "" => return Some(rows),
            text => rows.push(values(text)?),
        }
    }
}

fn placed_mark(number: u16) -> Option<Placed> {
    [Placed::No, Placed::Yes, Placed::NeverAnalysed]
        .into_iter()
        .find(|p| *p as u16 == number)
}

fn set_number(number: u16) -> Option<Set> {
    [Set::Locals, Set::Unscoped, Set::Inputs]
        .into_iter()
        .find(|s| *s as u16 == number)
}

/// Rows with their query's number in front.
fn numbered<'a>(
    queries: &'a [QueryAnswer],
    rows: impl Fn(&'a QueryAnswer) -> Vec<Vec<u16>> + 'a,
) -> Vec<Vec<u16>> {
    let mut all = Vec::new();
    for (index, query) in queries.iter().enumerate() {
        for mut row in rows(query) {
            row.insert(0, index as u16 + 1);
            all.push(row);
        }
    }
    all
}

fn marks(queries: &[QueryAnswer]) -> Vec<Vec<u16>> {
    numbered(queries, |q| vec![vec![q.placed as u16, u16::from(q.input)]])
}

fn places(queries: &[QueryAnswer]) -> Vec<Vec<u16>> {
    numbered(queries, |q| {
        let row = |(place, &index): (usize, &u16)| {
            let reached = u16::from(q.reached[usize::from(index)]);
            vec![place as u16, index, reached]
        };
        q.order.iter().enumerate().map(row).collect()
    })
}

fn sets(queries: &[QueryAnswer]) -> Vec<Vec<u16>> {
    numbered(queries, |q| {
        let row = |e: &Entry| vec![e.set as u16, e.name, e.line, e.col];
        q.entries.iter().map(row).collect()
    })
}
