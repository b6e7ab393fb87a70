//! A seeded generator of sheets that pass questions 2 to 6, rich in what the analysis does.
//!
//! A snippet is written the way an author would: each query has a few names of its own, uses
//! them and those of the queries around it, and at its end binds what it used and nothing bound.
//! Some sheets get one planted fault, so that each error of the walk is met often.
//!
//! About half of the sheets have more names than the printing program takes. Most of these names
//! nothing uses: they move the others to rows all over the words of a set.

mod exprs;
mod faults;
mod spare;
mod statements;

use crate::layout::Numbering;
use crate::positions::Style;
use crate::rng::Rng;
use crate::sheet::limits::{self, Limits};
use crate::sheet::Sheet;
use crate::tree::{Builtin, Query, Snippet};
use faults::Fault;
use std::collections::BTreeSet;

/// The sheet of a seed: with few names or with many.
pub fn sheet(seed: u64) -> Sheet {
    // Two thirds of a comparison's sheets go to the library. At least a third of all is then
    // theirs and has many names.
    const MANY: usize = 52;
    if Rng::new(seed ^ (1 << 63)).percent(MANY) {
        many(seed)
    } else {
        few(seed)
    }
}

/// A sheet with at most 127 names.
pub fn few(seed: u64) -> Sheet {
    first_within(limits::PRINTING, &mut Rng::new(seed), |rng| {
        let taste = Taste::choose(rng);
        snippet(taste, rng)
    })
}

/// A sheet with 128 to 511 names.
pub fn many(seed: u64) -> Sheet {
    first_within(limits::LIBRARY, &mut Rng::new(seed), |rng| {
        let taste = Taste::choose(rng).crowded(rng);
        let mut snippet = snippet(taste, rng);
        spare::fill(&mut snippet, rng);
        snippet
    })
}

/// The first sheet that is within the limits.
fn first_within(limits: Limits, rng: &mut Rng, snippet: impl Fn(&mut Rng) -> Snippet) -> Sheet {
    loop {
        let snippet = snippet(rng);
        let numbering = if rng.percent(50) {
            Numbering::Reading
        } else {
            Numbering::Shuffled(rng.clone())
        };
        let sheet = snippet.numbered(numbering);
        if within(limits, &sheet) {
            return sheet;
        }
    }
}

/// Budgets are kept while writing but for what closes a query; that is rarely too much.
fn within(limits: Limits, sheet: &Sheet) -> bool {
    sheet.names.len() <= limits.names
        && sheet.exprs.len() <= limits::EXPRESSIONS
        && sheet.statements.len() <= limits::STATEMENTS
        && sheet.queries.len() <= limits::QUERIES
        && sheet.text().len() <= limits::BYTES
}

/// The trees of a sheet with their positions.
fn snippet(taste: Taste, rng: &mut Rng) -> Snippet {
    let builtins = builtins(rng);
    let mut variables = sample(rng, VARIABLES, 4, 12);
    variables.extend((0..taste.crowd).map(|_| crowd_name(rng)));
    let mut writer = Writer {
        variables,
        builtins,
        taste,
        scopes: Vec::new(),
        exprs_left: taste.exprs as isize,
        statements_left: taste.statements as isize,
        queries_left: limits::QUERIES as isize - 1,
        level: 0,
        pending: taste.fault,
        rng: rng.clone(),
    };
    let query = writer.query(None, taste.outer_statements).0;
    *rng = writer.rng;
    let mut snippet = Snippet {
        spare_names: if rng.percent(10) {
            sample(rng, VARIABLES, 1, 6)
        } else {
            Vec::new()
        },
        builtins: writer.builtins,
        query,
    };
    let style = match rng.weighted(&[76, 6, 14, 4]) {
        0 => Style::Reading,
        1 => Style::OneLine,
        2 => Style::Scattered(rng.between(2, 25)),
        _ => Style::Constant,
    };
    snippet.place(style, rng);
    snippet
}

const VARIABLES: &[&str] = &[
    "a",
    "b",
    "c",
    "i",
    "j",
    "k",
    "m",
    "n",
    "x",
    "y",
    "z",
    "desk",
    "film_grain",
    "licence",
    "lut",
    "remote_panel",
    "shot",
    "X1",
    "_y",
];
const FIELDS: &[&str] = &["a", "id", "licences", "look", "reel", "size", "x"];
const PATHS: &[&[&str]] = &[
    &["f"],
    &["count"],
    &["a", "b"],
    &["f", "g"],
    &["time", "now_ns"],
    &["io", "jwt", "decode"],
    &["f", "g", "h"],
];

fn sample(rng: &mut Rng, from: &[&str], low: usize, high: usize) -> Vec<String> {
    let count = rng.between(low, high);
    (0..count).map(|_| rng.pick(from).to_string()).collect()
}

/// A variable beside those that have names of their own.
fn crowd_name(rng: &mut Rng) -> String {
    let letter = |rng: &mut Rng| char::from(b'a' + rng.below(26) as u8);
    format!("{}_{}", letter(rng), letter(rng))
}

/// Some built-ins; no path twice.
fn builtins(rng: &mut Rng) -> Vec<Builtin> {
    let mut builtins: Vec<Builtin> = Vec::new();
    for path in PATHS {
        if rng.percent(45) {
            builtins.push(Builtin {
                arity: rng.weighted(&[10, 50, 30, 10]) as u16,
                path: path.iter().map(|p| p.to_string()).collect(),
            });
        }
    }
    builtins
}

/// What one sheet is like.
#[derive(Clone, Copy, Debug)]
struct Taste {
    fault: Option<Fault>,
    /// Chance in a hundred that a name which nothing bound is bound at the end of its query.
    closing: usize,
    exprs: usize,
    statements: usize,
    outer_statements: usize,
    /// Weight of comprehensions among expressions.
    comprehensions: usize,
    /// Longest chain of brackets.
    brackets: usize,
    /// Go down to the deepest nesting wherever possible.
    deep: bool,
    /// Variables beside the usual ones.
    crowd: usize,
    /// The most names that a query has of its own.
    own: usize,
}

impl Taste {
    fn choose(rng: &mut Rng) -> Taste {
        let fault = match rng.weighted(&[64, 7, 7, 7, 7, 8]) {
            0 | 5 => None,
            1 => Some(Fault::Undefined),
            2 => Some(Fault::UsedBeforeDefinition),
            3 => Some(Fault::LengthsDiffer),
            _ => Some(Fault::IndexInPattern),
        };
        let (exprs, statements, outer_statements) = match rng.weighted(&[58, 30, 9, 3]) {
            0 => (rng.between(4, 40), 14, rng.between(0, 5)),
            1 => (rng.between(40, 120), 40, rng.between(3, 10)),
            2 => (rng.between(120, 300), 70, rng.between(6, 20)),
            _ => (rng.between(300, 440), 110, rng.between(10, 60)),
        };
        Taste {
            fault,
            closing: *rng.pick(&[100, 100, 100, 97, 60]),
            exprs,
            statements,
            outer_statements,
            comprehensions: *rng.pick(&[0, 2, 5, 12]),
            brackets: *rng.pick(&[1, 2, 2, 3, 3, 3, 6, 9]),
            deep: rng.percent(4),
            crowd: 0,
            own: 5,
        }
    }

    /// The same, often with more variables.
    fn crowded(self, rng: &mut Rng) -> Taste {
        if rng.percent(60) {
            return self;
        }
        Taste {
            crowd: rng.between(20, 200),
            own: rng.between(5, 40),
            ..self
        }
    }
}

/// The names of one query while it is written.
struct Scope {
    own: Vec<String>,
    mentioned: BTreeSet<String>,
    bound: BTreeSet<String>,
}

struct Writer {
    taste: Taste,
    /// The variables that the sheet's queries draw from.
    variables: Vec<String>,
    builtins: Vec<Builtin>,
    scopes: Vec<Scope>,
    exprs_left: isize,
    statements_left: isize,
    queries_left: isize,
    level: usize,
    pending: Option<Fault>,
    rng: Rng,
}

impl Writer {
    /// Writes a query with about so many statements and, in its scope, the outputs that `outputs`
    /// asks for (a comprehension's term, or key and value).
    fn query(
        &mut self,
        outputs: Option<usize>,
        statements: usize,
    ) -> (Query, Vec<crate::tree::Expr>) {
        self.level += 1;
        let own = (0..self.rng.between(2, self.taste.own))
            .map(|_| self.rng.pick(&self.variables).clone())
            .collect();
        self.scopes.push(Scope {
            own,
            mentioned: BTreeSet::new(),
            bound: BTreeSet::new(),
        });
        let mut query = Query::default();
        for _ in 0..statements {
            if self.statements_left <= 0 || self.exprs_left <= 0 {
                break;
            }
            query.statements.push(self.statement());
        }
        let outputs = (0..outputs.unwrap_or(0)).map(|_| self.value(2)).collect();
        self.plant(&mut query);
        self.close(&mut query);
        self.scopes.pop();
        self.level -= 1;
        (query, outputs)
    }

    fn scope(&mut self) -> &mut Scope {
        self.scopes.last_mut().expect("a query is being written")
    }

    /// A use may mean a name of any query around.
    fn mention(&mut self, name: &str) {
        for scope in &mut self.scopes {
            scope.mentioned.insert(name.to_string());
        }
    }

    fn own_name(&mut self) -> String {
        let own = self.scope().own.clone();
        self.rng.pick(&own).clone()
    }

    /// `_`, `input` and `data` have rules of their own in every role.
    fn special_name(&mut self) -> String {
        self.rng.pick(&["_", "input", "input", "data"]).to_string()
    }

    /// A name that is read.
    fn used_name(&mut self) -> String {
        let name = match self.rng.weighted(&[62, 30, 8]) {
            0 => self.own_name(),
            1 => {
                let at = self.rng.below(self.scopes.len());
                let own = self.scopes[at].own.clone();
                self.rng.pick(&own).clone()
            }
            _ => self.special_name(),
        };
        self.mention(&name);
        name
    }

    /// A name that a pattern, an index or an extra argument binds.
    fn bound_name(&mut self) -> String {
        let name = if self.rng.percent(5) {
            self.special_name()
        } else {
            self.own_name()
        };
        self.mention(&name);
        self.scope().bound.insert(name.clone());
        name
    }

    /// A name for `:=` or `some`: one that nothing mentions yet, if the query has one left.
    fn fresh_name(&mut self) -> Option<String> {
        if self.rng.percent(2) {
            return Some(self.special_name());
        }
        let scope = self.scopes.last()?;
        let fresh: Vec<&String> = scope
            .own
            .iter()
            .filter(|name| !scope.mentioned.contains(*name))
            .collect();
        if fresh.is_empty() {
            return None;
        }
        Some(self.rng.pick(&fresh).to_string())
    }
}
