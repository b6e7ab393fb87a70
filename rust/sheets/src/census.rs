//! Which features a sheet has, so that a test can show that generated sheets have them all.

use crate::sheet::{Form, Kind, Sheet};
use crate::tree::{Builtin, Expr, Literal, Node, Query, Snippet, Statement};
use std::collections::BTreeSet;

const COMPREHENSION_PLACES: [&str; 8] = [
    "a term",
    "a key",
    "a value",
    "an index",
    "a collection",
    "a function",
    "`with`",
    "`with` of an array assignment",
];
const SPECIAL_ROLES: [&str; 9] = [
    "a use",
    "a pattern of =",
    "a pattern of :=",
    "an index",
    "some",
    "some-in",
    "every",
    "an extra argument",
    "an output",
];
const SPECIAL_NAMES: [&str; 3] = ["_", "input", "data"];

/// Every feature that the generator is to produce.
pub fn features() -> BTreeSet<String> {
    let mut all = BTreeSet::new();
    all.extend(Kind::ALL.iter().map(|k| format!("kind {k:?}")));
    all.extend(Form::ALL.iter().map(|f| format!("form {f:?}")));
    all.extend((1..=8).map(|level| format!("nesting {level}")));
    for place in COMPREHENSION_PLACES {
        all.insert(format!("a comprehension in {place}"));
    }
    for role in SPECIAL_ROLES {
        for name in SPECIAL_NAMES {
            all.insert(format!("`{name}` in {role}"));
        }
    }
    for pattern in ["an array", "an object"] {
        for side in ["left", "right"] {
            for op in ["=", ":="] {
                all.insert(format!("{pattern} on the {side} of {op}"));
            }
        }
    }
    for length in 1..=3 {
        all.insert(format!("an extra argument on a path of {length}"));
        all.insert(format!("brackets {length} long"));
    }
    for more in [
        "an extra argument through a String index",
        "an extra argument past an index that is no String",
        "an extra argument under not",
        "an extra argument that is an assignment",
        "a name in two scopes",
        "a query without statements",
        "modifiers 2 long",
        "positions out of order",
    ] {
        all.insert(more.to_string());
    }
    all
}

/// The features of one sheet.
pub fn features_of(sheet: &Sheet) -> BTreeSet<String> {
    let snippet = Snippet::of_sheet(sheet);
    let mut census = Census {
        builtins: &snippet.builtins,
        found: BTreeSet::new(),
        bound: Vec::new(),
        last: (0, 0),
    };
    census.query(&snippet.query, 1);
    let bound = std::mem::take(&mut census.bound);
    let distinct: BTreeSet<&(usize, String)> = bound.iter().collect();
    let names: BTreeSet<&String> = distinct.iter().map(|(_, name)| name).collect();
    if names.len() < distinct.len() {
        census.found.insert("a name in two scopes".to_string());
    }
    census.found
}

struct Census<'a> {
    builtins: &'a [Builtin],
    found: BTreeSet<String>,
    /// Names that patterns bind, each with its query.
    bound: Vec<(usize, String)>,
    last: (u16, u16),
}

impl Census<'_> {
    fn note(&mut self, feature: String) {
        self.found.insert(feature);
    }

    fn query(&mut self, query: &Query, level: usize) {
        self.note(format!("nesting {level}"));
        if query.statements.is_empty() {
            self.note("a query without statements".to_string());
        }
        for statement in &query.statements {
            self.statement(query, statement, level);
        }
    }

    fn statement(&mut self, query: &Query, statement: &Statement, level: usize) {
        self.note(format!("form {:?}", statement.form()));
        if statement.with.len() > 1 {
            self.note("modifiers 2 long".to_string());
        }
        let array_assignment = matches!(&statement.literal,
            Literal::Expr(Expr { node: Node::AssignEq(a, b) | Node::AssignColEq(a, b), .. })
                if a.kind() == Kind::Array && b.kind() == Kind::Array);
        for modifier in &statement.with {
            self.comprehension_in("`with`", modifier);
            if array_assignment {
                self.comprehension_in("`with` of an array assignment", modifier);
            }
        }
        match &statement.literal {
            Literal::SomeVars(vars) => vars.iter().for_each(|v| self.special("some", v)),
            Literal::SomeIn(key, value, collection) => {
                for part in key.iter().chain([value]) {
                    self.pattern("some-in", part);
                }
                self.comprehension_in("a collection", collection);
            }
            Literal::Expr(e) => {
                self.top(query, e);
                self.extra_argument(e);
            }
            Literal::NotExpr(e) => {
                self.top(query, e);
                if self.is_extra(e) {
                    self.note("an extra argument under not".to_string());
                }
            }
            Literal::Every(key, value, _, body) => {
                for part in key.iter().chain([value]) {
                    self.special("every", part);
                }
                self.query(body, level + 1);
            }
        }
        for expr in statement.exprs() {
            self.expr(expr, level);
        }
    }

    /// An assignment right in a statement binds; everywhere else it is a use.
    fn top(&mut self, query: &Query, expr: &Expr) {
        let (op, a, b) = match &expr.node {
            Node::AssignEq(a, b) => ("=", a, b),
            Node::AssignColEq(a, b) => (":=", a, b),
            _ => return,
        };
        for (side, part) in [("left", a), ("right", b)] {
            match part.kind() {
                Kind::Array => self.note(format!("an array on the {side} of {op}")),
                Kind::Object => self.note(format!("an object on the {side} of {op}")),
                _ => {}
            }
        }
        self.pattern(&format!("a pattern of {op}"), a);
        if let Node::Var(name) = &a.node {
            let id = query as *const Query as usize;
            self.bound.push((id, name.clone()));
        }
    }

    fn pattern(&mut self, role: &str, expr: &Expr) {
        self.special(role, expr);
        if matches!(expr.kind(), Kind::Array | Kind::Object) {
            for child in expr.children() {
                self.pattern(role, child);
            }
        }
    }

    fn special(&mut self, role: &str, expr: &Expr) {
        if let Node::Var(name) = &expr.node {
            if SPECIAL_NAMES.contains(&name.as_str()) {
                self.note(format!("`{name}` in {role}"));
            }
        }
    }

    fn comprehension_in(&mut self, place: &str, expr: &Expr) {
        if expr.query().is_some() {
            self.note(format!("a comprehension in {place}"));
        }
        if place != "a function" {
            return;
        }
        for child in expr.children() {
            self.comprehension_in(place, child);
        }
    }

    fn expr(&mut self, expr: &Expr, level: usize) {
        self.note(format!("kind {:?}", expr.kind()));
        let place = (expr.at.line, expr.at.col);
        if place < self.last {
            self.note("positions out of order".to_string());
        }
        self.last = place;
        self.special("a use", expr);
        match &expr.node {
            Node::RefBrack(_, index) => {
                self.comprehension_in("an index", index);
                self.pattern("an index", index);
                self.note(format!("brackets {} long", brackets(expr)));
            }
            Node::Call(fcn, _) => self.comprehension_in("a function", fcn),
            Node::Membership(_, _, collection) => self.comprehension_in("a collection", collection),
            Node::ArrayCompr(term, _) | Node::SetCompr(term, _) => {
                self.comprehension_in("a term", term);
                self.pattern("an output", term);
            }
            Node::ObjectCompr(key, value, _) => {
                self.comprehension_in("a key", key);
                self.comprehension_in("a value", value);
                self.pattern("an output", value);
            }
            _ => {}
        }
        // A comprehension's term, key and value lie in its query.
        let inner = level + usize::from(expr.query().is_some());
        for child in expr.children() {
            self.expr(child, inner);
        }
        if let Some(query) = expr.query() {
            self.query(query, inner);
        }
    }

    fn is_extra(&self, expr: &Expr) -> bool {
        let Node::Call(fcn, params) = &expr.node else {
            return false;
        };
        let path = path(fcn);
        self.builtins
            .iter()
            .any(|b| Some(&b.path) == path.as_ref() && usize::from(b.arity) + 1 == params.len())
    }

    fn extra_argument(&mut self, expr: &Expr) {
        if !self.is_extra(expr) {
            return;
        }
        let Node::Call(fcn, params) = &expr.node else {
            return;
        };
        let length = path(fcn).map_or(0, |p| p.len());
        self.note(format!("an extra argument on a path of {length}"));
        for (kind, feature) in index_kinds(fcn) {
            if kind == Kind::String {
                self.note(feature);
            } else {
                self.note("an extra argument past an index that is no String".to_string());
            }
        }
        if let Some(last) = params.last() {
            self.pattern("an extra argument", last);
            if matches!(last.kind(), Kind::AssignEq | Kind::AssignColEq) {
                self.note("an extra argument that is an assignment".to_string());
            }
        }
    }
}

fn brackets(expr: &Expr) -> usize {
    match &expr.node {
        Node::RefBrack(base, _) => 1 + brackets(base),
        _ => 0,
    }
}

/// The dotted path of a function; an index that is no String is left out.
fn path(expr: &Expr) -> Option<Vec<String>> {
    let (base, part) = match &expr.node {
        Node::Var(name) => return Some(vec![name.clone()]),
        Node::RefDot(base, name) => (base, Some(name.clone())),
        Node::RefBrack(base, index) => match &index.node {
            Node::String(name) => (base, Some(name.clone()?)),
            _ => (base, None),
        },
        _ => return None,
    };
    let mut path = path(base)?;
    path.extend(part);
    Some(path)
}

fn index_kinds(expr: &Expr) -> Vec<(Kind, String)> {
    match &expr.node {
        Node::RefDot(base, _) => index_kinds(base),
        Node::RefBrack(base, index) => {
            let mut kinds = index_kinds(base);
            let feature = "an extra argument through a String index".to_string();
            kinds.push((index.kind(), feature));
            kinds
        }
        _ => Vec::new(),
    }
}
