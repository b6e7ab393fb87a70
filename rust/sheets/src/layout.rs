//! Numbers the rows of a snippet's trees.
//!
//! A row must be named by a smaller row of its section, and a nested query's row must be larger
//! than its enclosing query's. Within that any numbering will do, so tests use several.

use crate::rng::Rng;
use crate::sheet::{BuiltinRow, ExprRow, Sheet, StatementRow};
use crate::tree::{Expr, Literal, Node, Query, Snippet, Statement};
use std::collections::BTreeSet;

/// How rows are numbered.
#[derive(Clone, Debug)]
pub enum Numbering {
    /// As a reader meets them: a row, then what stands below it, then its neighbour.
    Reading,
    /// Any order that the sheet allows.
    Shuffled(Rng),
}

impl Snippet {
    /// Every name that the snippet mentions or lists, ascending in bytes.
    pub fn names(&self) -> Vec<String> {
        let mut names: BTreeSet<String> = self.spare_names.iter().cloned().collect();
        names.extend(self.builtins.iter().flat_map(|b| b.path.iter().cloned()));
        query_names(&self.query, &mut names);
        names.into_iter().collect()
    }

    /// The sheet with its rows in reading order.
    pub fn sheet(&self) -> Sheet {
        self.numbered(Numbering::Reading)
    }

    pub fn numbered(&self, numbering: Numbering) -> Sheet {
        let names = self.names();
        let mut rows = Rows {
            names: &names,
            exprs: Section::default(),
            statements: Section::default(),
            queries: Section::default(),
        };
        rows.query(&self.query, None);
        let (exprs, statements, queries) = (rows.exprs, rows.statements, rows.queries);
        let mut rng = match numbering {
            Numbering::Reading => None,
            Numbering::Shuffled(rng) => Some(rng),
        };
        let expr_row = exprs.number(&mut rng);
        let statement_row = statements.number(&mut rng);
        let query_row = queries.number(&mut rng);
        let e = |id: Id| id.map_or(0, |id| expr_row[id]);
        let s = |id: Id| id.map_or(0, |id| statement_row[id]);
        let q = |id: Id| id.map_or(0, |id| query_row[id]);

        let name_row = |name: &String| names.binary_search(name).map_or(0, |i| i as u16 + 1);
        Sheet {
            builtins: self
                .builtins
                .iter()
                .map(|b| {
                    let mut path = [0; 3];
                    for (slot, part) in path.iter_mut().zip(&b.path) {
                        *slot = name_row(part);
                    }
                    BuiltinRow {
                        arity: b.arity,
                        path,
                    }
                })
                .collect(),
            exprs: exprs.place(&expr_row, |x| ExprRow {
                first: e(x.first),
                second: e(x.second),
                third: if x.query.is_some() {
                    q(x.query)
                } else {
                    e(x.third)
                },
                next: e(x.next),
                ..x.row
            }),
            statements: statements.place(&statement_row, |x| StatementRow {
                form: x.form,
                first: e(x.first),
                second: e(x.second),
                third: e(x.third),
                query: q(x.query),
                with: e(x.with),
                next: s(x.next),
            }),
            queries: queries.place(&query_row, |first| s(*first)),
            names,
        }
    }
}

fn query_names(query: &Query, names: &mut BTreeSet<String>) {
    for statement in &query.statements {
        for expr in statement.exprs() {
            expr_names(expr, names);
        }
        if let Some(body) = statement.body() {
            query_names(body, names);
        }
    }
}

fn expr_names(expr: &Expr, names: &mut BTreeSet<String>) {
    names.extend(expr.name().map(str::to_string));
    for child in expr.children() {
        expr_names(child, names);
    }
    if let Some(query) = expr.query() {
        query_names(query, names);
    }
}

/// A row before it has its number.
type Id = Option<usize>;

/// The rows of one section in reading order, each with the row of the section that must have a
/// smaller number.
struct Section<T> {
    rows: Vec<T>,
    after: Vec<Id>,
}

impl<T> Default for Section<T> {
    fn default() -> Self {
        Section {
            rows: Vec::new(),
            after: Vec::new(),
        }
    }
}

impl<T> Section<T> {
    fn add(&mut self, row: T, after: Id) -> usize {
        self.rows.push(row);
        self.after.push(after);
        self.rows.len() - 1
    }

    /// The number of each row.
    fn number(&self, rng: &mut Option<Rng>) -> Vec<u16> {
        let Some(rng) = rng else {
            return (1..=self.rows.len() as u16).collect();
        };
        let mut waiting: Vec<Vec<usize>> = vec![Vec::new(); self.rows.len()];
        let mut free = Vec::new();
        for (id, after) in self.after.iter().enumerate() {
            match after {
                Some(before) => waiting[*before].push(id),
                None => free.push(id),
            }
        }
        // Row 1 of the queries is the outer one: it alone is free at first, since every other
        // query waits for the one around it.
        let mut numbers = vec![0; self.rows.len()];
        for number in 1..=self.rows.len() {
            let id = free.swap_remove(rng.below(free.len()));
            numbers[id] = number as u16;
            free.append(&mut waiting[id]);
        }
        numbers
    }

    fn place<R: Clone + Default>(&self, numbers: &[u16], row: impl Fn(&T) -> R) -> Vec<R> {
        let mut placed = vec![R::default(); self.rows.len()];
        for (id, number) in numbers.iter().enumerate() {
            placed[*number as usize - 1] = row(&self.rows[id]);
        }
        placed
    }
}

#[derive(Default)]
struct ExprLinks {
    row: ExprRow,
    first: Id,
    second: Id,
    third: Id,
    query: Id,
    next: Id,
}

#[derive(Default)]
struct StatementLinks {
    form: u16,
    first: Id,
    second: Id,
    third: Id,
    query: Id,
    with: Id,
    next: Id,
}

struct Rows<'a> {
    names: &'a [String],
    exprs: Section<ExprLinks>,
    statements: Section<StatementLinks>,
    /// A query's first statement.
    queries: Section<Id>,
}

impl Rows<'_> {
    fn query(&mut self, query: &Query, enclosing: Id) -> usize {
        let id = self.queries.add(None, enclosing);
        let mut last: Id = None;
        for statement in &query.statements {
            let row = self.statements.add(StatementLinks::default(), last);
            match last {
                None => self.queries.rows[id] = Some(row),
                Some(before) => self.statements.rows[before].next = Some(row),
            }
            last = Some(row);
            self.statement(statement, row, id);
        }
        id
    }

    fn statement(&mut self, statement: &Statement, row: usize, query: usize) {
        let mut links = StatementLinks {
            form: statement.form() as u16,
            ..StatementLinks::default()
        };
        match &statement.literal {
            Literal::SomeVars(vars) => links.first = self.chain(vars.iter(), None, query),
            Literal::SomeIn(key, value, collection) => {
                links.first = key.as_ref().map(|k| self.expr(k, None, query));
                links.second = Some(self.expr(value, None, query));
                links.third = Some(self.expr(collection, None, query));
            }
            Literal::Expr(e) | Literal::NotExpr(e) => {
                links.first = Some(self.expr(e, None, query));
            }
            Literal::Every(key, value, domain, body) => {
                links.first = key.as_ref().map(|k| self.expr(k, None, query));
                links.second = Some(self.expr(value, None, query));
                links.third = Some(self.expr(domain, None, query));
                links.query = Some(self.query(body, Some(query)));
            }
        }
        links.with = self.chain(statement.with.iter(), None, query);
        links.next = self.statements.rows[row].next;
        self.statements.rows[row] = links;
    }

    /// A chain of expressions; its first row comes after `owner`, each other after its neighbour.
    fn chain<'e>(&mut self, items: impl Iterator<Item = &'e Expr>, owner: Id, query: usize) -> Id {
        let mut first = None;
        let mut last: Id = None;
        for item in items {
            let row = self.expr(item, last.or(owner), query);
            match last {
                None => first = Some(row),
                Some(before) => self.exprs.rows[before].next = Some(row),
            }
            last = Some(row);
        }
        first
    }

    fn expr(&mut self, expr: &Expr, after: Id, query: usize) -> usize {
        let mut links = ExprLinks {
            row: ExprRow {
                kind: expr.kind() as u16,
                name: expr.name().map_or(0, |name| {
                    let index = self.names.binary_search_by(|n| n.as_str().cmp(name));
                    index.expect("every name is listed") as u16 + 1
                }),
                line: expr.at.line,
                col: expr.at.col,
                ..ExprRow::default()
            },
            ..ExprLinks::default()
        };
        let id = self.exprs.add(ExprLinks::default(), after);
        let own = Some(id);
        match &expr.node {
            Node::Array(items) | Node::Set(items) => {
                links.first = self.chain(items.iter(), own, query);
            }
            Node::Object(fields) => {
                let items = fields.iter().flat_map(|(k, v)| [k, v]);
                links.first = self.chain(items, own, query);
            }
            Node::ArrayCompr(term, body) | Node::SetCompr(term, body) => {
                let inner = self.query(body, Some(query));
                links.query = Some(inner);
                links.first = Some(self.expr(term, own, inner));
            }
            Node::ObjectCompr(key, value, body) => {
                let inner = self.query(body, Some(query));
                links.query = Some(inner);
                links.first = Some(self.expr(key, own, inner));
                links.second = Some(self.expr(value, own, inner));
            }
            Node::Call(fcn, params) => {
                links.first = Some(self.expr(fcn, own, query));
                links.second = self.chain(params.iter(), own, query);
            }
            Node::UnaryExpr(e) | Node::RefDot(e, _) => {
                links.first = Some(self.expr(e, own, query));
            }
            Node::RefBrack(a, b)
            | Node::BinExpr(a, b)
            | Node::BoolExpr(a, b)
            | Node::ArithExpr(a, b)
            | Node::AssignEq(a, b)
            | Node::AssignColEq(a, b) => {
                links.first = Some(self.expr(a, own, query));
                links.second = Some(self.expr(b, own, query));
            }
            Node::Membership(key, value, collection) => {
                links.first = key.as_ref().map(|k| self.expr(k, own, query));
                links.second = Some(self.expr(value, own, query));
                links.third = Some(self.expr(collection, own, query));
            }
            Node::String(_)
            | Node::RawString
            | Node::Number
            | Node::Bool
            | Node::Null
            | Node::Var(_) => {}
        }
        links.next = self.exprs.rows[id].next;
        self.exprs.rows[id] = links;
        id
    }
}
