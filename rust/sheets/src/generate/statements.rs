//! Statements of the five forms, and what closes a query.

use super::{Scope, Writer, FIELDS};
use crate::tree::{Expr, Literal, Node, Query, Statement};
use std::collections::BTreeSet;

fn boxed(expr: Expr) -> Box<Expr> {
    Box::new(expr)
}

impl Writer {
    pub(super) fn statement(&mut self) -> Statement {
        self.statements_left -= 1;
        if self.taste.deep && self.may_nest() && self.rng.percent(70) {
            let nested = self.comprehension();
            return Literal::Expr(nested).plain();
        }
        let literal = match self.rng.weighted(&[24, 18, 20, 9, 5, 12, 8, 8]) {
            0 => Literal::Expr(self.unification()),
            1 => Literal::Expr(self.assignment()),
            2 => Literal::Expr(self.condition()),
            3 => Literal::Expr(self.call_with_output()),
            4 => self.some_vars(),
            5 => self.some_in(),
            6 => Literal::NotExpr(self.negated()),
            _ => self.every(),
        };
        let mut with = Vec::new();
        if self.rng.percent(10) {
            for _ in 0..self.rng.between(1, 3) {
                with.push(self.modifier());
            }
        }
        Statement { literal, with }
    }

    fn modifier(&mut self) -> Expr {
        if self.taste.comprehensions > 0 && self.rng.percent(30) {
            self.comprehension()
        } else {
            self.value(2)
        }
    }

    fn condition(&mut self) -> Expr {
        match self.rng.weighted(&[40, 25, 20, 15]) {
            0 => {
                let (a, b) = (self.value(2), self.value(2));
                self.expr(Node::BoolExpr(boxed(a), boxed(b)))
            }
            1 => self.brackets(2),
            2 => self.value(3),
            _ => self.call(2),
        }
    }

    fn negated(&mut self) -> Expr {
        match self.rng.weighted(&[60, 20, 20]) {
            0 => self.condition(),
            1 => self.call_with_output(),
            _ => self.unification(),
        }
    }

    /// `=`: a pattern against a value, in either order, or arrays pairwise.
    fn unification(&mut self) -> Expr {
        let (a, b) = match self.rng.weighted(&[45, 15, 15, 25]) {
            0 => (self.pattern(2), self.value(3)),
            1 => (self.value(3), self.pattern(2)),
            2 => (self.pattern(2), self.pattern(2)),
            _ => self.array_pair(2, false),
        };
        self.assign(a, b, false)
    }

    /// `:=` to names that nothing mentioned before, where there are such.
    fn assignment(&mut self) -> Expr {
        if self.fresh_name().is_none() {
            return self.unification();
        }
        if self.rng.percent(20) {
            let (a, b) = self.array_pair(1, true);
            return self.assign(a, b, true);
        }
        let target = self.target(1);
        let value = self.value(3);
        self.assign(target, value, true)
    }

    /// A pattern of fresh names.
    fn target(&mut self, depth: usize) -> Expr {
        self.pattern_of(depth, &mut |writer| match writer.fresh_name() {
            Some(name) => {
                writer.mention(&name);
                writer.scope().bound.insert(name.clone());
                name
            }
            None => "_".to_string(),
        })
    }

    /// Sides that are both arrays: of one length, unless the right one is left to chance.
    fn array_pair(&mut self, depth: usize, fresh: bool) -> (Expr, Expr) {
        let count = self.rng.between(0, 3);
        let mut sides = (Vec::new(), Vec::new());
        for _ in 0..count {
            if depth > 0 && self.rng.percent(15) {
                let (a, b) = self.array_pair(depth - 1, fresh);
                sides.0.push(a);
                sides.1.push(b);
            } else if fresh {
                sides.0.push(self.target(0));
                sides.1.push(self.value(1));
            } else if self.rng.percent(75) {
                sides.0.push(self.pattern(1));
                sides.1.push(self.value(1));
            } else {
                sides.0.push(self.value(1));
                sides.1.push(self.pattern(1));
            }
        }
        let left = self.expr(Node::Array(sides.0));
        (left, self.expr(Node::Array(sides.1)))
    }

    pub(super) fn assign(&mut self, a: Expr, b: Expr, col_eq: bool) -> Expr {
        let (a, b) = (boxed(a), boxed(b));
        self.expr(if col_eq {
            Node::AssignColEq(a, b)
        } else {
            Node::AssignEq(a, b)
        })
    }

    /// A call with one argument more than its built-in takes: the last one receives the result.
    fn call_with_output(&mut self) -> Expr {
        let (path, arity) = self.callee();
        let mut params: Vec<Expr> = (0..arity).map(|_| self.value(1)).collect();
        params.push(match self.rng.weighted(&[76, 10, 8, 6]) {
            0 => {
                let name = self.bound_name();
                self.var(name)
            }
            1 => self.pattern(2),
            2 => self.value(2),
            _ => self.unification(),
        });
        let fcn = self.function(&path);
        self.expr(Node::Call(boxed(fcn), params))
    }

    fn some_vars(&mut self) -> Literal {
        let mut vars = Vec::new();
        for _ in 0..self.rng.between(1, 3) {
            let name = self.fresh_name();
            let name = name.unwrap_or_else(|| self.rng.pick(&["_", "input", "data"]).to_string());
            self.mention(&name);
            vars.push(self.var(name));
        }
        Literal::SomeVars(vars)
    }

    fn some_in(&mut self) -> Literal {
        let key = self.rng.percent(40).then(|| self.pattern(1));
        let value = self.pattern(2);
        let collection = match self.rng.weighted(&[40, 30, 20, 10]) {
            0 => self.reference(0),
            1 => self.brackets(1),
            2 => self.value(2),
            _ => self.comprehension(),
        };
        Literal::SomeIn(key, value, collection)
    }

    fn every(&mut self) -> Literal {
        let domain = if self.rng.percent(70) {
            self.reference(1)
        } else {
            self.value(2)
        };
        if !self.may_nest() {
            return Literal::Expr(domain);
        }
        self.queries_left -= 1;
        let mut name = || {
            if self.rng.percent(8) {
                self.rng.pick(&["_", "input", "data"]).to_string()
            } else {
                self.rng.pick(&self.variables).clone()
            }
        };
        let (key, value) = (name(), name());
        // Key and value are seen by the body alone.
        let own = BTreeSet::from([key.clone(), value.clone()]);
        self.scopes.push(Scope {
            own: own.iter().cloned().collect(),
            mentioned: BTreeSet::new(),
            bound: own,
        });
        let statements = self.rng.between(1, 3);
        let body = self.query(None, statements).0;
        self.scopes.pop();
        let key = self.rng.percent(45).then(|| self.var(key));
        let value = self.var(value);
        Literal::Every(key, value, domain, body)
    }

    /// Binds, mostly, each name of the query that was used and that nothing bound.
    pub(super) fn close(&mut self, query: &mut Query) {
        let scope = self.scope();
        let loose: Vec<String> = scope
            .own
            .iter()
            .filter(|name| scope.mentioned.contains(*name) && !scope.bound.contains(*name))
            .cloned()
            .collect::<BTreeSet<_>>()
            .into_iter()
            .collect();
        for name in loose {
            if self.rng.percent(self.taste.closing) {
                let statement = self.binding(name);
                let at = self.rng.below(query.statements.len() + 1);
                query.statements.insert(at, statement);
            }
        }
    }

    fn binding(&mut self, name: String) -> Statement {
        let var = self.var(name);
        let expr = match self.rng.weighted(&[26, 26, 14, 18, 16]) {
            0 => {
                let value = self.literal();
                self.assign(var, value, false)
            }
            1 => {
                let base = self.var("input".to_string());
                let field = self.rng.pick(FIELDS).to_string();
                let value = self.expr(Node::RefDot(boxed(base), field));
                self.assign(var, value, false)
            }
            2 => {
                let base = self.var("data".to_string());
                self.expr(Node::RefBrack(boxed(base), boxed(var)))
            }
            3 => {
                let value = self.value(1);
                self.assign(value, var, false)
            }
            // Two names that wait for each other, unless something else binds one.
            _ => {
                let other = self.bound_name();
                let other = self.var(other);
                self.assign(var, other, false)
            }
        };
        Literal::Expr(expr).plain()
    }
}
