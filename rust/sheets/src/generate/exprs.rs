//! Expressions: values, patterns, references and calls.

use super::{Writer, FIELDS, PATHS};
use crate::sheet::limits;
use crate::tree::{Expr, Node};

fn boxed(expr: Expr) -> Box<Expr> {
    Box::new(expr)
}

impl Writer {
    pub(super) fn expr(&mut self, node: Node) -> Expr {
        self.exprs_left -= 1;
        node.unplaced()
    }

    pub(super) fn var(&mut self, name: String) -> Expr {
        self.expr(Node::Var(name))
    }

    pub(super) fn literal(&mut self) -> Expr {
        let node = match self.rng.weighted(&[2, 1, 1, 4, 1, 1]) {
            0 => Node::String(Some(self.rng.pick(FIELDS).to_string())),
            1 => Node::String(None),
            2 => Node::RawString,
            3 => Node::Number,
            4 => Node::Bool,
            _ => Node::Null,
        };
        self.expr(node)
    }

    fn use_var(&mut self) -> Expr {
        let name = self.used_name();
        self.var(name)
    }

    fn leaf(&mut self) -> Expr {
        if self.rng.percent(55) {
            self.use_var()
        } else {
            self.literal()
        }
    }

    fn values(&mut self, high: usize, depth: usize) -> Vec<Expr> {
        let count = self.rng.between(0, high);
        (0..count).map(|_| self.value(depth)).collect()
    }

    fn pair(&mut self, depth: usize) -> (Box<Expr>, Box<Expr>) {
        (boxed(self.value(depth)), boxed(self.value(depth)))
    }

    /// An expression in a place where names are read.
    pub(super) fn value(&mut self, depth: usize) -> Expr {
        if depth == 0 || self.exprs_left <= 0 {
            return self.leaf();
        }
        let depth = depth - 1;
        let node = match self.rng.weighted(&[
            34,
            6,
            5,
            5,
            self.taste.comprehensions,
            7,
            3,
            7,
            10,
            3,
            4,
            8,
            2,
            3,
        ]) {
            0 => return self.leaf(),
            1 => Node::Array(self.values(3, depth)),
            2 => Node::Set(self.values(3, depth)),
            3 => {
                let count = self.rng.between(0, 2);
                let field = |_| (self.value(depth), self.value(depth));
                Node::Object((0..count).map(field).collect())
            }
            4 => return self.comprehension(),
            5 => return self.call(depth),
            6 => Node::UnaryExpr(boxed(self.value(depth))),
            7 => return self.reference(depth),
            8 => return self.brackets(depth),
            9 => {
                let (a, b) = self.pair(depth);
                Node::BinExpr(a, b)
            }
            10 => {
                let (a, b) = self.pair(depth);
                Node::BoolExpr(a, b)
            }
            11 => {
                let (a, b) = self.pair(depth);
                Node::ArithExpr(a, b)
            }
            12 => {
                let (a, b) = self.pair(depth);
                if self.rng.percent(50) {
                    Node::AssignEq(a, b)
                } else {
                    Node::AssignColEq(a, b)
                }
            }
            _ => {
                let key = self.rng.percent(40).then(|| boxed(self.value(depth)));
                let (a, b) = self.pair(depth);
                Node::Membership(key, a, b)
            }
        };
        self.expr(node)
    }

    /// Whether a nested query still fits.
    pub(super) fn may_nest(&self) -> bool {
        self.level < limits::NESTING && self.queries_left > 0
    }

    /// A comprehension of one of the three kinds, or a leaf where none fits.
    pub(super) fn comprehension(&mut self) -> Expr {
        if !self.may_nest() {
            return self.leaf();
        }
        self.queries_left -= 1;
        let which = self.rng.below(3);
        let statements = self.rng.weighted(&[5, 50, 35, 10]);
        let (query, outputs) = self.query(Some(if which == 2 { 2 } else { 1 }), statements);
        let mut outputs = outputs.into_iter().map(boxed);
        let mut output = || outputs.next().expect("as many outputs as asked for");
        let node = match which {
            0 => Node::ArrayCompr(output(), query),
            1 => Node::SetCompr(output(), query),
            _ => Node::ObjectCompr(output(), output(), query),
        };
        self.expr(node)
    }

    /// What a reference starts from.
    fn base(&mut self) -> Expr {
        match self.rng.weighted(&[45, 15, 34, 3, 3]) {
            0 => {
                self.mention("input");
                self.var("input".to_string())
            }
            1 => {
                self.mention("data");
                self.var("data".to_string())
            }
            2 => self.use_var(),
            3 => self.call(0),
            _ => self.comprehension(),
        }
    }

    /// A dotted reference.
    pub(super) fn reference(&mut self, depth: usize) -> Expr {
        let mut expr = if self.rng.percent(15) {
            self.value(depth)
        } else {
            self.base()
        };
        for _ in 0..self.rng.between(1, 2) {
            let field = self.rng.pick(FIELDS).to_string();
            expr = self.expr(Node::RefDot(boxed(expr), field));
        }
        expr
    }

    /// A chain of brackets, dots among them.
    pub(super) fn brackets(&mut self, depth: usize) -> Expr {
        let mut expr = self.base();
        for _ in 0..self.rng.between(1, self.taste.brackets) {
            if self.rng.percent(20) {
                let field = self.rng.pick(FIELDS).to_string();
                expr = self.expr(Node::RefDot(boxed(expr), field));
            }
            let index = self.index(depth);
            expr = self.expr(Node::RefBrack(boxed(expr), boxed(index)));
        }
        expr
    }

    fn index(&mut self, depth: usize) -> Expr {
        match self
            .rng
            .weighted(&[46, 20, 10, 12, self.taste.comprehensions])
        {
            0 => {
                let name = self.bound_name();
                self.var(name)
            }
            1 => self.literal(),
            2 => self.value(depth),
            3 => self.pattern(1),
            _ => self.comprehension(),
        }
    }

    /// An expression in a place where names are bound: Array and Object are entered, whatever
    /// else stands there is read.
    pub(super) fn pattern(&mut self, depth: usize) -> Expr {
        self.pattern_of(depth, &mut |writer| writer.bound_name())
    }

    pub(super) fn pattern_of(
        &mut self,
        depth: usize,
        name: &mut dyn FnMut(&mut Writer) -> String,
    ) -> Expr {
        let shape = if depth == 0 || self.exprs_left <= 0 {
            0
        } else {
            self.rng.weighted(&[60, 16, 8, 5, 3, 8])
        };
        let node = match shape {
            0 => Node::Var(name(self)),
            1 => {
                let count = self.rng.between(0, 3);
                let items = (0..count).map(|_| self.pattern_of(depth - 1, name));
                Node::Array(items.collect())
            }
            2 => {
                let mut fields = Vec::new();
                for _ in 0..self.rng.between(0, 2) {
                    let key = if self.rng.percent(70) {
                        self.literal()
                    } else {
                        self.pattern_of(depth - 1, name)
                    };
                    fields.push((key, self.pattern_of(depth - 1, name)));
                }
                Node::Object(fields)
            }
            3 => return self.reference(0),
            // A set is no pattern, whatever it looks like.
            4 => Node::Set(self.values(2, 0)),
            _ => return self.literal(),
        };
        self.expr(node)
    }

    /// A call; its function is a path of a built-in or of none, written in one of several ways.
    pub(super) fn call(&mut self, depth: usize) -> Expr {
        let (path, arity) = self.callee();
        let params = match self.rng.weighted(&[60, 25, 15]) {
            0 => arity,
            1 => arity + 1,
            _ => self.rng.between(0, 3),
        };
        let params = (0..params).map(|_| self.value(depth)).collect();
        let fcn = self.function(&path);
        self.expr(Node::Call(boxed(fcn), params))
    }

    pub(super) fn callee(&mut self) -> (Vec<String>, usize) {
        if !self.builtins.is_empty() && self.rng.percent(80) {
            let builtin = self.rng.pick(&self.builtins);
            return (builtin.path.clone(), usize::from(builtin.arity));
        }
        let path = self.rng.pick(PATHS);
        (path.iter().map(|p| p.to_string()).collect(), 1)
    }

    pub(super) fn function(&mut self, path: &[String]) -> Expr {
        if self.rng.percent(3) {
            // No simple path, so no built-in; what it holds is never analysed.
            return match self.rng.below(3) {
                0 => self.comprehension(),
                1 => self.call(0),
                _ => {
                    let base = self.comprehension();
                    self.expr(Node::RefDot(boxed(base), path[0].clone()))
                }
            };
        }
        let mut expr = self.var(path[0].clone());
        for part in &path[1..] {
            if self.rng.percent(8) {
                // An index that is no String is dropped from the path.
                let index = match self.rng.below(3) {
                    0 => self.expr(Node::Number),
                    1 => self.expr(Node::RawString),
                    _ => self.use_var(),
                };
                expr = self.expr(Node::RefBrack(boxed(expr), boxed(index)));
            }
            expr = if self.rng.percent(25) {
                let index = self.expr(Node::String(Some(part.clone())));
                self.expr(Node::RefBrack(boxed(expr), boxed(index)))
            } else {
                self.expr(Node::RefDot(boxed(expr), part.clone()))
            };
        }
        if self.rng.percent(4) {
            let index = self.expr(Node::String(None));
            expr = self.expr(Node::RefBrack(boxed(expr), boxed(index)));
        }
        expr
    }
}
