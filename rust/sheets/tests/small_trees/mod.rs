//! Small trees of every kind and form for the tests, and the worked example of document 01.

// Each test file uses its own part.
#![allow(dead_code)]

use sheets::rng::Rng;
use sheets::tree::{Builtin, Expr, Literal, Node, Query, Snippet, Statement};

pub const WORKED_EXAMPLE: &str = "\
name
a
input
x
y

arity first second third

kind name line col first second third next
20 0 1 1 2 3 0 0
6 4 1 1 0 0 0 0
6 3 1 5 0 0 0 0
20 0 2 1 5 6 0 0
6 3 2 1 0 0 0 0
15 1 2 5 7 0 0 0
6 2 2 5 0 0 0 0

form first second third query with next
3 1 0 0 0 0 2
3 4 0 0 0 0 0

statement
1

";

pub fn var(name: &str) -> Expr {
    Node::Var(name.to_string()).unplaced()
}

pub fn number() -> Expr {
    Node::Number.unplaced()
}

pub fn array(items: Vec<Expr>) -> Expr {
    Node::Array(items).unplaced()
}

pub fn bin(a: Expr, b: Expr) -> Expr {
    Node::BinExpr(Box::new(a), Box::new(b)).unplaced()
}

pub fn compr(term: Expr, statements: Vec<Statement>) -> Expr {
    Node::ArrayCompr(Box::new(term), Query { statements }).unplaced()
}

pub fn plain(e: Expr) -> Statement {
    Literal::Expr(e).plain()
}

pub fn snippet(statements: Vec<Statement>) -> Snippet {
    Snippet {
        query: Query { statements },
        ..Snippet::default()
    }
}

const NAMES: [&str; 6] = ["a", "b", "data", "input", "x", "y_1"];

/// Trees by chance: nesting at most 5, some dozens of rows.
pub struct Trees {
    pub rng: Rng,
    /// How many more expressions may hold others.
    branches: usize,
    level: usize,
}

impl Trees {
    pub fn new(seed: u64) -> Trees {
        Trees {
            rng: Rng::new(seed),
            branches: 0,
            level: 0,
        }
    }

    pub fn snippet(&mut self) -> Snippet {
        self.branches = self.rng.between(3, 20);
        self.level = 0;
        let builtins = ["count", "json", "walk"];
        Snippet {
            spare_names: vec!["spare".to_string(), "z".to_string()],
            builtins: (0..self.rng.below(4))
                .map(|i| Builtin {
                    arity: self.rng.below(256) as u16,
                    path: builtins[..i.max(1)].iter().map(|p| p.to_string()).collect(),
                })
                .skip(1)
                .collect(),
            query: self.query(),
        }
    }

    fn name(&mut self) -> String {
        self.rng.pick(&NAMES).to_string()
    }

    fn query(&mut self) -> Query {
        self.level += 1;
        let count = self.rng.below(if self.level == 1 { 6 } else { 3 });
        let statements = (0..count).map(|_| self.statement()).collect();
        self.level -= 1;
        Query { statements }
    }

    fn statement(&mut self) -> Statement {
        let literal = match self.rng.below(10) {
            0 => Literal::SomeVars(self.some(1, |t| t.var())),
            1 => Literal::SomeIn(self.key(Trees::expr), self.expr(), self.expr()),
            2 => Literal::NotExpr(self.expr()),
            3 | 4 if self.level < 5 => {
                Literal::Every(self.key(Trees::var), self.var(), self.expr(), self.query())
            }
            _ => Literal::Expr(self.expr()),
        };
        let with = if self.rng.percent(25) {
            self.some(1, Trees::expr)
        } else {
            Vec::new()
        };
        Statement { literal, with }
    }

    fn key(&mut self, make: fn(&mut Trees) -> Expr) -> Option<Expr> {
        self.rng.percent(40).then(|| make(self))
    }

    fn some<T>(&mut self, least: usize, make: fn(&mut Trees) -> T) -> Vec<T> {
        (0..self.rng.between(least, 3))
            .map(|_| make(self))
            .collect()
    }

    fn var(&mut self) -> Expr {
        let node = Node::Var(self.name());
        self.placed(node)
    }

    fn placed(&mut self, node: Node) -> Expr {
        node.at(self.rng.below(9) as u16, self.rng.below(99) as u16)
    }

    fn expr(&mut self) -> Expr {
        let kind = if self.branches == 0 {
            self.rng.below(8)
        } else {
            self.branches -= 1;
            self.rng.below(26)
        };
        let node = match kind {
            0 => Node::String(None),
            1 => Node::String(Some(self.name())),
            2 => Node::RawString,
            3 => Node::Bool,
            4 => Node::Null,
            8 => Node::Array(self.some(0, Trees::expr)),
            9 => Node::Set(self.some(0, Trees::expr)),
            10 => Node::Object(self.some(0, |t| (t.expr(), t.expr()))),
            11 | 12 if self.level < 5 => self.comprehension(Node::ArrayCompr),
            13 | 14 if self.level < 5 => self.comprehension(Node::SetCompr),
            15 if self.level < 5 => {
                Node::ObjectCompr(self.boxed_term(), self.boxed_term(), self.query())
            }
            16 => Node::Call(self.boxed(), self.some(0, Trees::expr)),
            17 => Node::UnaryExpr(self.boxed()),
            18 => Node::RefDot(self.boxed(), self.name()),
            19 => Node::RefBrack(self.boxed(), self.boxed()),
            20 => Node::BinExpr(self.boxed(), self.boxed()),
            21 => Node::BoolExpr(self.boxed(), self.boxed()),
            22 => Node::ArithExpr(self.boxed(), self.boxed()),
            23 => Node::AssignEq(self.boxed(), self.boxed()),
            24 => Node::AssignColEq(self.boxed(), self.boxed()),
            25 => Node::Membership(
                self.key(Trees::expr).map(Box::new),
                self.boxed(),
                self.boxed(),
            ),
            5 => Node::Number,
            _ => Node::Var(self.name()),
        };
        self.placed(node)
    }

    fn boxed(&mut self) -> Box<Expr> {
        Box::new(self.expr())
    }

    /// A term lies in its comprehension's query, one level down.
    fn boxed_term(&mut self) -> Box<Expr> {
        self.level += 1;
        let term = self.boxed();
        self.level -= 1;
        term
    }

    fn comprehension(&mut self, make: fn(Box<Expr>, Query) -> Node) -> Node {
        make(self.boxed_term(), self.query())
    }
}
