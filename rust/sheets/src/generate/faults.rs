//! One planted fault a sheet, so that each error of the walk is met often.

use super::Writer;
use crate::tree::{Expr, Literal, Node, Query, Statement};

/// The walk's errors, refusals 11 to 14.
#[derive(Clone, Copy, Debug, PartialEq, Eq)]
pub(super) enum Fault {
    Undefined,
    UsedBeforeDefinition,
    LengthsDiffer,
    IndexInPattern,
}

/// A name that no query of the generator has of its own.
const STRANGER: &str = "stranger";

impl Writer {
    /// Plants the sheet's fault here, or leaves it for a query around this one.
    pub(super) fn plant(&mut self, query: &mut Query) {
        if self.level > 1 && self.rng.percent(70) {
            return;
        }
        let Some(fault) = self.pending.take() else {
            return;
        };
        let mut at = self.rng.below(query.statements.len() + 1);
        for statement in self.faulty(fault) {
            query.statements.insert(at, statement);
            at = self.rng.between(at + 1, query.statements.len());
        }
    }

    fn faulty(&mut self, fault: Fault) -> Vec<Statement> {
        match fault {
            Fault::Undefined => {
                let use_ = self.stranger_used();
                vec![Literal::Expr(use_).plain()]
            }
            Fault::UsedBeforeDefinition => {
                let use_ = if self.rng.percent(30) && self.may_nest() {
                    self.stranger_in_comprehension()
                } else {
                    self.stranger_used()
                };
                let var = self.var(STRANGER.to_string());
                let definition = if self.rng.percent(70) {
                    let value = self.literal();
                    Literal::Expr(self.assign(var, value, true))
                } else {
                    Literal::SomeVars(vec![var])
                };
                vec![Literal::Expr(use_).plain(), definition.plain()]
            }
            Fault::LengthsDiffer => {
                let long = self.rng.between(1, 3);
                let short = self.rng.below(long);
                let mut array = |count| {
                    let items = (0..count).map(|_| self.literal()).collect();
                    self.expr(Node::Array(items))
                };
                let (mut a, mut b) = (array(long), array(short));
                if self.rng.percent(50) {
                    std::mem::swap(&mut a, &mut b);
                }
                if self.rng.percent(25) {
                    a = self.expr(Node::Array(vec![a]));
                    b = self.expr(Node::Array(vec![b]));
                }
                let col_eq = self.rng.percent(40);
                vec![Literal::Expr(self.assign(a, b, col_eq)).plain()]
            }
            Fault::IndexInPattern => {
                let base = self.var("data".to_string());
                let name = self.bound_name();
                let index = self.var(name);
                let part = Node::RefBrack(Box::new(base), Box::new(index));
                let mut pattern = self.expr(part);
                if self.rng.percent(40) {
                    pattern = self.expr(Node::Array(vec![pattern]));
                }
                let collection = self.reference(0);
                let (key, value) = if self.rng.percent(30) {
                    (Some(pattern), self.pattern(0))
                } else {
                    (None, pattern)
                };
                vec![Literal::SomeIn(key, value, collection).plain()]
            }
        }
    }

    fn stranger_used(&mut self) -> Expr {
        let var = self.var(STRANGER.to_string());
        let other = self.literal();
        let node = match self.rng.below(3) {
            0 => Node::BoolExpr(Box::new(var), Box::new(other)),
            1 => Node::Set(vec![other, var]),
            _ => Node::UnaryExpr(Box::new(var)),
        };
        self.expr(node)
    }

    fn stranger_in_comprehension(&mut self) -> Expr {
        self.queries_left -= 1;
        let inner = self.stranger_used();
        let term = self.literal();
        let body = Query {
            statements: vec![Literal::Expr(inner).plain()],
        };
        self.expr(Node::SetCompr(Box::new(term), body))
    }
}
