//! Gives the expressions of a snippet places in its source.

use crate::rng::Rng;
use crate::tree::{Expr, Node, Position, Query, Snippet, Statement};

/// How positions are given.
#[derive(Clone, Copy, Debug, PartialEq, Eq)]
pub enum Style {
    /// As the rule would be printed: a statement a line, a comprehension's body on its line or on
    /// lines of its own.
    Reading,
    /// Reading order, but all on one line.
    OneLine,
    /// Reading order, but for a share in a hundred that lies anywhere near.
    Scattered(usize),
    /// Everywhere the same place.
    Constant,
}

impl Snippet {
    pub fn place(&mut self, style: Style, rng: &mut Rng) {
        let mut pen = Pen {
            at: Position { line: 1, col: 1 },
            style,
            rng,
        };
        pen.query(&mut self.query, true);
    }
}

/// Walks the snippet as a printer would write it.
struct Pen<'a> {
    at: Position,
    style: Style,
    rng: &'a mut Rng,
}

impl Pen<'_> {
    fn advance(&mut self) {
        self.at.col = self.at.col.saturating_add(self.rng.between(1, 4) as u16);
    }

    fn new_line(&mut self) {
        if self.style == Style::OneLine {
            self.advance();
        } else {
            self.at.line = self.at.line.saturating_add(1);
            self.at.col = self.rng.between(1, 5) as u16;
        }
    }

    fn query(&mut self, query: &mut Query, own_lines: bool) {
        for (index, statement) in query.statements.iter_mut().enumerate() {
            if own_lines && index > 0 {
                self.new_line();
            } else {
                self.advance();
            }
            self.statement(statement);
        }
    }

    fn statement(&mut self, statement: &mut Statement) {
        let with = statement.with.len();
        let mut exprs = statement.exprs_mut();
        let modifiers = exprs.split_off(exprs.len() - with);
        for expr in exprs {
            self.expr(expr);
            self.advance();
        }
        for expr in modifiers {
            self.expr(expr);
            self.advance();
        }
        if let Some(body) = statement.body_mut() {
            self.new_line();
            self.query(body, true);
        }
    }

    fn expr(&mut self, expr: &mut Expr) {
        expr.at = self.place();
        // An infix expression or a reference starts where its first part does; the others have a
        // sign of their own in front.
        let starts_with_child = matches!(
            expr.node,
            Node::RefDot(..)
                | Node::RefBrack(..)
                | Node::Call(..)
                | Node::BinExpr(..)
                | Node::BoolExpr(..)
                | Node::ArithExpr(..)
                | Node::AssignEq(..)
                | Node::AssignColEq(..)
                | Node::Membership(..)
        );
        if !starts_with_child {
            self.advance();
        }
        for child in expr.children_mut() {
            self.expr(child);
            self.advance();
        }
        if expr.query().is_some() {
            let own_lines = self.rng.percent(30);
            if own_lines {
                self.new_line();
            }
            if let Some(query) = expr.query_mut() {
                self.query(query, own_lines);
            }
        }
    }

    fn place(&mut self) -> Position {
        match self.style {
            Style::Constant => Position { line: 1, col: 1 },
            Style::Scattered(share) if self.rng.percent(share) => self.anywhere(),
            _ => self.at,
        }
    }

    fn anywhere(&mut self) -> Position {
        if self.rng.percent(2) {
            return Position {
                line: u16::MAX,
                col: u16::MAX,
            };
        }
        Position {
            line: self.rng.below(usize::from(self.at.line) + 3) as u16,
            col: self.rng.below(12) as u16,
        }
    }
}
