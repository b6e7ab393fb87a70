//! A sheet's rows as the original's syntax tree.

use crate::ast::{
    ArithOp, AssignOp, BinOp, BoolOp, Expr, Literal, LiteralStmt, Query, Ref, WithModifier,
};
use crate::lexer::{Source, Span};
use crate::value::Value;
use sheets::sheet::ExprRow;
use sheets::{Form, Kind, Sheet};

/// The text that a String of name 0 stands for: any that is no identifier.
const NO_IDENTIFIER: &str = "no identifier";

pub struct Rows<'a> {
    sheet: &'a Sheet,
    source: Source,
    /// Where each name's text starts in the source.
    starts: Vec<u32>,
}

impl<'a> Rows<'a> {
    /// The source's text holds each name once, and then as many lines as a position may point to:
    /// an error message quotes the line.
    pub fn new(sheet: &'a Sheet) -> Rows<'a> {
        let mut contents = String::new();
        let mut starts = Vec::new();
        for name in &sheet.names {
            starts.push(contents.len() as u32);
            contents.push_str(name);
            contents.push('\n');
        }
        let last_line = sheet.exprs.iter().map(|e| e.line).max().unwrap_or(0);
        for _ in sheet.names.len()..usize::from(last_line) {
            contents.push('\n');
        }
        Rows {
            sheet,
            source: Source::from_contents("sheet".to_string(), contents).expect("a source"),
            starts,
        }
    }

    /// The outer query gets the largest `qidx`, as the original's parser would give it; its
    /// table is sized by that.
    pub fn qidx(&self, query: u16) -> u32 {
        match query {
            1 => self.sheet.queries.len() as u32 - 1,
            _ => u32::from(query) - 2,
        }
    }

    fn name(&self, name: u16) -> &'a str {
        &self.sheet.names[usize::from(name) - 1]
    }

    /// A span at a position, over a name's text; name 0 is the empty text.
    fn span(&self, name: u16, line: u16, col: u16) -> Span {
        let (start, end) = match name {
            0 => (0, 0),
            _ => {
                let start = self.starts[usize::from(name) - 1];
                (start, start + self.name(name).len() as u32)
            }
        };
        Span {
            source: self.source.clone(),
            line: u32::from(line),
            col: u32::from(col),
            start,
            end,
        }
    }

    fn no_span(&self) -> Span {
        self.span(0, 0, 0)
    }

    pub fn query(&self, row: u16) -> Ref<Query> {
        let mut stmts = Vec::new();
        let mut next = self.sheet.queries[usize::from(row) - 1];
        while next != 0 {
            stmts.push(self.statement(next));
            next = self.sheet.statements[usize::from(next) - 1].next;
        }
        Ref::new(Query {
            span: self.no_span(),
            stmts,
            qidx: self.qidx(row),
        })
    }

    fn statement(&self, row: u16) -> LiteralStmt {
        let s = self.sheet.statements[usize::from(row) - 1];
        let span = self.no_span();
        let literal = match Form::from_number(s.form).expect("a form") {
            Form::SomeVars => Literal::SomeVars {
                span,
                vars: self.chain(s.first, |row| self.var(row)),
            },
            Form::SomeIn => Literal::SomeIn {
                span,
                key: self.optional(s.first),
                value: self.expr(s.second),
                collection: self.expr(s.third),
            },
            Form::Expr => Literal::Expr {
                span,
                expr: self.expr(s.first),
            },
            Form::NotExpr => Literal::NotExpr {
                span,
                expr: self.expr(s.first),
            },
            Form::Every => Literal::Every {
                span,
                key: (s.first != 0).then(|| self.var(s.first)),
                value: self.var(s.second),
                domain: self.expr(s.third),
                query: self.query(s.query),
            },
        };
        LiteralStmt {
            span: self.no_span(),
            literal,
            with_mods: self.chain(s.with, |row| WithModifier {
                span: self.no_span(),
                refr: Ref::new(Expr::Null {
                    span: self.no_span(),
                    value: Value::Null,
                    eidx: 0,
                }),
                r#as: self.expr(row),
            }),
            sidx: u32::from(row) - 1,
        }
    }

    fn chain<T>(&self, first: u16, item: impl Fn(u16) -> T) -> Vec<T> {
        let mut items = Vec::new();
        let mut row = first;
        while row != 0 {
            items.push(item(row));
            row = self.sheet.exprs[usize::from(row) - 1].next;
        }
        items
    }

    fn optional(&self, row: u16) -> Option<Ref<Expr>> {
        (row != 0).then(|| self.expr(row))
    }

    fn var(&self, row: u16) -> Span {
        let e = self.sheet.exprs[usize::from(row) - 1];
        self.span(e.name, e.line, e.col)
    }

    fn expr(&self, row: u16) -> Ref<Expr> {
        let e = self.sheet.exprs[usize::from(row) - 1];
        Ref::new(self.node(&e, u32::from(row) - 1))
    }

    fn node(&self, e: &ExprRow, eidx: u32) -> Expr {
        let span = self.span(e.name, e.line, e.col);
        let items = |first| self.chain(first, |row| self.expr(row));
        match Kind::from_number(e.kind).expect("a kind") {
            Kind::String => Expr::String {
                span,
                value: match e.name {
                    0 => Value::from(NO_IDENTIFIER),
                    _ => Value::from(self.name(e.name)),
                },
                eidx,
            },
            Kind::RawString => Expr::RawString {
                span,
                value: Value::from(""),
                eidx,
            },
            Kind::Number => Expr::Number {
                span,
                value: Value::Undefined,
                eidx,
            },
            Kind::Bool => Expr::Bool {
                span,
                value: Value::Undefined,
                eidx,
            },
            Kind::Null => Expr::Null {
                span,
                value: Value::Null,
                eidx,
            },
            Kind::Var => Expr::Var {
                value: Value::from(span.text()),
                span,
                eidx,
            },
            Kind::Array => Expr::Array {
                span,
                items: items(e.first),
                eidx,
            },
            Kind::Set => Expr::Set {
                span,
                items: items(e.first),
                eidx,
            },
            Kind::Object => Expr::Object {
                fields: pairs(items(e.first), &span),
                span,
                eidx,
            },
            Kind::ArrayCompr => Expr::ArrayCompr {
                span,
                term: self.expr(e.first),
                query: self.query(e.third),
                eidx,
            },
            Kind::SetCompr => Expr::SetCompr {
                span,
                term: self.expr(e.first),
                query: self.query(e.third),
                eidx,
            },
            Kind::ObjectCompr => Expr::ObjectCompr {
                span,
                key: self.expr(e.first),
                value: self.expr(e.second),
                query: self.query(e.third),
                eidx,
            },
            Kind::Call => Expr::Call {
                span,
                fcn: self.expr(e.first),
                params: items(e.second),
                eidx,
            },
            Kind::UnaryExpr => Expr::UnaryExpr {
                span,
                expr: self.expr(e.first),
                eidx,
            },
            Kind::RefDot => Expr::RefDot {
                span: self.span(0, e.line, e.col),
                refr: self.expr(e.first),
                field: (span, Value::from(self.name(e.name))),
                eidx,
            },
            Kind::RefBrack => Expr::RefBrack {
                span,
                refr: self.expr(e.first),
                index: self.expr(e.second),
                eidx,
            },
            Kind::BinExpr => Expr::BinExpr {
                span,
                op: BinOp::Union,
                lhs: self.expr(e.first),
                rhs: self.expr(e.second),
                eidx,
            },
            Kind::BoolExpr => Expr::BoolExpr {
                span,
                op: BoolOp::Gt,
                lhs: self.expr(e.first),
                rhs: self.expr(e.second),
                eidx,
            },
            Kind::ArithExpr => Expr::ArithExpr {
                span,
                op: ArithOp::Add,
                lhs: self.expr(e.first),
                rhs: self.expr(e.second),
                eidx,
            },
            Kind::AssignEq => Expr::AssignExpr {
                span,
                op: AssignOp::Eq,
                lhs: self.expr(e.first),
                rhs: self.expr(e.second),
                eidx,
            },
            Kind::AssignColEq => Expr::AssignExpr {
                span,
                op: AssignOp::ColEq,
                lhs: self.expr(e.first),
                rhs: self.expr(e.second),
                eidx,
            },
            Kind::Membership => Expr::Membership {
                span,
                key: self.optional(e.first),
                value: self.expr(e.second),
                collection: self.expr(e.third),
                eidx,
            },
        }
    }
}

/// An Object's chain alternates key and value.
fn pairs(items: Vec<Ref<Expr>>, span: &Span) -> Vec<(Span, Ref<Expr>, Ref<Expr>)> {
    let mut items = items.into_iter();
    let mut fields = Vec::new();
    while let Some(key) = items.next() {
        let value = items.next().expect("a value for each key");
        fields.push((span.clone(), key, value));
    }
    fields
}
