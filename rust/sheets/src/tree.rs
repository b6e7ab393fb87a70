//! A sheet as trees: what a rule's author wrote, before rows are numbered.

use crate::sheet::{ExprRow, Form, Kind, Sheet};

/// A position in the rule's source.
#[derive(Clone, Copy, Debug, Default, PartialEq, Eq)]
pub struct Position {
    pub line: u16,
    pub col: u16,
}

#[derive(Clone, Debug, PartialEq, Eq)]
pub struct Expr {
    pub at: Position,
    pub node: Node,
}

/// The 22 kinds with what each holds. `String(None)` is a text that is no identifier.
#[derive(Clone, Debug, PartialEq, Eq)]
pub enum Node {
    String(Option<String>),
    RawString,
    Number,
    Bool,
    Null,
    Var(String),
    Array(Vec<Expr>),
    Set(Vec<Expr>),
    Object(Vec<(Expr, Expr)>),
    ArrayCompr(Box<Expr>, Query),
    SetCompr(Box<Expr>, Query),
    ObjectCompr(Box<Expr>, Box<Expr>, Query),
    Call(Box<Expr>, Vec<Expr>),
    UnaryExpr(Box<Expr>),
    RefDot(Box<Expr>, String),
    RefBrack(Box<Expr>, Box<Expr>),
    BinExpr(Box<Expr>, Box<Expr>),
    BoolExpr(Box<Expr>, Box<Expr>),
    ArithExpr(Box<Expr>, Box<Expr>),
    AssignEq(Box<Expr>, Box<Expr>),
    AssignColEq(Box<Expr>, Box<Expr>),
    Membership(Option<Box<Expr>>, Box<Expr>, Box<Expr>),
}

/// Variables of `SomeVars`, and an `Every`'s key and value, are `Var` expressions.
#[derive(Clone, Debug, PartialEq, Eq)]
pub enum Literal {
    SomeVars(Vec<Expr>),
    SomeIn(Option<Expr>, Expr, Expr),
    Expr(Expr),
    NotExpr(Expr),
    Every(Option<Expr>, Expr, Expr, Query),
}

#[derive(Clone, Debug, PartialEq, Eq)]
pub struct Statement {
    pub literal: Literal,
    /// The `as` expressions of the `with` modifiers.
    pub with: Vec<Expr>,
}

#[derive(Clone, Debug, Default, PartialEq, Eq)]
pub struct Query {
    pub statements: Vec<Statement>,
}

#[derive(Clone, Debug, PartialEq, Eq)]
pub struct Builtin {
    pub arity: u16,
    pub path: Vec<String>,
}

/// The outer query, with the built-ins that its calls may name.
#[derive(Clone, Debug, Default, PartialEq, Eq)]
pub struct Snippet {
    /// Names that the sheet lists although nothing refers to them.
    pub spare_names: Vec<String>,
    pub builtins: Vec<Builtin>,
    pub query: Query,
}

impl Node {
    /// The node at line 0, column 0; see [`crate::positions`] for places in reading order.
    pub fn unplaced(self) -> Expr {
        Expr {
            at: Position::default(),
            node: self,
        }
    }

    pub fn at(self, line: u16, col: u16) -> Expr {
        Expr {
            at: Position { line, col },
            node: self,
        }
    }
}

impl Literal {
    pub fn plain(self) -> Statement {
        Statement {
            literal: self,
            with: Vec::new(),
        }
    }
}

impl Expr {
    pub fn kind(&self) -> Kind {
        match self.node {
            Node::String(_) => Kind::String,
            Node::RawString => Kind::RawString,
            Node::Number => Kind::Number,
            Node::Bool => Kind::Bool,
            Node::Null => Kind::Null,
            Node::Var(_) => Kind::Var,
            Node::Array(_) => Kind::Array,
            Node::Set(_) => Kind::Set,
            Node::Object(_) => Kind::Object,
            Node::ArrayCompr(..) => Kind::ArrayCompr,
            Node::SetCompr(..) => Kind::SetCompr,
            Node::ObjectCompr(..) => Kind::ObjectCompr,
            Node::Call(..) => Kind::Call,
            Node::UnaryExpr(_) => Kind::UnaryExpr,
            Node::RefDot(..) => Kind::RefDot,
            Node::RefBrack(..) => Kind::RefBrack,
            Node::BinExpr(..) => Kind::BinExpr,
            Node::BoolExpr(..) => Kind::BoolExpr,
            Node::ArithExpr(..) => Kind::ArithExpr,
            Node::AssignEq(..) => Kind::AssignEq,
            Node::AssignColEq(..) => Kind::AssignColEq,
            Node::Membership(..) => Kind::Membership,
        }
    }

    /// The expressions right below, in reading order; a comprehension's query is not among them.
    pub fn children(&self) -> Vec<&Expr> {
        match &self.node {
            Node::Array(items) | Node::Set(items) => items.iter().collect(),
            Node::Object(fields) => fields.iter().flat_map(|(k, v)| [k, v]).collect(),
            Node::ArrayCompr(term, _) | Node::SetCompr(term, _) => vec![term],
            Node::ObjectCompr(key, value, _) => vec![key, value],
            Node::Call(fcn, params) => std::iter::once(&**fcn).chain(params).collect(),
            Node::UnaryExpr(e) | Node::RefDot(e, _) => vec![e],
            Node::RefBrack(a, b)
            | Node::BinExpr(a, b)
            | Node::BoolExpr(a, b)
            | Node::ArithExpr(a, b)
            | Node::AssignEq(a, b)
            | Node::AssignColEq(a, b) => vec![a, b],
            Node::Membership(key, value, collection) => key
                .iter()
                .map(|k| &**k)
                .chain([&**value, &**collection])
                .collect(),
            _ => Vec::new(),
        }
    }

    pub fn children_mut(&mut self) -> Vec<&mut Expr> {
        match &mut self.node {
            Node::Array(items) | Node::Set(items) => items.iter_mut().collect(),
            Node::Object(fields) => fields.iter_mut().flat_map(|(k, v)| [k, v]).collect(),
            Node::ArrayCompr(term, _) | Node::SetCompr(term, _) => vec![term],
            Node::ObjectCompr(key, value, _) => vec![key, value],
            Node::Call(fcn, params) => std::iter::once(&mut **fcn).chain(params).collect(),
            Node::UnaryExpr(e) | Node::RefDot(e, _) => vec![e],
            Node::RefBrack(a, b)
            | Node::BinExpr(a, b)
            | Node::BoolExpr(a, b)
            | Node::ArithExpr(a, b)
            | Node::AssignEq(a, b)
            | Node::AssignColEq(a, b) => vec![a, b],
            Node::Membership(key, value, collection) => key
                .iter_mut()
                .map(|k| &mut **k)
                .chain([&mut **value, &mut **collection])
                .collect(),
            _ => Vec::new(),
        }
    }

    /// A comprehension's query.
    pub fn query(&self) -> Option<&Query> {
        match &self.node {
            Node::ArrayCompr(_, q) | Node::SetCompr(_, q) | Node::ObjectCompr(_, _, q) => Some(q),
            _ => None,
        }
    }

    pub fn query_mut(&mut self) -> Option<&mut Query> {
        match &mut self.node {
            Node::ArrayCompr(_, q) | Node::SetCompr(_, q) | Node::ObjectCompr(_, _, q) => Some(q),
            _ => None,
        }
    }

    /// The identifier that the row's field `name` holds.
    pub fn name(&self) -> Option<&str> {
        match &self.node {
            Node::String(Some(name)) | Node::Var(name) | Node::RefDot(_, name) => Some(name),
            _ => None,
        }
    }
}

impl Statement {
    pub fn form(&self) -> Form {
        match self.literal {
            Literal::SomeVars(_) => Form::SomeVars,
            Literal::SomeIn(..) => Form::SomeIn,
            Literal::Expr(_) => Form::Expr,
            Literal::NotExpr(_) => Form::NotExpr,
            Literal::Every(..) => Form::Every,
        }
    }

    /// The statement's own expressions in reading order, its modifiers last.
    pub fn exprs(&self) -> Vec<&Expr> {
        let own: Vec<&Expr> = match &self.literal {
            Literal::SomeVars(vars) => vars.iter().collect(),
            Literal::SomeIn(key, value, collection) => {
                key.iter().chain([value, collection]).collect()
            }
            Literal::Expr(e) | Literal::NotExpr(e) => vec![e],
            Literal::Every(key, value, domain, _) => key.iter().chain([value, domain]).collect(),
        };
        own.into_iter().chain(&self.with).collect()
    }

    pub fn exprs_mut(&mut self) -> Vec<&mut Expr> {
        let own: Vec<&mut Expr> = match &mut self.literal {
            Literal::SomeVars(vars) => vars.iter_mut().collect(),
            Literal::SomeIn(key, value, collection) => {
                key.iter_mut().chain([value, collection]).collect()
            }
            Literal::Expr(e) | Literal::NotExpr(e) => vec![e],
            Literal::Every(key, value, domain, _) => {
                key.iter_mut().chain([value, domain]).collect()
            }
        };
        own.into_iter().chain(&mut self.with).collect()
    }

    /// The body of an `every`.
    pub fn body(&self) -> Option<&Query> {
        match &self.literal {
            Literal::Every(_, _, _, body) => Some(body),
            _ => None,
        }
    }

    pub fn body_mut(&mut self) -> Option<&mut Query> {
        match &mut self.literal {
            Literal::Every(_, _, _, body) => Some(body),
            _ => None,
        }
    }
}

impl Snippet {
    /// The trees that a sheet's rows stand for.
    ///
    /// # Panics
    /// Where [`crate::check`] would refuse the sheet.
    pub fn of_sheet(sheet: &Sheet) -> Snippet {
        let rows = Rows { sheet };
        let text = |row: &u16| rows.name(*row);
        Snippet {
            spare_names: sheet.names.clone(),
            builtins: sheet
                .builtins
                .iter()
                .map(|b| Builtin {
                    arity: b.arity,
                    path: b.path.iter().filter(|&&p| p != 0).map(text).collect(),
                })
                .collect(),
            query: rows.query(1),
        }
    }
}

struct Rows<'a> {
    sheet: &'a Sheet,
}

impl Rows<'_> {
    fn name(&self, row: u16) -> String {
        self.sheet.names[row as usize - 1].clone()
    }

    fn chain(&self, first: u16) -> Vec<Expr> {
        let mut items = Vec::new();
        let mut row = first;
        while row != 0 {
            items.push(self.expr(row));
            row = self.sheet.exprs[row as usize - 1].next;
        }
        items
    }

    fn optional(&self, row: u16) -> Option<Expr> {
        (row != 0).then(|| self.expr(row))
    }

    fn query(&self, row: u16) -> Query {
        let mut statements = Vec::new();
        let mut next = self.sheet.queries[row as usize - 1];
        while next != 0 {
            statements.push(self.statement(next));
            next = self.sheet.statements[next as usize - 1].next;
        }
        Query { statements }
    }

    fn statement(&self, row: u16) -> Statement {
        let s = &self.sheet.statements[row as usize - 1];
        let literal = match Form::from_number(s.form).expect("a form") {
            Form::SomeVars => Literal::SomeVars(self.chain(s.first)),
            Form::SomeIn => Literal::SomeIn(
                self.optional(s.first),
                self.expr(s.second),
                self.expr(s.third),
            ),
            Form::Expr => Literal::Expr(self.expr(s.first)),
            Form::NotExpr => Literal::NotExpr(self.expr(s.first)),
            Form::Every => Literal::Every(
                self.optional(s.first),
                self.expr(s.second),
                self.expr(s.third),
                self.query(s.query),
            ),
        };
        Statement {
            literal,
            with: self.chain(s.with),
        }
    }

    fn expr(&self, row: u16) -> Expr {
        let e = &self.sheet.exprs[row as usize - 1];
        Expr {
            at: Position {
                line: e.line,
                col: e.col,
            },
            node: self.node(e),
        }
    }

    fn node(&self, e: &ExprRow) -> Node {
        let boxed = |row: u16| Box::new(self.expr(row));
        match Kind::from_number(e.kind).expect("a kind") {
            Kind::String => Node::String((e.name != 0).then(|| self.name(e.name))),
            Kind::RawString => Node::RawString,
            Kind::Number => Node::Number,
            Kind::Bool => Node::Bool,
            Kind::Null => Node::Null,
            Kind::Var => Node::Var(self.name(e.name)),
            Kind::Array => Node::Array(self.chain(e.first)),
            Kind::Set => Node::Set(self.chain(e.first)),
            Kind::Object => {
                let mut items = self.chain(e.first).into_iter();
                let mut fields = Vec::new();
                while let Some(key) = items.next() {
                    fields.push((key, items.next().expect("a value for each key")));
                }
                Node::Object(fields)
            }
            Kind::ArrayCompr => Node::ArrayCompr(boxed(e.first), self.query(e.third)),
            Kind::SetCompr => Node::SetCompr(boxed(e.first), self.query(e.third)),
            Kind::ObjectCompr => {
                Node::ObjectCompr(boxed(e.first), boxed(e.second), self.query(e.third))
            }
            Kind::Call => Node::Call(boxed(e.first), self.chain(e.second)),
            Kind::UnaryExpr => Node::UnaryExpr(boxed(e.first)),
            Kind::RefDot => Node::RefDot(boxed(e.first), self.name(e.name)),
            Kind::RefBrack => Node::RefBrack(boxed(e.first), boxed(e.second)),
            Kind::BinExpr => Node::BinExpr(boxed(e.first), boxed(e.second)),
            Kind::BoolExpr => Node::BoolExpr(boxed(e.first), boxed(e.second)),
            Kind::ArithExpr => Node::ArithExpr(boxed(e.first), boxed(e.second)),
            Kind::AssignEq => Node::AssignEq(boxed(e.first), boxed(e.second)),
            Kind::AssignColEq => Node::AssignColEq(boxed(e.first), boxed(e.second)),
            Kind::Membership => Node::Membership(
                (e.first != 0).then(|| boxed(e.first)),
                boxed(e.second),
                boxed(e.third),
            ),
        }
    }
}
