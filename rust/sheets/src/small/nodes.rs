//! The kinds of expressions, by how many parts they have.

use crate::tree::{Expr, Node, Query};
use std::sync::Arc;

/// Which kinds there are.
#[derive(Clone, Copy, Debug, PartialEq, Eq)]
pub enum Kinds {
    All,
    /// One of those that the analysis does not tell apart: Number for every constant but a String,
    /// which may be part of a path; ArithExpr for BinExpr and BoolExpr; ArrayCompr for SetCompr.
    Distinct,
}

/// Makes a node of its parts.
type Whole = Arc<dyn Fn(Vec<Expr>) -> Node + Send + Sync>;

/// Makes a comprehension of its terms and its query.
type Compr = fn(Vec<Expr>, Query) -> Node;

pub struct Nodes {
    pub kinds: Kinds,
    pub names: [&'static str; 2],
}

fn boxed<const N: usize>(parts: Vec<Expr>) -> [Box<Expr>; N] {
    let parts: Vec<Box<Expr>> = parts.into_iter().map(Box::new).collect();
    parts.try_into().expect("as many parts as the kind has")
}

fn one(make: impl Fn(Box<Expr>) -> Node + Send + Sync + 'static) -> Whole {
    Arc::new(move |parts| {
        let [part] = boxed(parts);
        make(part)
    })
}

fn two(make: fn(Box<Expr>, Box<Expr>) -> Node) -> Whole {
    Arc::new(move |parts| {
        let [first, second] = boxed(parts);
        make(first, second)
    })
}

fn object(parts: Vec<Expr>) -> Node {
    let mut parts = parts.into_iter();
    let mut fields = Vec::new();
    while let (Some(key), Some(value)) = (parts.next(), parts.next()) {
        fields.push((key, value));
    }
    Node::Object(fields)
}

fn call(mut parts: Vec<Expr>) -> Node {
    let params = parts.split_off(1);
    let [function] = boxed(parts);
    Node::Call(function, params)
}

fn membership_of_key(parts: Vec<Expr>) -> Node {
    let [key, value, collection] = boxed(parts);
    Node::Membership(Some(key), value, collection)
}

impl Nodes {
    fn all(&self) -> bool {
        self.kinds == Kinds::All
    }

    pub fn vars(&self) -> Vec<Expr> {
        let var = |name: &str| Node::Var(name.to_string()).unplaced();
        self.names.map(var).to_vec()
    }

    /// The kinds that have no parts ever.
    pub fn leaves(&self) -> Vec<Node> {
        let [first, second] = self.names;
        let text = |name: &str| Node::String(Some(name.to_string()));
        let mut leaves: Vec<Node> = self.vars().into_iter().map(|var| var.node).collect();
        leaves.extend([Node::Number, text(first)]);
        if self.all() {
            leaves.extend([text(second), Node::String(None)]);
            leaves.extend([Node::RawString, Node::Bool, Node::Null]);
        }
        leaves
    }

    /// The kinds that so many parts make.
    pub fn wholes(&self, parts: usize) -> Vec<Whole> {
        let mut wholes: Vec<Whole> = vec![Arc::new(Node::Array), Arc::new(Node::Set)];
        if parts.is_multiple_of(2) {
            wholes.push(Arc::new(object));
        }
        if parts >= 1 {
            wholes.push(Arc::new(call));
        }
        match parts {
            1 => {
                wholes.push(one(Node::UnaryExpr));
                let dot = |name: &'static str| one(move |e| Node::RefDot(e, name.to_string()));
                wholes.extend(self.names.map(dot));
            }
            2 => {
                let member = |value, collection| Node::Membership(None, value, collection);
                wholes.extend([two(Node::RefBrack), two(member), two(Node::ArithExpr)]);
                wholes.extend([two(Node::AssignEq), two(Node::AssignColEq)]);
                if self.all() {
                    wholes.extend([two(Node::BinExpr), two(Node::BoolExpr)]);
                }
            }
            3 => wholes.push(Arc::new(membership_of_key)),
            _ => {}
        }
        wholes
    }

    /// The comprehensions of one term, or of two.
    pub fn comprs(&self, terms: usize) -> Vec<Compr> {
        let mut comprs: Vec<Compr> = Vec::new();
        if terms == 1 {
            comprs.push(|terms, query| {
                let [term] = boxed(terms);
                Node::ArrayCompr(term, query)
            });
            if self.all() {
                comprs.push(|terms, query| {
                    let [term] = boxed(terms);
                    Node::SetCompr(term, query)
                });
            }
        }
        if terms == 2 {
            comprs.push(|terms, query| {
                let [key, value] = boxed(terms);
                Node::ObjectCompr(key, value, query)
            });
        }
        comprs
    }
}
