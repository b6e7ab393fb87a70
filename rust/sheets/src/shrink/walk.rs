//! One walk over all trees of a snippet. It numbers the nodes, so that an edit can be listed
//! for a node in one copy and made in another.

use crate::tree::{Expr, Query, Snippet, Statement};

pub(super) enum Node<'a> {
    Query(&'a mut Query),
    Statement(&'a mut Statement),
    Expr(&'a mut Expr),
}

/// Visits each node before what stands below it. What a visit puts below a node is visited too.
pub(super) fn each(snippet: &mut Snippet, mut visit: impl FnMut(usize, Node)) {
    let mut number = 0;
    query(&mut snippet.query, &mut |node| {
        visit(number, node);
        number += 1;
    });
}

fn query(q: &mut Query, visit: &mut dyn FnMut(Node)) {
    visit(Node::Query(q));
    for s in &mut q.statements {
        visit(Node::Statement(s));
        for e in s.exprs_mut() {
            expr(e, visit);
        }
        if let Some(body) = s.body_mut() {
            query(body, visit);
        }
    }
}

fn expr(e: &mut Expr, visit: &mut dyn FnMut(Node)) {
    visit(Node::Expr(e));
    for child in e.children_mut() {
        expr(child, visit);
    }
    if let Some(inner) = e.query_mut() {
        query(inner, visit);
    }
}
