//! The specification's worked example and trial queries.

use crate::lists::{Definition, List, Scheduled};
use crate::tree::{Builtin, Expr, Literal, Node, Query, Snippet, Statement};

fn var(name: &str, line: u16, col: u16) -> Box<Expr> {
    Box::new(Node::Var(name.to_string()).at(line, col))
}

fn number(line: u16, col: u16) -> Box<Expr> {
    Box::new(Node::Number.at(line, col))
}

fn snippet(statements: Vec<Statement>) -> Snippet {
    Snippet {
        query: Query { statements },
        ..Snippet::default()
    }
}

/// A snippet with the answer that the specification gives.
pub struct Example {
    pub label: &'static str,
    pub snippet: Snippet,
    pub answer: &'static str,
}

/// `y = x` and, below it, `x = input.a`.
pub fn worked() -> Example {
    let field = Node::RefDot(var("input", 2, 5), "a".to_string()).at(2, 5);
    Example {
        label: "y = x; x = input.a",
        snippet: snippet(vec![
            Literal::Expr(Node::AssignEq(var("y", 1, 1), var("x", 1, 5)).at(1, 1)).plain(),
            Literal::Expr(Node::AssignEq(var("x", 2, 1), Box::new(field)).at(2, 1)).plain(),
        ]),
        answer: "query placed input\n1 1 1\n\n\
                 query place index reached\n1 0 1 1\n1 1 0 1\n\n\
                 query set name line col\n1 2 3 0 0\n1 2 4 0 0\n\n",
    }
}

/// The trial queries that are sheets, the worked example first.
pub fn trials() -> Vec<Example> {
    let sum = Node::ArithExpr(var("x", 1, 6), number(1, 10)).at(1, 6);
    let mut negated_call = snippet(vec![Literal::NotExpr(
        Node::Call(var("f", 1, 5), vec![*number(1, 7), *var("n", 1, 10)]).at(1, 5),
    )
    .plain()]);
    negated_call.builtins.push(Builtin {
        arity: 1,
        path: vec!["f".to_string()],
    });
    vec![
        worked(),
        Example {
            label: "x := x + 1",
            snippet: snippet(vec![Literal::Expr(
                Node::AssignColEq(var("x", 1, 1), Box::new(sum)).at(1, 1),
            )
            .plain()]),
            answer: "query placed input\n1 1 0\n\n\
                     query place index reached\n1 0 0 1\n\n\
                     query set name line col\n1 1 1 1 1\n\n",
        },
        Example {
            label: "x > 0; x := 1",
            snippet: snippet(vec![
                Literal::Expr(Node::BoolExpr(var("x", 1, 1), number(1, 5)).at(1, 1)).plain(),
                Literal::Expr(Node::AssignColEq(var("x", 2, 1), number(2, 6)).at(2, 1)).plain(),
            ]),
            answer: "refusal line col\n12 1 1\n\n",
        },
        Example {
            label: "z > 0",
            snippet: snippet(vec![Literal::Expr(
                Node::BoolExpr(var("z", 1, 1), number(1, 5)).at(1, 1),
            )
            .plain()]),
            answer: "refusal line col\n11 1 1\n\n",
        },
        Example {
            label: "not f(1, n), f of arity 1",
            snippet: negated_call,
            answer: "query placed input\n1 0 0\n\n\
                     query place index reached\n1 0 0 0\n\n\
                     query set name line col\n1 2 2 0 0\n\n",
        },
    ]
}

/// A trial query that is a list of definitions, with what is to come out.
pub struct ListExample {
    pub label: &'static str,
    pub list: List,
    pub scheduled: Scheduled,
}

pub fn list_trials() -> Vec<ListExample> {
    // A definition is its statement, its name and the names used; the empty name is 0.
    type Short = (u16, u16, &'static [u16]);
    let list = |label, statements, short: &[Short], placed, order: &[u16], reached: &[bool]| {
        let definition = |&(statement, name, used): &Short| Definition {
            statement,
            name,
            used: used.to_vec(),
        };
        ListExample {
            label,
            list: List {
                statements,
                definitions: short.iter().map(definition).collect(),
            },
            scheduled: Scheduled {
                placed,
                order: order.to_vec(),
                reached: reached.to_vec(),
            },
        }
    };
    vec![
        list("none", 0, &[], true, &[], &[]),
        list("0:{x<-x}", 1, &[(0, 1, &[1])], false, &[0], &[false]),
        list(
            "0:{x<-y, y<-}",
            1,
            &[(0, 1, &[2]), (0, 2, &[])],
            true,
            &[0],
            &[true],
        ),
        list(
            "0:{x<-y} 1:{y<-}",
            2,
            &[(0, 1, &[2]), (1, 2, &[])],
            true,
            &[1, 0],
            &[true, true],
        ),
        list(
            "0:{x<-y} 1:{y<-x} 2:{e<-}",
            3,
            &[(0, 1, &[2]), (1, 2, &[1]), (2, 0, &[])],
            false,
            &[0, 1, 2],
            &[false, false, true],
        ),
        list(
            "0:{b<-} 1:{a<-} 2:{e<-a}",
            3,
            &[(0, 2, &[]), (1, 1, &[]), (2, 0, &[1])],
            true,
            &[1, 2, 0],
            &[true, true, true],
        ),
        list(
            "0:{} 1:{x<-}",
            2,
            &[(1, 1, &[])],
            false,
            &[0, 1],
            &[false, true],
        ),
    ]
}
