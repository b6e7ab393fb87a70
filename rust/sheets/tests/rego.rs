//! Rego text is read into the trees that it stands for.

use sheets::tree::{Expr, Literal, Node, Query, Statement};
use sheets::{examples, rego};

#[test]
fn the_trial_queries_are_read_with_their_places() {
    let texts = [
        "y = x\nx = input.a",
        "x := x + 1",
        "x > 0\nx := 1",
        "z > 0",
        "not f(1, n)",
    ];
    let trials = examples::trials();
    assert_eq!(trials.len(), texts.len());
    for (trial, text) in trials.iter().zip(texts) {
        assert_eq!(rego::query(text), trial.snippet.query, "{text}");
    }
}

fn var(name: &str, line: u16, col: u16) -> Expr {
    Node::Var(name.to_string()).at(line, col)
}

/// The one statement that a text has.
fn statement(text: &str) -> Statement {
    let Query { statements } = rego::query(text);
    <[Statement; 1]>::try_from(statements).expect("one statement")[0].clone()
}

fn expr(text: &str) -> Node {
    match statement(text).literal {
        Literal::Expr(e) => e.node,
        other => panic!("no expression: {other:?}"),
    }
}

#[test]
fn every_form_is_read() {
    let number = |col| Node::Number.at(1, col);
    let some = Literal::SomeVars(vec![var("x", 1, 6), var("y", 1, 9)]);
    assert_eq!(statement("some x, y").literal, some);
    let some_in = Literal::SomeIn(Some(var("k", 1, 6)), var("v", 1, 9), var("c", 1, 14));
    assert_eq!(statement("some k, v in c").literal, some_in);
    let some_in = Literal::SomeIn(None, var("v", 1, 6), var("c", 1, 11));
    assert_eq!(statement("some v in c").literal, some_in);
    let statements = vec![Literal::NotExpr(var("v", 1, 25)).plain()];
    let every = Literal::Every(
        Some(var("k", 1, 7)),
        var("v", 1, 10),
        Node::Array(vec![number(16)]).at(1, 15),
        Query { statements },
    );
    assert_eq!(statement("every k, v in [1] { not v }").literal, every);
    let with = statement("x with input.a as 1 with data as y").with;
    assert_eq!(with, [number(19), var("y", 1, 34)]);
}

#[test]
fn kinds_are_read() {
    let x = |col| Box::new(var("x", 1, col));
    let one = |col| Node::Number.at(1, col);
    let body = |col| Query {
        statements: vec![Literal::Expr(*x(col)).plain()],
    };
    let is = |text: &str, node: Node| assert_eq!(expr(text), node, "{text}");
    is("\"a\"", Node::String(Some("a".into())));
    is("\"1 a\"", Node::String(None));
    is("true", Node::Bool);
    is("null", Node::Null);
    is("[]", Node::Array(vec![]));
    is("[x, 1]", Node::Array(vec![*x(2), one(5)]));
    is("{x, 1}", Node::Set(vec![*x(2), one(5)]));
    is("{}", Node::Object(vec![]));
    is("{1: x}", Node::Object(vec![(one(2), *x(5))]));
    is("[x | x]", Node::ArrayCompr(x(2), body(6)));
    is("{x | x}", Node::SetCompr(x(2), body(6)));
    is("{x: x | x}", Node::ObjectCompr(x(2), x(5), body(9)));
    is("x(1, x)", Node::Call(x(1), vec![one(3), *x(6)]));
    is("x.a", Node::RefDot(x(1), "a".into()));
    is("x[x]", Node::RefBrack(x(1), x(3)));
    is("x == 1", Node::BoolExpr(x(1), one(6).into()));
    is("x = 1", Node::AssignEq(x(1), one(5).into()));
    is("x := 1", Node::AssignColEq(x(1), one(6).into()));
    is("x in x", Node::Membership(None, x(1), x(6)));
    let product = Node::ArithExpr(x(5), one(9).into()).at(1, 5);
    is("x + x * 1", Node::ArithExpr(x(1), product.into()));
}

#[test]
fn statements_stand_on_lines_or_between_semicolons() {
    let lines: Vec<u16> = rego::query("x; x\n\n  x\n[1 |\nx]")
        .statements
        .iter()
        .map(|s| s.exprs()[0].at.line)
        .collect();
    assert_eq!(lines, [1, 1, 3, 4]);
}
