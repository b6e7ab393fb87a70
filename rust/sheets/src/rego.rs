//! Queries read from Rego text, with the places that their parts have in it, so that a test's
//! query is what its label says. It is the part of the language that tests write: no rules,
//! comments, raw strings, escapes, unary operators, operators on sets, or keys before `in`.

mod tokens;

use crate::tree::{Expr, Literal, Node, Position, Query, Statement};
use tokens::{is_word, tokens, Token};

/// # Panics
/// Where the text is not of this part of the language.
pub fn query(text: &str) -> Query {
    let mut reader = Reader {
        tokens: tokens(text),
        next: 0,
    };
    let statements = reader.statements(None);
    Query { statements }
}

/// A word that begins a statement or stands in one, and is no variable.
const KEYWORDS: [&str; 9] = [
    "some", "every", "in", "not", "with", "as", "true", "false", "null",
];

struct Reader {
    tokens: Vec<(Token, Position)>,
    next: usize,
}

type Infix = fn(Box<Expr>, Box<Expr>) -> Node;

impl Reader {
    fn peek(&self) -> Option<&Token> {
        self.tokens.get(self.next).map(|(token, _)| token)
    }

    fn place(&self) -> Position {
        let (_, at) = self.tokens.get(self.next).expect("more text");
        *at
    }

    fn sees(&self, sign: &str) -> bool {
        match self.peek() {
            Some(Token::Sign(s)) => *s == sign,
            Some(Token::Word(w)) => w == sign && KEYWORDS.contains(&sign),
            _ => false,
        }
    }

    fn takes(&mut self, sign: &str) -> bool {
        let seen = self.sees(sign);
        self.next += usize::from(seen);
        seen
    }

    fn expect(&mut self, sign: &str) {
        let found = self.tokens.get(self.next).cloned();
        assert!(self.takes(sign), "`{sign}` wanted, not {found:?}");
    }

    /// The node that the sign makes which comes next, if it is one of these.
    fn takes_infix(&mut self, infixes: &[(&str, Infix)]) -> Option<Infix> {
        let (_, node) = *infixes.iter().find(|(sign, _)| self.sees(sign))?;
        self.next += 1;
        Some(node)
    }

    // ---- statements

    /// Statements up to the sign that ends them, or to the end of the text.
    fn statements(&mut self, end: Option<&str>) -> Vec<Statement> {
        let mut statements = Vec::new();
        loop {
            while self.takes(";") || self.takes("\n") {}
            let ends = match end {
                Some(end) => self.takes(end),
                None => self.peek().is_none(),
            };
            if ends {
                return statements;
            }
            statements.push(self.statement());
            let ends = end.is_some_and(|end| self.sees(end));
            let parted = ends || self.sees(";") || self.sees("\n");
            assert!(parted, "a statement's end wanted, not {:?}", self.peek());
        }
    }

    fn statement(&mut self) -> Statement {
        let literal = if self.takes("some") {
            self.some()
        } else if self.takes("every") {
            self.every()
        } else if self.takes("not") {
            Literal::NotExpr(self.expr())
        } else {
            Literal::Expr(self.expr())
        };
        let mut with = Vec::new();
        while self.takes("with") {
            // What is replaced has no row.
            self.reference();
            self.expect("as");
            with.push(self.sum());
        }
        Statement { literal, with }
    }

    fn some(&mut self) -> Literal {
        let mut names = self.listed(Reader::sum);
        if !self.takes("in") {
            return Literal::SomeVars(names);
        }
        let collection = self.sum();
        let value = names.pop().expect("a value");
        let key = names.pop();
        assert!(names.is_empty(), "a key and a value at most");
        Literal::SomeIn(key, value, collection)
    }

    fn every(&mut self) -> Literal {
        let mut names = self.listed(Reader::reference);
        self.expect("in");
        let domain = self.sum();
        self.expect("{");
        let statements = self.statements(Some("}"));
        let value = names.pop().expect("a value");
        Literal::Every(names.pop(), value, domain, Query { statements })
    }

    /// One or more, with commas between.
    fn listed<T>(&mut self, item: fn(&mut Reader) -> T) -> Vec<T> {
        let mut items = vec![item(self)];
        while self.takes(",") {
            items.push(item(self));
        }
        items
    }

    // ---- expressions

    fn expr(&mut self) -> Expr {
        let infixes: [(&str, Infix); 2] = [(":=", Node::AssignColEq), ("=", Node::AssignEq)];
        let left = self.membership();
        match self.takes_infix(&infixes) {
            Some(node) => {
                let right = self.membership();
                joined(node, left, right)
            }
            None => left,
        }
    }

    fn membership(&mut self) -> Expr {
        let left = self.comparison();
        if !self.takes("in") {
            return left;
        }
        let (at, collection) = (left.at, self.comparison());
        Node::Membership(None, left.into(), collection.into()).at(at.line, at.col)
    }

    fn comparison(&mut self) -> Expr {
        let infixes =
            ["==", "!=", "<=", ">=", "<", ">"].map(|sign| (sign, Node::BoolExpr as Infix));
        self.chained(Reader::sum, &infixes)
    }

    fn sum(&mut self) -> Expr {
        let infixes = ["+", "-"].map(|sign| (sign, Node::ArithExpr as Infix));
        self.chained(Reader::product, &infixes)
    }

    fn product(&mut self) -> Expr {
        let infixes = ["*", "/", "%"].map(|sign| (sign, Node::ArithExpr as Infix));
        self.chained(Reader::reference, &infixes)
    }

    fn chained(&mut self, part: fn(&mut Reader) -> Expr, infixes: &[(&str, Infix)]) -> Expr {
        let mut left = part(self);
        while let Some(node) = self.takes_infix(infixes) {
            let right = part(self);
            left = joined(node, left, right);
        }
        left
    }

    /// A term with the fields, brackets and parameters behind it.
    fn reference(&mut self) -> Expr {
        let mut expr = self.term();
        loop {
            let at = expr.at;
            let node = if self.takes(".") {
                Node::RefDot(expr.into(), self.word())
            } else if self.takes("[") {
                let index = self.expr();
                self.expect("]");
                Node::RefBrack(expr.into(), index.into())
            } else if self.takes("(") {
                Node::Call(expr.into(), self.items(")"))
            } else {
                return expr;
            };
            expr = node.at(at.line, at.col);
        }
    }

    fn word(&mut self) -> String {
        let Some(Token::Word(word)) = self.peek() else {
            panic!("a name wanted, not {:?}", self.peek());
        };
        let word = word.clone();
        self.next += 1;
        word
    }

    /// Items up to the sign that ends them.
    fn items(&mut self, end: &str) -> Vec<Expr> {
        if self.takes(end) {
            return Vec::new();
        }
        let items = self.listed(Reader::expr);
        self.expect(end);
        items
    }

    fn term(&mut self) -> Expr {
        let at = self.place();
        let node = if self.takes("[") {
            self.array()
        } else if self.takes("{") {
            self.braces()
        } else if self.takes("true") || self.takes("false") {
            Node::Bool
        } else if self.takes("null") {
            Node::Null
        } else {
            self.leaf()
        };
        node.at(at.line, at.col)
    }

    fn leaf(&mut self) -> Node {
        let token = self.peek().cloned();
        self.next += 1;
        match token {
            Some(Token::Number) => Node::Number,
            Some(Token::Text(text)) => Node::String(is_word(&text).then_some(text)),
            Some(Token::Word(word)) if !KEYWORDS.contains(&word.as_str()) => Node::Var(word),
            other => panic!("a term wanted, not {other:?}"),
        }
    }

    fn array(&mut self) -> Node {
        if self.takes("]") {
            return Node::Array(Vec::new());
        }
        let first = self.expr();
        if self.takes("|") {
            let statements = self.statements(Some("]"));
            return Node::ArrayCompr(first.into(), Query { statements });
        }
        Node::Array(self.items_from(first, "]"))
    }

    /// An object, a set, or a comprehension of one.
    fn braces(&mut self) -> Node {
        if self.takes("}") {
            return Node::Object(Vec::new());
        }
        let first = self.expr();
        if self.takes(":") {
            return self.object(first);
        }
        if self.takes("|") {
            let statements = self.statements(Some("}"));
            return Node::SetCompr(first.into(), Query { statements });
        }
        Node::Set(self.items_from(first, "}"))
    }

    /// The items of an array or a set, the first of which is read.
    fn items_from(&mut self, first: Expr, end: &str) -> Vec<Expr> {
        let mut items = vec![first];
        if self.takes(",") {
            items.extend(self.listed(Reader::expr));
        }
        self.expect(end);
        items
    }

    fn object(&mut self, key: Expr) -> Node {
        let value = self.expr();
        if self.takes("|") {
            let statements = self.statements(Some("}"));
            return Node::ObjectCompr(key.into(), value.into(), Query { statements });
        }
        let mut fields = vec![(key, value)];
        while self.takes(",") {
            let key = self.expr();
            self.expect(":");
            fields.push((key, self.expr()));
        }
        self.expect("}");
        Node::Object(fields)
    }
}

/// An infix expression begins where its first part does.
fn joined(node: Infix, left: Expr, right: Expr) -> Expr {
    let at = left.at;
    node(left.into(), right.into()).at(at.line, at.col)
}
