//! Every small snippet: all trees of up to so many statements and expressions over two names, each
//! by its number, so that none has to be written out beforehand.

mod listing;
mod nodes;

use crate::tree::{Builtin, Expr, Literal, Query, Snippet, Statement};
pub use listing::Listing;
pub use nodes::Kinds;
use nodes::Nodes;
use std::collections::BTreeMap;

/// The snippets of up to so many expressions and statements, nested ones included, without
/// positions. The first name is a built-in of arity 0, and the two joined by a dot are one of arity
/// 1, so that some calls have an extra argument.
pub fn snippets(
    kinds: Kinds,
    names: [&'static str; 2],
    exprs: usize,
    statements: usize,
) -> Listing<Snippet> {
    let mut parts = Parts {
        nodes: Nodes { kinds, names },
        exprs: BTreeMap::new(),
        chains: BTreeMap::new(),
        queries: BTreeMap::new(),
    };
    let sizes = (0..=exprs).flat_map(|e| (0..=statements).map(move |s| (e, s)));
    let queries = Listing::joined(sizes.map(|size| parts.queries(size)));
    queries.map(move |query| Snippet {
        spare_names: Vec::new(),
        builtins: vec![builtin(0, &names[..1]), builtin(1, &names)],
        query,
    })
}

fn builtin(arity: u16, path: &[&str]) -> Builtin {
    Builtin {
        arity,
        path: path.iter().map(|part| part.to_string()).collect(),
    }
}

/// How many expressions and how many statements there are in something.
type Size = (usize, usize);

/// Every two sizes that add up to this one.
fn splits((exprs, statements): Size) -> impl Iterator<Item = [Size; 2]> {
    (0..=exprs)
        .flat_map(move |e| (0..=statements).map(move |s| [(e, s), (exprs - e, statements - s)]))
}

/// What there is of each size, exactly; chains by their length too.
struct Parts {
    nodes: Nodes,
    exprs: BTreeMap<Size, Listing<Expr>>,
    chains: BTreeMap<(usize, Size), Listing<Vec<Expr>>>,
    queries: BTreeMap<Size, Listing<Query>>,
}

impl Parts {
    fn exprs(&mut self, size: Size) -> Listing<Expr> {
        if let Some(known) = self.exprs.get(&size) {
            return known.clone();
        }
        let mut all = Vec::new();
        if size == (1, 0) {
            all.push(Listing::of(self.nodes.leaves()));
        }
        if let (exprs @ 1.., statements) = size {
            let below = (exprs - 1, statements);
            for length in 0..exprs {
                let wholes = Listing::of(self.nodes.wholes(length));
                all.push(wholes.with(&self.chains(length, below), |whole, parts| whole(parts)));
            }
            for terms in 1..=2 {
                let comprs = Listing::of(self.nodes.comprs(terms));
                for [own, inner] in splits(below) {
                    let pairs = self
                        .chains(terms, own)
                        .with(&self.queries(inner), |terms, query| (terms, query));
                    all.push(comprs.with(&pairs, |compr, (terms, query)| compr(terms, query)));
                }
            }
        }
        let all = Listing::joined(all).map(|node| node.unplaced());
        self.exprs.insert(size, all.clone());
        all
    }

    /// The chains of so many expressions.
    fn chains(&mut self, length: usize, size: Size) -> Listing<Vec<Expr>> {
        if let Some(known) = self.chains.get(&(length, size)) {
            return known.clone();
        }
        let mut all = Vec::new();
        if length == 0 {
            all.push(nothing(size));
        } else {
            for [first, rest] in splits(size) {
                let rest = self.chains(length - 1, rest);
                all.push(self.exprs(first).with(&rest, in_front));
            }
        }
        let all = Listing::joined(all);
        self.chains.insert((length, size), all.clone());
        all
    }

    fn queries(&mut self, size: Size) -> Listing<Query> {
        if let Some(known) = self.queries.get(&size) {
            return known.clone();
        }
        let mut all = vec![nothing(size)];
        for [first, rest] in splits(size) {
            if first.1 > 0 {
                let rest = self.queries(rest).map(|query| query.statements);
                all.push(self.statements(first).with(&rest, in_front));
            }
        }
        let all = Listing::joined(all).map(|statements| Query { statements });
        self.queries.insert(size, all.clone());
        all
    }

    /// Single statements.
    fn statements(&mut self, (exprs, statements): Size) -> Listing<Statement> {
        let below = (exprs, statements - 1);
        Listing::joined(splits(below).map(|[own, modifiers]| {
            let lengths = 0..=modifiers.0;
            let with = Listing::joined(lengths.map(|length| self.chains(length, modifiers)));
            self.literals(own)
                .with(&with, |literal, with| Statement { literal, with })
        }))
    }

    fn literals(&mut self, size: Size) -> Listing<Literal> {
        let one = self.chains(1, size).map(only);
        let mut all = vec![
            self.some_vars(size).map(Literal::SomeVars),
            one.map(Literal::Expr),
            one.map(Literal::NotExpr),
            self.chains(2, size).map(|parts| {
                let [value, collection] = whole(parts);
                Literal::SomeIn(None, value, collection)
            }),
            self.chains(3, size).map(|parts| {
                let [key, value, collection] = whole(parts);
                Literal::SomeIn(Some(key), value, collection)
            }),
        ];
        for length in 1..=size.0.min(2) {
            let vars = self.some_vars((length, 0));
            for [domain, body] in splits((size.0 - length, size.1)) {
                let domains = self.chains(1, domain).map(only);
                let pairs = domains.with(&self.queries(body), |domain, body| (domain, body));
                all.push(vars.with(&pairs, |mut vars, (domain, body)| {
                    let value = vars.pop().expect("a variable");
                    Literal::Every(vars.pop(), value, domain, body)
                }));
            }
        }
        Listing::joined(all)
    }

    /// Chains of variables, at least one.
    fn some_vars(&self, (exprs, statements): Size) -> Listing<Vec<Expr>> {
        if exprs == 0 || statements > 0 {
            return Listing::none();
        }
        let vars = Listing::of(self.nodes.vars());
        let one = vars.map(|var| vec![var]);
        (1..exprs).fold(one, |all, _| vars.with(&all, in_front))
    }
}

/// The empty list, if it has the size.
fn nothing<T: Clone + Send + Sync + 'static>(size: Size) -> Listing<Vec<T>> {
    match size {
        (0, 0) => Listing::of(vec![Vec::new()]),
        _ => Listing::none(),
    }
}

fn in_front<T>(first: T, mut rest: Vec<T>) -> Vec<T> {
    rest.insert(0, first);
    rest
}

fn only(parts: Vec<Expr>) -> Expr {
    let [part] = whole(parts);
    part
}

/// As many parts as there are.
fn whole<const N: usize>(parts: Vec<Expr>) -> [Expr; N] {
    parts.try_into().expect("a chain of that length")
}
