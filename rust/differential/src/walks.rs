//! The plain walk, written from the specification alone, to run its statements against the proved
//! scheduler: every ended walk takes what is marked reached, under relistings and exchanges too.

use sheets::lists::{permutation, shuffle, Definition, List, NAMES};
use sheets::rng::Rng;
use std::collections::BTreeSet;

/// Statements taken and names known, none at first.
#[derive(Clone, Debug, Default)]
pub struct Walk {
    pub taken: BTreeSet<u16>,
    known: BTreeSet<u16>,
}

impl Walk {
    /// A pick below the count and not yet taken is taken if it has definitions and they resolve in
    /// some sequence, each from names known or defined earlier in it; any other is skipped.
    pub fn pick(&mut self, list: &List, statement: u16) -> bool {
        if statement >= list.statements || self.taken.contains(&statement) {
            return false;
        }
        let of_statement = |d: &&Definition| d.statement == statement;
        let mut waiting: Vec<&Definition> = list.definitions.iter().filter(of_statement).collect();
        if waiting.is_empty() {
            return false;
        }
        let mut names = self.known.clone();
        loop {
            let resolves = |d: &&Definition| d.used.iter().all(|name| names.contains(name));
            let Some(next) = waiting.iter().position(|d| resolves(d)) else {
                break;
            };
            names.insert(waiting.remove(next).name);
        }
        if !waiting.is_empty() {
            return false;
        }
        self.known = names;
        self.taken.insert(statement);
        true
    }

    /// Would every pick be skipped?
    pub fn ended(&self, list: &List) -> bool {
        (0..list.statements).all(|s| !self.clone().pick(list, s))
    }

    /// A walk along random picks, some of them past the count or taken already, until it has ended.
    pub fn random(list: &List, rng: &mut Rng) -> Walk {
        let mut walk = Walk::default();
        while !walk.ended(list) {
            walk.pick(list, rng.below(usize::from(list.statements) + 2) as u16);
        }
        walk
    }
}

/// A list with its statements and names moved one to one, its definitions in another order and
/// some of them repeated. The maps say where each went.
pub struct Relisted {
    pub list: List,
    pub statements: Vec<u16>,
}

pub fn relist(list: &List, rng: &mut Rng) -> Relisted {
    let statements = permutation(usize::from(list.statements), rng);
    let names = permutation(NAMES, rng);
    let moved = |d: &Definition| Definition {
        statement: statements[usize::from(d.statement)],
        name: names[usize::from(d.name)],
        used: d.used.iter().map(|&u| names[usize::from(u)]).collect(),
    };
    let mut definitions: Vec<Definition> = list.definitions.iter().map(moved).collect();
    for _ in 0..rng.below(4) {
        if !definitions.is_empty() && definitions.len() < 640 {
            definitions.push(rng.pick(&definitions).clone());
        }
    }
    shuffle(&mut definitions, rng);
    Relisted {
        list: List {
            statements: list.statements,
            definitions,
        },
        statements,
    }
}
