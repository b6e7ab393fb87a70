//! Lists of definitions, as the scheduler gets them, and how tests make them.

use crate::rng::Rng;

/// The names that a list may use: the empty one, 0, and 511 more.
pub const NAMES: usize = 512;
/// The words of a set of names.
pub const SET: usize = NAMES / 64;
/// The words of a row: statement, name, and the set of used names.
pub const ROW: usize = 2 + SET;

/// A definition by numbers; name 0 is the empty name.
#[derive(Clone, Debug, Default, PartialEq, Eq)]
pub struct Definition {
    pub statement: u16,
    pub name: u16,
    pub used: Vec<u16>,
}

#[derive(Clone, Debug, Default, PartialEq, Eq)]
pub struct List {
    pub statements: u16,
    pub definitions: Vec<Definition>,
}

/// What is made of a list.
#[derive(Clone, Debug, PartialEq, Eq)]
pub struct Scheduled {
    pub placed: bool,
    /// The order handed out: the written one where the list is not placed.
    pub order: Vec<u16>,
    /// By statement.
    pub reached: Vec<bool>,
}

impl List {
    /// The rows that the proved scheduler takes.
    pub fn rows(&self) -> Vec<u64> {
        let mut rows = Vec::with_capacity(ROW * self.definitions.len());
        for d in &self.definitions {
            let mut used = [0u64; SET];
            for &name in &d.used {
                used[usize::from(name) / 64] |= 1 << (name % 64);
            }
            rows.extend([u64::from(d.statement), u64::from(d.name)]);
            rows.extend(used);
        }
        rows
    }

    /// A list of any size up to the limits; mostly small.
    pub fn random(rng: &mut Rng) -> List {
        List::random_of(rng, any_names)
    }

    /// The same with names up to 127 alone.
    pub fn random_few(rng: &mut Rng) -> List {
        List::random_of(rng, few_names)
    }

    /// A random list over the names that are chosen for it.
    fn random_of(rng: &mut Rng, choose: fn(&mut Rng) -> Vec<u16>) -> List {
        let (statements, most) = match rng.weighted(&[40, 40, 14, 6]) {
            0 => (rng.between(0, 4), 8),
            1 => (rng.between(3, 12), 40),
            2 => (rng.between(13, 60), 200),
            _ => (rng.between(60, 128), 640),
        };
        let names = choose(rng);
        let uses = *rng.pick(&[1, 1, 2, 3, 6]);
        let mut definitions = Vec::new();
        for statement in 0..statements {
            // Mostly at least one, so that most lists have a chance to be placed.
            let low = usize::from(rng.percent(97));
            let high = *rng.pick(&[1, 1, 2, 3, 5]);
            for _ in 0..rng.between(low, high) {
                definitions.push(Definition {
                    statement: statement as u16,
                    name: name(rng, &names),
                    used: (0..rng.below(uses + 1))
                        .map(|_| name(rng, &names))
                        .collect(),
                });
            }
        }
        shuffle(&mut definitions, rng);
        definitions.truncate(most);
        List {
            statements: statements as u16,
            definitions,
        }
    }

    /// A list that takes as many rounds as there are statements: each waits for the one after it,
    /// and the names go the other way, so far apart.
    pub fn longest_rounds(statements: u16, repeats: usize, apart: u16) -> List {
        let name = |statement: u16| 1 + apart * statement;
        let mut definitions = Vec::new();
        for statement in 0..statements {
            let used = (statement + 1 < statements).then(|| name(statement + 1));
            for _ in 0..repeats {
                definitions.push(Definition {
                    statement,
                    name: name(statement),
                    used: used.into_iter().collect(),
                });
            }
        }
        List {
            statements,
            definitions,
        }
    }

    /// Every list of up to three statements over the empty name and two more, with up to
    /// `definitions` definitions, in every order.
    pub fn small(definitions: usize, mut visit: impl FnMut(&List)) {
        for statements in 0..=3 {
            let mut all = Vec::new();
            for statement in 0..statements {
                for name in 0..3 {
                    for set in 0..8u16 {
                        let used = (0..3).filter(|n| set >> n & 1 == 1).collect();
                        all.push(Definition {
                            statement,
                            name,
                            used,
                        });
                    }
                }
            }
            let mut list = List {
                statements,
                definitions: Vec::new(),
            };
            extend(&mut list, &all, definitions, &mut visit);
        }
    }
}

fn extend(list: &mut List, all: &[Definition], more: usize, visit: &mut impl FnMut(&List)) {
    visit(list);
    if more == 0 {
        return;
    }
    for definition in all {
        list.definitions.push(definition.clone());
        extend(list, all, more - 1, visit);
        list.definitions.pop();
    }
}

/// One of the names; the empty one often.
fn name(rng: &mut Rng, names: &[u16]) -> u16 {
    if rng.percent(25) {
        0
    } else {
        *rng.pick(names)
    }
}

/// The first few names, some more, or 128.
fn few_names(rng: &mut Rng) -> Vec<u16> {
    let count = match rng.weighted(&[30, 40, 30]) {
        0 => rng.between(1, 4),
        1 => rng.between(3, 20),
        _ => 128,
    };
    (0..count as u16).collect()
}

/// Few names; or all, some from anywhere, or those about the borders of a set's words.
fn any_names(rng: &mut Rng) -> Vec<u16> {
    let end = NAMES as u16;
    match rng.weighted(&[40, 10, 25, 25]) {
        0 => few_names(rng),
        1 => (0..end).collect(),
        2 => (0..rng.between(3, 20))
            .map(|_| rng.below(NAMES) as u16)
            .collect(),
        _ => (0..end)
            .filter(|name| matches!(name % 64, 0 | 63))
            .collect(),
    }
}

pub fn shuffle<T>(items: &mut [T], rng: &mut Rng) {
    for end in (1..items.len()).rev() {
        items.swap(end, rng.below(end + 1));
    }
}

/// A random one-to-one map of the numbers below `end`.
pub fn permutation(end: usize, rng: &mut Rng) -> Vec<u16> {
    let mut numbers: Vec<u16> = (0..end as u16).collect();
    shuffle(&mut numbers, rng);
    numbers
}
