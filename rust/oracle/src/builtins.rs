//! Stand-in for the table of built-in functions: the sheet under analysis supplies it.

use std::cell::RefCell;
use std::collections::BTreeMap;

pub struct Builtins;

pub static BUILTINS: Builtins = Builtins;

thread_local! {
    static ARITIES: RefCell<BTreeMap<String, u8>> = const { RefCell::new(BTreeMap::new()) };
}

/// An entry of the original's table is a function and its arity. Only the arity is read, so one
/// entry for each arity serves every path.
const ENTRIES: [((), u8); 256] = {
    let mut entries = [((), 0); 256];
    let mut arity = 0;
    while arity < 256 {
        entries[arity].1 = arity as u8;
        arity += 1;
    }
    entries
};
static TABLE: [((), u8); 256] = ENTRIES;

impl Builtins {
    pub fn get(&self, path: &str) -> Option<&'static ((), u8)> {
        ARITIES.with_borrow(|arities| arities.get(path).map(|&arity| &TABLE[usize::from(arity)]))
    }

    /// Replaces the table for this thread.
    pub fn supply(&self, arities: BTreeMap<String, u8>) {
        ARITIES.set(arities);
    }
}
