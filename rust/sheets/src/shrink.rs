//! Makes a failing sheet small, so that a reader sees what matters.

mod edits;
mod walk;

use crate::check::check;
use crate::layout::Numbering;
use crate::rng::Rng;
use crate::sheet::limits::LIBRARY;
use crate::sheet::{Form, Kind, Sheet};
use crate::tree::Snippet;
use edits::Edit;

/// How often [`shrink`] calls the predicate at most.
pub const MOST_CALLS: usize = 20_000;

/// A smaller valid sheet on which `still_fails` holds. Valid is what the library takes; the printing
/// program takes no other.
///
/// The sheet is taken apart into its trees, and whatever can go goes, greedily, until no single
/// step helps. Rows come out in reading order, unless the failure needs another order; where no
/// renumbering fails, the sheet itself comes back.
///
/// # Panics
/// Where the sheet is not valid.
pub fn shrink(sheet: &Sheet, still_fails: impl FnMut(&Sheet) -> bool) -> Sheet {
    if let Err(fault) = check(sheet, LIBRARY) {
        panic!("only a valid sheet can be shrunk: {fault}");
    }
    let mut trial = Trial {
        still_fails,
        calls_left: MOST_CALLS,
    };
    let snippet = Snippet::of_sheet(sheet);
    let orders = (0..8).map(|seed| Numbering::Shuffled(Rng::new(seed)));
    let numbering = std::iter::once(Numbering::Reading)
        .chain(orders)
        .find(|numbering| trial.fails(&snippet.numbered(numbering.clone())));
    let Some(numbering) = numbering else {
        return sheet.clone();
    };
    let mut search = Search {
        size: size(&snippet.numbered(numbering.clone())),
        best: snippet,
        numbering,
        trial,
    };
    loop {
        let before = search.size;
        for list in [edits::of_rows, edits::of_names, edits::of_positions] {
            search.exhaust(list);
        }
        if search.size == before {
            return search.result();
        }
    }
}

/// The predicate and how often it may still be called.
struct Trial<F> {
    still_fails: F,
    calls_left: usize,
}

impl<F: FnMut(&Sheet) -> bool> Trial<F> {
    fn fails(&mut self, sheet: &Sheet) -> bool {
        if self.calls_left == 0 || check(sheet, LIBRARY).is_err() {
            return false;
        }
        self.calls_left -= 1;
        (self.still_fails)(sheet)
    }
}

struct Search<F> {
    /// The smallest failing trees so far; with this numbering they fail.
    best: Snippet,
    size: Size,
    numbering: Numbering,
    trial: Trial<F>,
}

impl<F: FnMut(&Sheet) -> bool> Search<F> {
    /// Tries a list of edits in order. After one that helps, the list is made anew and the
    /// search goes on at the same place, since the edits before it have just been tried.
    fn exhaust(&mut self, list: fn(&Snippet) -> Vec<Edit>) {
        let mut edits = list(&self.best);
        let mut at = 0;
        while at < edits.len() && self.trial.calls_left > 0 {
            let mut candidate = self.best.clone();
            edits[at](&mut candidate);
            if self.takes(candidate) {
                edits = list(&self.best);
            } else {
                at += 1;
            }
        }
    }

    /// Takes a candidate that is smaller and still fails.
    fn takes(&mut self, candidate: Snippet) -> bool {
        let sheet = candidate.numbered(self.numbering.clone());
        let size = size(&sheet);
        let taken = size < self.size && self.trial.fails(&sheet);
        if taken {
            (self.best, self.size) = (candidate, size);
        }
        taken
    }

    fn result(mut self) -> Sheet {
        let reading = self.best.sheet();
        if self.trial.fails(&reading) {
            reading
        } else {
            self.best.numbered(self.numbering)
        }
    }
}

/// What is to become smaller, the most important first: rows, names, rows that are no plain
/// leaf or statement, and numbers. It falls with every step, so the search ends.
type Size = [usize; 4];

fn size(sheet: &Sheet) -> Size {
    let sum = |numbers: &mut dyn Iterator<Item = u16>| numbers.map(usize::from).sum::<usize>();
    let parts = sheet.builtins.iter().flat_map(|b| b.path);
    let exprs = sheet.exprs.iter().map(|row| row.kind);
    let forms = sheet.statements.iter().map(|row| row.form);
    [
        sheet.builtins.len() + sheet.exprs.len() + sheet.statements.len() + sheet.queries.len(),
        sheet.names.len(),
        parts.filter(|&part| part != 0).count()
            + exprs.filter(|&kind| kind != Kind::Number as u16).count()
            + forms.filter(|&form| form != Form::Expr as u16).count(),
        sum(&mut sheet.builtins.iter().map(|b| b.arity))
            + sum(&mut sheet.exprs.iter().flat_map(|row| [row.line, row.col])),
    ]
}
