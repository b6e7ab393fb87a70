//! Makes a sheet on which the two sides differ smaller.

use super::{Call, Difference, Lent};
use sheets::limits::LIBRARY;
use sheets::{check, shrink};

/// How many sheets are tried at most.
const MOST_CALLS: usize = 20_000;

/// A smaller sheet with a difference, on buffers of the same lengths. Its difference may be
/// another one.
pub fn smaller<C: Call>(first: Difference) -> Difference {
    oracle::on_deep_stack(|| {
        let mut search = Search::<C> {
            lent: Lent::new(first.lengths),
            least: first,
            calls_left: MOST_CALLS,
        };
        // Rows of a valid sheet go by trees: a row alone can rarely be left out.
        if let Ok(sheet) = check::check_text(&search.least.sheet, LIBRARY) {
            shrink::shrink(&sheet, |smaller| search.differs(smaller.text().as_bytes()));
        }
        search.without_lines();
        search.without_bytes();
        search.least
    })
}

struct Search<C> {
    lent: Lent<C>,
    least: Difference,
    calls_left: usize,
}

impl<C: Call> Search<C> {
    /// Do the two differ on this sheet too? The least one is kept.
    fn differs(&mut self, sheet: &[u8]) -> bool {
        if self.calls_left == 0 {
            return false;
        }
        self.calls_left -= 1;
        let Err(difference) = self.lent.compare(sheet) else {
            return false;
        };
        if difference.sheet.len() < self.least.sheet.len() {
            self.least = difference;
        }
        true
    }

    /// Runs of lines go, long ones first.
    fn without_lines(&mut self) {
        let mut run = lines(&self.least.sheet).len();
        while run > 0 && self.calls_left > 0 {
            let mut at = 0;
            loop {
                let kept = lines(&self.least.sheet);
                if at + run > kept.len() {
                    break;
                }
                let shorter = [&kept[..at], &kept[at + run..]].concat().concat();
                if !self.differs(&shorter) {
                    at += run;
                }
            }
            run /= 2;
        }
    }

    fn without_bytes(&mut self) {
        let mut at = 0;
        while at < self.least.sheet.len() && self.calls_left > 0 {
            let mut shorter = self.least.sheet.clone();
            shorter.remove(at);
            if !self.differs(&shorter) {
                at += 1;
            }
        }
    }
}

fn lines(sheet: &[u8]) -> Vec<&[u8]> {
    sheet.split_inclusive(|&byte| byte == b'\n').collect()
}
