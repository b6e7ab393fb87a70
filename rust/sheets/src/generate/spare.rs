//! Names that nothing uses. Names stand in byte order, and a name's row is its number, so spare
//! names decide in which rows, and in which words of a set, the used ones lie.

use crate::rng::Rng;
use crate::sheet::limits::{LIBRARY, PRINTING};
use crate::tree::Snippet;

/// Adds spare names, so that there are 128 to 511 names.
pub(super) fn fill(snippet: &mut Snippet, rng: &mut Rng) {
    let used = snippet.names();
    let low = PRINTING.names + 1;
    let count = match rng.weighted(&[60, 25, 15]) {
        0 => rng.between(low, LIBRARY.names),
        // About where a word of a set ends.
        1 => (64 * rng.between(2, 8) + rng.below(3)).clamp(low + 1, LIBRARY.names + 1) - 1,
        _ => LIBRARY.names,
    };
    let spare = count.saturating_sub(used.len());
    let gaps = match rng.below(3) {
        0 => scattered(used.len(), spare, rng),
        1 => clumped(used.len(), spare, rng),
        _ => about_borders(used.len(), spare, rng),
    };
    for (gap, spare) in gaps.into_iter().enumerate() {
        // Digits come before what any used name goes on with, so these stand behind that name; the
        // first ones stand before all.
        let stem = if gap == 0 { "A" } else { &used[gap - 1] };
        let digits = if spare > 100 { 3 } else { 2 };
        let name = |number| format!("{stem}{number:0digits$}");
        snippet.spare_names.extend((0..spare).map(name));
    }
}

/// How many spare names stand before each used one, and behind the last.
type Gaps = Vec<usize>;

/// Anywhere.
fn scattered(used: usize, spare: usize, rng: &mut Rng) -> Gaps {
    let mut gaps = vec![0; used + 1];
    for _ in 0..spare {
        gaps[rng.below(used + 1)] += 1;
    }
    gaps
}

/// In a few places.
fn clumped(used: usize, spare: usize, rng: &mut Rng) -> Gaps {
    let mut gaps = vec![0; used + 1];
    let places: Vec<usize> = (0..rng.between(1, 4))
        .map(|_| rng.below(used + 1))
        .collect();
    for _ in 0..spare {
        gaps[*rng.pick(&places)] += 1;
    }
    gaps
}

/// So that used names lie in the last row of a word and in the first of the next.
fn about_borders(used: usize, spare: usize, rng: &mut Rng) -> Gaps {
    let mut gaps = vec![0; used + 1];
    let chance = *rng.pick(&[30, 60, 100]);
    let (mut row, mut left) = (1, spare);
    for gap in &mut gaps[..used] {
        let border = (row..).find(|r| matches!(r % 64, 0 | 63));
        let before = border.map_or(0, |border| border - row);
        if before <= left && rng.percent(chance) {
            *gap = before;
            left -= before;
            row += before;
        }
        row += 1;
    }
    gaps[used] = left;
    gaps
}
