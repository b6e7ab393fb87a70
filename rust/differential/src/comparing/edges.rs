//! The edges of the specification, whatever call is compared, with its limits.

use super::{spread, Call, Difference, Tally};
use sheets::rng::Rng;
use sheets::{damage, edges};

/// Every edge, and each that passes with so many different faults; with answers of so many bytes.
pub fn compare_edges<C: Call>(answer: usize, faults: u64) -> Result<Tally, Difference> {
    let edges = edges::edges(C::LIMITS);
    spread::<C>(answer, edges.len() as u64, |comparer, number| {
        let edge = &edges[number as usize];
        comparer.compare(&edge.text)?;
        if edge.expected.is_ok() {
            let mut rng = Rng::new(number);
            for _ in 0..faults {
                comparer.compare(&damage::damage(&edge.text, &mut rng))?;
            }
        }
        Ok(())
    })
}
