//! Numbered cases on all cores.

use super::{smaller::smaller, Call, Comparer, Difference, Tally};
use std::sync::atomic::{AtomicBool, AtomicU64, Ordering};
use std::thread;

/// Runs every case below `count`, with answers of so many bytes. A difference is that of the first
/// case with one, made smaller, however many threads there are.
pub fn spread<C: Call>(
    answer: usize,
    count: u64,
    case: impl Fn(&mut Comparer<C>, u64) -> Result<(), Difference> + Sync,
) -> Result<Tally, Difference> {
    let threads = thread::available_parallelism().map_or(1, usize::from);
    // Whoever has taken some cases finishes them, so the first of all is among those found.
    let some = (count / (threads as u64 * 50)).clamp(1, 10_000);
    let (next, stop) = (AtomicU64::new(0), AtomicBool::new(false));
    let run = || {
        let mut comparer = Comparer::new(answer);
        while !stop.load(Ordering::Relaxed) {
            let first = next.fetch_add(some, Ordering::Relaxed);
            if first >= count {
                break;
            }
            for number in first..count.min(first + some) {
                if let Err(difference) = case(&mut comparer, number) {
                    stop.store(true, Ordering::Relaxed);
                    return Err((number, difference));
                }
            }
        }
        Ok(comparer.tally)
    };
    let ends: Vec<_> = thread::scope(|scope| {
        let deep = || oracle::on_deep_stack(run);
        let running: Vec<_> = (0..threads).map(|_| scope.spawn(deep)).collect();
        let join = |thread: thread::ScopedJoinHandle<'_, _>| thread.join().expect("a whole run");
        running.into_iter().map(join).collect()
    });
    let mut tally = Tally::default();
    let mut found: Vec<(u64, Difference)> = Vec::new();
    for end in ends {
        match end {
            Ok(more) => tally += more,
            Err(difference) => found.push(difference),
        }
    }
    match found.into_iter().min_by_key(|(number, _)| *number) {
        None => Ok(tally),
        Some((_, first)) => Err(smaller::<C>(first)),
    }
}
