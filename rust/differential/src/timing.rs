//! Times of calls, for the benchmarks.

use std::time::Instant;

/// Nanoseconds a call, again and again; the best of several runs.
pub fn best(call: &mut dyn FnMut()) -> f64 {
    let started = Instant::now();
    call();
    let once = started.elapsed().as_nanos().max(50);
    let calls = (200_000 / once).clamp(1, 2_000) as u32;
    let run = |call: &mut dyn FnMut()| {
        let started = Instant::now();
        for _ in 0..calls {
            call();
        }
        started.elapsed().as_nanos() as f64 / f64::from(calls)
    };
    (0..5).map(|_| run(call)).fold(f64::MAX, f64::min)
}

pub fn geometric_mean(values: impl Iterator<Item = f64>) -> f64 {
    let (mut sum, mut count) = (0.0, 0.0);
    for value in values {
        sum += value.ln();
        count += 1.0;
    }
    (sum / count).exp()
}
