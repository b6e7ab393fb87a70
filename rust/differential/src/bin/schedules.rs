//! `schedules [COUNT [SEED]]`: compares the proved scheduler with the original's `schedule` on
//! every small list and on COUNT random ones.

use differential::schedules::{compare_random, compare_small};
use std::process::ExitCode;

fn main() -> ExitCode {
    let mut numbers = std::env::args().skip(1).map(|a| a.parse::<u64>());
    let count = numbers.next().unwrap_or(Ok(1_000_000));
    let seed = numbers.next().unwrap_or(Ok(1));
    let (Ok(count), Ok(seed)) = (count, seed) else {
        eprintln!("usage: schedules [COUNT [SEED]]");
        return ExitCode::FAILURE;
    };
    let small = compare_small(3);
    let random = compare_random(seed, count as usize);
    match (small, random) {
        (Ok(small), Ok(random)) => {
            println!(
                "small lists  {} equal, {} placed",
                small.lists, small.placed
            );
            println!(
                "random lists {} equal, {} placed",
                random.lists, random.placed
            );
            ExitCode::SUCCESS
        }
        (Err(error), _) | (_, Err(error)) => {
            eprintln!("schedules: {error}");
            ExitCode::FAILURE
        }
    }
}
