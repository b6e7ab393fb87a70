//! `shares [COUNT [SEED]]`: prints how generated sheets fall out at the original.

use oracle::shares::Shares;
use std::io::Write;
use std::process::ExitCode;

fn main() -> ExitCode {
    let mut numbers = std::env::args().skip(1).map(|a| a.parse::<u64>());
    let count = numbers.next().unwrap_or(Ok(10_000));
    let seed = numbers.next().unwrap_or(Ok(1));
    let (Ok(count), Ok(seed)) = (count, seed) else {
        eprintln!("usage: shares [COUNT [SEED]]");
        return ExitCode::FAILURE;
    };
    match Shares::of_seeds(seed, count as usize) {
        Ok(shares) => {
            // A reader that stops early, as `head` does, is no fault.
            let _ = write!(std::io::stdout(), "{shares}");
            ExitCode::SUCCESS
        }
        Err(error) => {
            eprintln!("shares: {error}");
            ExitCode::FAILURE
        }
    }
}
