//! The commands `NAME [COUNT [SEED]]`, which compare part after part and print what came out.

use super::{Difference, Tally};
use std::process::ExitCode;
use std::time::Instant;

/// Runs the parts, of 1,000,000 and of 1 where the command's arguments say nothing else.
pub fn command(
    name: &str,
    parts: impl FnOnce(&mut Report, u64, u64) -> Result<(), Difference>,
) -> ExitCode {
    let mut numbers = std::env::args().skip(1).map(|a| a.parse::<u64>());
    let count = numbers.next().unwrap_or(Ok(1_000_000));
    let seed = numbers.next().unwrap_or(Ok(1));
    let (Ok(count), Ok(seed)) = (count, seed) else {
        eprintln!("usage: {name} [COUNT [SEED]]");
        return ExitCode::FAILURE;
    };
    let mut report = Report::default();
    match parts(&mut report, count, seed) {
        Ok(()) => {
            println!("{:28}{}", "all", report.all);
            ExitCode::SUCCESS
        }
        Err(difference) => {
            eprintln!("{name}: a difference\n{difference}");
            ExitCode::FAILURE
        }
    }
}

/// What the parts so far came to.
#[derive(Default)]
pub struct Report {
    all: Tally,
}

impl Report {
    /// Runs a part and prints what came out.
    pub fn part(
        &mut self,
        label: &str,
        run: impl FnOnce() -> Result<Tally, Difference>,
    ) -> Result<Tally, Difference> {
        let started = Instant::now();
        let tally = run()?;
        self.all += tally;
        let seconds = started.elapsed().as_secs_f64();
        println!("{label:28}{tally}; {seconds:.1} s");
        Ok(tally)
    }
}
