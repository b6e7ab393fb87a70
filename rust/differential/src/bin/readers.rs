//! `readers [COUNT [SEED]]`: compares the proved reader with the plain one, every element of the
//! lent buffers included, on COUNT generated and damaged sheets, every edge, every one-byte change
//! of three small sheets, every change of two fields of one, every number, and every string of up
//! to three bytes.

use differential::comparing::{command, Difference, Report};
use differential::readers::parts;
use std::process::ExitCode;

fn main() -> ExitCode {
    command("readers", compare)
}

fn compare(report: &mut Report, count: u64, seed: u64) -> Result<(), Difference> {
    report.part("buffer lengths", parts::lengths)?;
    report.part("edges", || parts::edges(40))?;
    for (label, sheet) in ["first", "second", "third"]
        .iter()
        .zip(parts::small_sheets())
    {
        let label = format!("one byte, {label} sheet");
        report.part(&label, || parts::one_byte_changes(&sheet))?;
    }
    let [_, _, largest] = parts::small_sheets();
    report.part("two fields", || parts::two_fields(&largest, 24))?;
    report.part("numbers", || parts::numbers(100_000))?;
    report.part("generated, damaged", || parts::generated(seed, count))?;
    report.part("up to 3 bytes", || parts::short_strings(3))?;
    Ok(())
}
