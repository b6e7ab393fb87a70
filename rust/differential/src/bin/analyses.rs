//! `analyses [COUNT [SEED]]`: compares the proved analysis with the original, every element of the
//! lent buffers included, on COUNT generated sheets; with the plain reader on COUNT damaged ones,
//! and with the original on those of them that pass; on every edge, on the fixed list, on buffers
//! of many lengths, and on every small sheet. A sheet on which the original enters `traverse` more
//! than 1,000,000 times is counted as too long.
//!
//! Two thirds of the COUNT sheets go to the library's call, and one third to the printing program's,
//! whose parts are called *narrow*. How many have more than 127 names is printed.

use differential::analyses::{parts, AnalyzeCall, NarrowCall};
use differential::comparing::{command, Call, Difference, Report, Tally};
use sheets::positions::Style;
use sheets::small::Kinds;
use std::process::ExitCode;

fn main() -> ExitCode {
    if !oracle::AT_HAND {
        println!("{}", oracle::NotAtHand);
    }
    command("analyses", compare)
}

fn compare(report: &mut Report, count: u64, seed: u64) -> Result<(), Difference> {
    let narrow = count / 3;
    let library = count - narrow;
    let mut generated = each::<AnalyzeCall>(report, "", library, seed)?;
    generated += each::<NarrowCall>(report, "narrow ", narrow, seed.wrapping_add(library))?;
    println!("{:28}{generated}", "generated, in all");
    for names in [["x", "y"], ["_", "x"], ["data", "x"], ["input", "x"]] {
        for (where_, style) in [("", Style::Reading), (", one place", Style::Constant)] {
            let label = format!("4 over {}{where_}", names.join(", "));
            report.part(&label, || {
                parts::small::<AnalyzeCall>(Kinds::All, names, 4, style)
            })?;
            // No name is beyond two words here, so the narrow call has fewer of these.
            let label = format!("narrow 3 over {}{where_}", names.join(", "));
            report.part(&label, || {
                parts::small::<NarrowCall>(Kinds::All, names, 3, style)
            })?;
        }
    }
    report.part("5 over x, y", || {
        parts::small::<AnalyzeCall>(Kinds::Distinct, ["x", "y"], 5, Style::Reading)
    })?;
    Ok(())
}

/// The parts of either width, with so many generated sheets and so many damaged ones; what the
/// generated ones came to.
fn each<C: Call>(
    report: &mut Report,
    width: &str,
    count: u64,
    seed: u64,
) -> Result<Tally, Difference> {
    let label = |part: &str| format!("{width}{part}");
    report.part(&label("buffer lengths"), parts::lengths::<C>)?;
    report.part(&label("answer lengths"), || {
        parts::answer_lengths::<C>(seed, 1_000)
    })?;
    report.part(&label("edges"), || parts::edges::<C>(40))?;
    report.part(&label("fixed list"), parts::list::<C>)?;
    let generated = report.part(&label("generated"), || parts::generated::<C>(seed, count))?;
    report.part(&label("damaged"), || parts::damaged::<C>(seed, count))?;
    Ok(generated)
}
