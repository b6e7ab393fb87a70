//! `recorded FILE`: for each sheet of a list of vectors, prints the definitions that the original
//! recorded: a row `query statement name used..` for each, ascending, each once. Of a query that was
//! analysed again the last analysis counts; a sheet that was refused has no rows.

use oracle::{analyze, Outcome, Run};
use sheets::answer::Answer;
use sheets::{check::check_text, limits::LIBRARY, vectors};
use std::collections::{BTreeMap, BTreeSet};
use std::process::ExitCode;

fn main() -> ExitCode {
    let arguments: Vec<String> = std::env::args().skip(1).collect();
    let [file] = &arguments[..] else {
        eprintln!("usage: recorded FILE");
        return ExitCode::FAILURE;
    };
    let file = file.clone();
    match oracle::on_deep_stack(move || print(&file)) {
        Ok(()) => ExitCode::SUCCESS,
        Err(error) => {
            eprintln!("recorded: {error}");
            ExitCode::FAILURE
        }
    }
}

fn print(file: &str) -> Result<(), String> {
    let text = std::fs::read_to_string(file).map_err(|e| format!("{file}: {e}"))?;
    for vector in vectors::read(&text) {
        println!("# sheet {}", vector.label);
        let sheet = check_text(vector.sheet.as_bytes(), LIBRARY).expect("a sheet that is read");
        let run = analyze(&sheet).map_err(|e| e.to_string())?;
        for row in rows(&run) {
            let values: Vec<String> = row.iter().map(u16::to_string).collect();
            println!("{}", values.join(" "));
        }
    }
    Ok(())
}

fn rows(run: &Run) -> BTreeSet<Vec<u16>> {
    if !matches!(run.outcome, Outcome::Answered(Answer::Queries(_))) {
        return BTreeSet::new();
    }
    let last: BTreeMap<u16, _> = run.analyses.iter().map(|a| (a.query, &a.list)).collect();
    let mut rows = BTreeSet::new();
    for (query, list) in last {
        for d in &list.definitions {
            let used: BTreeSet<u16> = d.used.iter().copied().collect();
            let mut row = vec![query, d.statement, d.name];
            row.extend(used);
            rows.insert(row);
        }
    }
    rows
}
