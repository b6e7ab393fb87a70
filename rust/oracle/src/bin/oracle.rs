//! `oracle [SHEET]`: prints the original's answer to a sheet, read from the file or from standard
//! input. A sheet that the original could not be asked about gets the refusal 2 to 6 of the tests'
//! own check, with the library's limits.

use sheets::answer::Answer;
use sheets::check::check_text;
use sheets::limits::LIBRARY;
use std::io::Read;
use std::process::ExitCode;

fn main() -> ExitCode {
    match answer() {
        Ok(text) => {
            print!("{text}");
            ExitCode::SUCCESS
        }
        Err(message) => {
            eprintln!("oracle: {message}");
            ExitCode::FAILURE
        }
    }
}

fn answer() -> Result<String, String> {
    let mut arguments = std::env::args().skip(1);
    let mut text = Vec::new();
    match arguments.next() {
        Some(path) => text = std::fs::read(&path).map_err(|e| format!("{path}: {e}"))?,
        None => {
            let read = std::io::stdin().read_to_end(&mut text);
            read.map_err(|e| format!("standard input: {e}"))?;
        }
    }
    if arguments.next().is_some() {
        return Err("usage: oracle [SHEET]".to_string());
    }
    let sheet = match check_text(&text, LIBRARY) {
        Ok(sheet) => sheet,
        Err(fault) => {
            let refusal = Answer::Refusal {
                number: fault.number,
                line: fault.line as u16,
                col: 0,
            };
            return Ok(refusal.text());
        }
    };
    let run = oracle::analyze(&sheet).map_err(|e| e.to_string())?;
    match run.outcome {
        oracle::Outcome::Answered(answer) => Ok(answer.text()),
        oracle::Outcome::TooLong => Err(format!(
            "too long: the original enters `traverse` more than {} times",
            oracle::TRAVERSE_LIMIT
        )),
    }
}
