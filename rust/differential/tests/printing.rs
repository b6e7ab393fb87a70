//! The printing program itself: proved, compiled and run, a sheet on standard input. It has to
//! print what is due in its width.

use differential::analyses::{parts::ANSWER, NarrowCall};
use differential::comparing::{Call, Due, Lengths};
use sheets::limits::PRINTING;
use sheets::{edges, examples, generate};
use std::io::Write;
use std::path::{Path, PathBuf};
use std::process::{Command, Stdio};
use std::sync::OnceLock;

/// Has the toolchain prove and compile the program, once.
///
/// # Panics
/// Where there is no toolchain: nothing is skipped.
fn program() -> &'static Path {
    static PROGRAM: OnceLock<PathBuf> = OnceLock::new();
    PROGRAM.get_or_init(compiled)
}

fn compiled() -> PathBuf {
    let root = Path::new(env!("CARGO_MANIFEST_DIR")).join("../..");
    // It is proved and compiled, and run once on nothing.
    let output = Command::new("rt")
        .arg("run")
        .current_dir(root.join("crates/print"))
        .stdin(Stdio::null())
        .output()
        .expect("the Rattle toolchain's `rt` runs");
    let said = [output.stdout, output.stderr].concat();
    let said = String::from_utf8_lossy(&said);
    assert!(output.status.success(), "`rt run` of print failed:\n{said}");
    root.join("crates/print/out/print")
}

fn printed(program: &Path, sheet: &[u8]) -> Vec<u8> {
    let mut child = Command::new(program)
        .stdin(Stdio::piped())
        .stdout(Stdio::piped())
        .spawn()
        .expect("the printing program runs");
    // It need not read a sheet that is too long to its end.
    let _ = child.stdin.take().expect("its input").write_all(sheet);
    let output = child.wait_with_output().expect("its output");
    output.stdout
}

/// The text of an answer or of a refusal; none where nobody knows.
fn due(sheet: &[u8]) -> Option<Vec<u8>> {
    let Due { result, answer, .. } = NarrowCall::due(sheet, Lengths::exact(PRINTING, ANSWER));
    Some(match result? {
        Ok(()) => answer,
        Err(r) => format!("refusal line col\n{} {} {}\n\n", r.number, r.line, r.col).into_bytes(),
    })
}

/// Every edge of names and of lengths, the trial sheets, and generated ones.
fn sheets() -> Vec<(String, Vec<u8>)> {
    let mut sheets = Vec::new();
    for edge in edges::edges(PRINTING) {
        if edge.label.contains(" names") || edge.label.contains(" bytes") {
            sheets.push((edge.label, edge.text));
        }
    }
    for example in examples::trials() {
        let text = example.snippet.sheet().text();
        sheets.push((example.label.to_string(), text.into_bytes()));
    }
    for seed in 1..=200 {
        let text = generate::sheet(seed).text();
        sheets.push((format!("seed {seed}"), text.into_bytes()));
    }
    sheets
}

#[test]
fn the_printing_program_prints_what_is_due_in_its_width() {
    let program = program();
    let mut compared = 0;
    for (label, sheet) in sheets() {
        let printed = printed(program, &sheet);
        if let Some(due) = due(&sheet) {
            let printed = String::from_utf8_lossy(&printed);
            assert_eq!(printed, String::from_utf8_lossy(&due), "{label}");
            compared += 1;
        }
    }
    println!("{compared} sheets");
    if !oracle::AT_HAND {
        println!("skipped: {}", oracle::NotAtHand);
    }
}

#[test]
fn names_are_printed_to_127_and_refused_from_128_on() {
    let program = program();
    let edges = edges::edges(PRINTING);
    for count in [126, 127, 128, 129, 510, 511, 512, 513] {
        let label = format!("{count} names");
        let edge = edges.iter().find(|edge| edge.label == label);
        let printed = printed(program, &edge.expect("an edge").text);
        let printed = String::from_utf8_lossy(&printed);
        if count <= 127 {
            let empty = "query placed input\n1 1 0\n\nquery place index reached\n\n\
                         query set name line col\n\n";
            assert_eq!(printed, empty, "{label}");
        } else {
            assert_eq!(printed, "refusal line col\n5 129 0\n\n", "{label}");
        }
    }
}
