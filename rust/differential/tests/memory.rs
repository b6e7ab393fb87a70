//! The exported calls on buffers that are allocated at just their length, also under valgrind,
//! which sees every read and every write beside them.

use differential::analyses::parts::{sheets_of_every_sort, ANSWER};
use differential::analyses::{AnalyzeCall, NarrowCall};
use differential::comparing::{Call, Lengths};
use nokchbem::Refusal;
use sheets::limits::TABLES;
use sheets::{damage, generate, rng::Rng};
use std::process::Command;

const PLAIN: &str = "every_call_stays_within_its_buffers";

#[test]
fn every_call_stays_within_its_buffers() {
    let library = every_length::<AnalyzeCall>(&mut |sheet, lengths| {
        let read = read(sheet, lengths).map_or_else(|refusal| refusal.number, |()| 0);
        let refused = analyze(nokchbem::analyze, sheet, lengths);
        assert_eq!(read, if refused > 6 { 0 } else { refused });
    });
    let narrow = every_length::<NarrowCall>(&mut |sheet, lengths| {
        analyze(narrow::analyze, sheet, lengths);
    });
    println!("{library} and {narrow} calls");
}

/// All lengths about those asked for, with sheets of every sort; then sheets that are refused and
/// sheets that are not, on buffers of just the length asked for.
fn every_length<C: Call>(call: &mut dyn FnMut(&[u8], Lengths)) -> usize {
    let mut calls = 0;
    let about = |length: usize| [0, 1, length - 1, length, length + 1];
    for (sheet, text) in sheets_of_every_sort::<C>() {
        for (tables, work) in about(TABLES).into_iter().zip(about(C::LIMITS.work)) {
            for answer in [0, 1, text.saturating_sub(1), text, text + 1, ANSWER] {
                let lengths = Lengths {
                    tables,
                    work,
                    answer,
                };
                call(&sheet, lengths);
                calls += 1;
            }
        }
    }
    for seed in 1..=60 {
        let sheet = generate::sheet(seed).text().into_bytes();
        let damaged = damage::damage(&sheet, &mut Rng::new(seed));
        for sheet in [sheet, damaged] {
            call(&sheet, Lengths::exact(C::LIMITS, 2_000));
            calls += 1;
        }
    }
    calls
}

fn read(sheet: &[u8], lengths: Lengths) -> Result<(), Refusal> {
    let sheet: Box<[u8]> = sheet.into();
    let mut tables = vec![7; lengths.tables].into_boxed_slice();
    let mut work = vec![7; lengths.work].into_boxed_slice();
    let read = nokchbem::read(&sheet, &mut tables, &mut work);
    assert!(read.is_ok() || tables.iter().all(|&entry| entry == 0));
    assert!(work.iter().all(|&entry| entry == 0));
    read
}

type Analyze = fn(&[u8], &mut [u16], &mut [u64], &mut [u8]) -> Result<usize, Refusal>;

/// The number of the refusal, or 0.
fn analyze(analyze: Analyze, sheet: &[u8], lengths: Lengths) -> u16 {
    let sheet: Box<[u8]> = sheet.into();
    let mut tables = vec![7; lengths.tables].into_boxed_slice();
    let mut work = vec![7; lengths.work].into_boxed_slice();
    let mut answer = vec![7; lengths.answer].into_boxed_slice();
    let analyzed = analyze(&sheet, &mut tables, &mut work, &mut answer);
    assert!(tables.iter().all(|&entry| entry == 0));
    assert!(work.iter().all(|&entry| entry == 0));
    let text = analyzed.unwrap_or(0);
    assert!(answer[text..].iter().all(|&byte| byte == 0));
    analyzed.map_or_else(|refusal| refusal.number, |_| 0)
}

#[test]
fn the_same_under_valgrind() {
    let run = |program: &str, arguments: &[&str]| Command::new(program).args(arguments).output();
    if run("valgrind", &["--version"]).is_err() {
        println!("skipped: there is no valgrind");
        return;
    }
    let own = std::env::current_exe().expect("this test's path");
    let own = own.to_str().expect("a path that is a text");
    let arguments = ["--error-exitcode=9", "--quiet", own, "--exact", PLAIN];
    let output = run("valgrind", &arguments).expect("valgrind runs");
    let said = [output.stdout, output.stderr].concat();
    let said = String::from_utf8_lossy(&said);
    assert!(output.status.success(), "{said}");
    assert!(said.contains("1 passed"), "{said}");
}
