//! The exported analysis, and the printing program's, beside the plain reader and the original: a
//! short run of each part, and its examples.

use differential::analyses::{fixed_list, parts, AnalyzeCall, NarrowCall};
use differential::comparing::{Call, Difference, Outcome, Tally};
use nokchbem::Refusal;
use sheets::differences::DIFFERENCES;
use sheets::limits::{LIBRARY, PRINTING, TABLES};
use sheets::positions::Style;
use sheets::small::Kinds;
use sheets::{edges, examples, generate, Sheet};

/// What the deepest sheets are analysed in. By value a set has eight words in either width.
const STACK: usize = 2 << 20;

fn equal(run: Result<Tally, Difference>) -> Tally {
    let tally = run.unwrap_or_else(|difference| panic!("{difference}"));
    println!("{tally}");
    if !oracle::AT_HAND {
        println!("skipped: {}", oracle::NotAtHand);
    }
    tally
}

/// Each of these refusals is met, and both ways to pass; without the original, the reader's
/// refusals alone.
fn meets(tally: &Tally, refusals: &[u16]) {
    let refusals = refusals.iter().map(|&number| Outcome::Refused(number));
    for outcome in refusals.chain([Outcome::Passed, Outcome::Unplaced]) {
        let by_reader = matches!(outcome, Outcome::Refused(1..=6));
        if by_reader || oracle::AT_HAND {
            assert!(tally.of(outcome) > 0, "{outcome:?}");
        }
    }
}

/// What a call answers, from buffers that are long enough for either width.
fn answered<C: Call>(sheet: &[u8]) -> (Result<(), Refusal>, Vec<u8>) {
    let (mut tables, mut work) = (vec![7; TABLES], vec![7; LIBRARY.work]);
    let mut answer = vec![7; parts::ANSWER];
    let result = C::call(sheet, &mut tables, &mut work, &mut answer);
    (result, answer)
}

/// What the printing program would write.
fn text_of<C: Call>(sheet: &Sheet) -> String {
    match answered::<C>(sheet.text().as_bytes()) {
        (Ok(()), answer) => {
            let text = answer.split(|&byte| byte == 0).next();
            String::from_utf8_lossy(text.unwrap_or_default()).into_owned()
        }
        (Err(r), _) => format!("refusal line col\n{} {} {}\n\n", r.number, r.line, r.col),
    }
}

#[test]
fn the_trial_queries_come_out_as_specified() {
    for example in examples::trials() {
        let sheet = example.snippet.sheet();
        for text in [
            text_of::<AnalyzeCall>(&sheet),
            text_of::<NarrowCall>(&sheet),
        ] {
            assert_eq!(text, example.answer, "{}", example.label);
        }
    }
}

#[test]
fn the_listed_differences_come_out_as_the_original_has_them() {
    for difference in DIFFERENCES {
        let sheet = difference.sheet();
        for text in [
            text_of::<AnalyzeCall>(&sheet),
            text_of::<NarrowCall>(&sheet),
        ] {
            assert_eq!(text, difference.answer(), "{}", difference.label());
        }
    }
}

#[test]
fn the_fixed_list_comes_out_as_it_stands() {
    let (library, narrow) = (
        equal(parts::list::<AnalyzeCall>()),
        equal(parts::list::<NarrowCall>()),
    );
    assert_eq!(library.equal(), fixed_list().len());
    assert_eq!(narrow.equal(), fixed_list().len());
    assert!((11..=14).all(|number| library[number] > 100));
    assert!(library.many_names > 190);
    assert_eq!((library[5], narrow[5]), (0, library.many_names));
}

#[test]
fn lent_memory_is_left_as_it_should_be_whatever_its_length() {
    // Of six lengths of tables three are enough, and of eight of work two; for the narrow call five.
    let tally = equal(parts::lengths::<AnalyzeCall>());
    assert_eq!(tally[1] * 8, tally.all() * 7);
    meets(&tally, &[1, 2, 3, 4, 5, 6, 7, 11, 12, 13, 14]);
    let tally = equal(parts::lengths::<NarrowCall>());
    assert_eq!(tally[1] * 16, tally.all() * 11);
    meets(&tally, &[1, 2, 3, 4, 5, 6, 7, 11, 12, 13, 14]);
}

#[test]
fn the_text_fits_or_is_refused_at_its_length() {
    for tally in [
        equal(parts::answer_lengths::<AnalyzeCall>(31, 200)),
        equal(parts::answer_lengths::<NarrowCall>(231, 100)),
    ] {
        // Of six lengths three are enough for a text.
        let passed = tally.of(Outcome::Passed) + tally.of(Outcome::Unplaced);
        assert_eq!(tally[7], passed);
    }
}

#[test]
fn edges_come_out_the_same() {
    for tally in [
        equal(parts::edges::<AnalyzeCall>(5)),
        equal(parts::edges::<NarrowCall>(2)),
    ] {
        assert!([2, 3, 4, 5, 6].iter().all(|&number| tally[number] > 0));
    }
}

#[test]
fn generated_sheets_come_out_the_same() {
    let tally = equal(parts::generated::<AnalyzeCall>(51, 14_000));
    assert_eq!(tally.all(), 14_000);
    meets(&tally, &[11, 12, 13, 14]);
    assert!(2 * tally.many_names >= tally.all());
    let narrow = equal(parts::generated::<NarrowCall>(14_051, 6_000));
    assert_eq!(narrow.all(), 6_000);
    meets(&narrow, &[5, 11, 12, 13, 14]);
    assert_eq!(narrow[5], narrow.many_names);
    // Of all sheets, a third has more than 127 names and goes to the library.
    assert!(3 * tally.many_names >= tally.all() + narrow.all());
}

#[test]
fn damaged_sheets_come_out_the_same() {
    let tally = equal(parts::damaged::<AnalyzeCall>(61, 14_000));
    assert_eq!(tally.all(), 14_000);
    meets(&tally, &[2, 3, 4, 5, 6, 11, 12, 13, 14]);
    let tally = equal(parts::damaged::<NarrowCall>(14_061, 6_000));
    assert_eq!(tally.all(), 6_000);
    meets(&tally, &[2, 3, 4, 5, 6, 11, 12, 13, 14]);
}

#[test]
fn small_sheets_come_out_the_same() {
    for names in [["x", "y"], ["_", "x"], ["data", "x"], ["input", "x"]] {
        let tally = equal(parts::small::<AnalyzeCall>(
            Kinds::All,
            names,
            3,
            Style::Reading,
        ));
        assert_eq!(tally.all(), 58_283);
    }
    let tally = equal(parts::small::<NarrowCall>(
        Kinds::All,
        ["x", "y"],
        3,
        Style::Reading,
    ));
    assert_eq!(tally.all(), 58_283);
    let tally = equal(parts::small::<AnalyzeCall>(
        Kinds::Distinct,
        ["x", "y"],
        4,
        Style::Constant,
    ));
    assert_eq!(tally.all(), 408_038);
}

/// Also where the original takes too long to be asked.
#[test]
fn both_widths_answer_alike_where_there_are_few_names() {
    let edges = edges::edges(PRINTING).into_iter();
    let passing = edges.filter(|edge| edge.expected.is_ok());
    let mut sheets: Vec<Vec<u8>> = passing.map(|edge| edge.text).collect();
    sheets.extend((1..=2_000).map(|seed| generate::few(seed).text().into_bytes()));
    for sheet in sheets {
        let (library, narrow) = (
            answered::<AnalyzeCall>(&sheet),
            answered::<NarrowCall>(&sheet),
        );
        assert_eq!(library.0, narrow.0, "{}", sheet.escape_ascii());
        assert!(library.1 == narrow.1, "{}", sheet.escape_ascii());
    }
}

#[test]
fn two_mebibytes_of_stack_are_enough() {
    fn answers<C: Call>() -> usize {
        let edges = edges::edges(C::LIMITS).into_iter();
        let sheets: Vec<Vec<u8>> = edges.map(|edge| edge.text).collect();
        let (mut tables, mut work) = (vec![7; TABLES], vec![7; C::LIMITS.work]);
        let mut answer = vec![7; parts::ANSWER];
        let call = move || {
            let mut call =
                |sheet: &Vec<u8>| C::call(sheet, &mut tables, &mut work, &mut answer).is_ok();
            sheets.iter().filter(|sheet| call(sheet)).count()
        };
        let thread = std::thread::Builder::new().stack_size(STACK);
        let answered = thread.spawn(call).expect("a thread").join();
        answered.expect("no overflow")
    }
    assert!(answers::<AnalyzeCall>() > 80);
    assert!(answers::<NarrowCall>() > 80);
}
