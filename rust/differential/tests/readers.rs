//! The exported reader beside the plain one: a short run of each part, and its examples.

use differential::comparing::{Difference, Tally};
use differential::readers::parts;
use nokchbem::Refusal;
use sheets::edges;
use sheets::limits::{LIBRARY, TABLES};

/// What the deepest sheets are read in. A reader has no sets of names, so their words do not count.
const STACK: usize = 64 << 10;

fn equal(run: Result<Tally, Difference>) -> Tally {
    let tally = run.unwrap_or_else(|difference| panic!("{difference}"));
    println!("{tally}");
    tally
}

#[test]
fn question_1_is_asked_first_and_at_its_edge() {
    let tally = equal(parts::lengths());
    // Of seven lengths of tables three are enough, and of nine of work two.
    assert_eq!((tally.all(), tally[1]), (63 * 6, 57 * 6));
}

#[test]
fn edges_come_out_the_same() {
    equal(parts::edges(5));
}

#[test]
fn edges_come_out_as_specified() {
    let (mut tables, mut work) = (vec![7; TABLES], vec![7; LIBRARY.work]);
    for edge in edges::edges(LIBRARY) {
        let expected = edge.expected.map_err(|fault| Refusal {
            number: fault.number,
            line: fault.line as u16,
            col: 0,
        });
        let read = nokchbem::read(&edge.text, &mut tables, &mut work);
        assert_eq!(read, expected, "{}", edge.label);
    }
}

#[test]
fn short_strings_come_out_the_same() {
    let tally = equal(parts::short_strings(2));
    assert_eq!((tally.all(), tally[3]), (65_793, 65_793));
}

#[test]
fn sheets_with_one_byte_changed_come_out_the_same() {
    for sheet in parts::small_sheets() {
        let tally = equal(parts::one_byte_changes(&sheet));
        assert_eq!(tally.all(), 512 * sheet.len() + 257);
        assert!([0, 3, 4, 6].iter().all(|&number| tally[number] > 0));
    }
}

#[test]
fn sheets_with_two_fields_changed_come_out_the_same() {
    let [smallest, _, _] = parts::small_sheets();
    let tally = equal(parts::two_fields(&smallest, 9));
    assert!([0, 6].iter().all(|&number| tally[number] > 0));
}

#[test]
fn numbers_come_out_the_same() {
    let tally = equal(parts::numbers(70_000));
    assert_eq!(tally[0], 65_536);
}

#[test]
fn generated_and_damaged_sheets_come_out_the_same() {
    let tally = equal(parts::generated(21, 20_000));
    assert_eq!(tally.all(), 20_000);
    assert!([0, 2, 3, 4, 5, 6].iter().all(|&number| tally[number] > 0));
    assert!(3 * tally.many_names >= tally.all());
}

#[test]
fn the_worked_example_is_in_the_tables() {
    let [_, worked, _] = parts::small_sheets();
    let (mut tables, mut work) = (vec![7; TABLES], vec![7; LIBRARY.work]);
    assert_eq!(nokchbem::read(&worked, &mut tables, &mut work), Ok(()));
    assert_eq!(tables[..8], [4, 0, 7, 2, 1, 0, 2, 0], "the head");
    assert_eq!(tables[276..284], [20, 0, 1, 1, 2, 3, 0, 0], "expression 1");
    assert_eq!(tables[324..332], [6, 2, 2, 5, 0, 0, 0, 0], "expression 7");
    assert_eq!(tables[332], 0, "no expression 8");
    assert_eq!(tables[4_379..4_386], [3, 1, 0, 0, 0, 0, 2], "statement 1");
    assert_eq!(tables[4_386..4_393], [3, 4, 0, 0, 0, 0, 0], "statement 2");
    assert_eq!(tables[5_276..5_278], [1, 0], "query 1 alone");
    assert_eq!(work, [0; LIBRARY.work], "work");
}

#[test]
fn a_small_stack_is_enough() {
    let edges = edges::edges(LIBRARY).into_iter();
    let sheets: Vec<Vec<u8>> = edges.map(|edge| edge.text).collect();
    let (mut tables, mut work) = (vec![0; TABLES], vec![0; LIBRARY.work]);
    let thread = std::thread::Builder::new().stack_size(STACK);
    let call = move || {
        let read = |sheet: &Vec<u8>| nokchbem::read(sheet, &mut tables, &mut work).is_ok();
        sheets.iter().map(read).filter(|&passed| passed).count()
    };
    let passed = thread.spawn(call).expect("a thread").join();
    assert!(passed.expect("no overflow") > 0);
}
