//! The fixed list of sheets and answers, replayed against the text formats.

use sheets::answer::{Answer, Placed};
use sheets::limits::{LIBRARY, PRINTING};
use sheets::vectors::{self, Vector};
use sheets::{check, examples, Sheet};

const LIST: &str = include_str!("../../vectors/sheets.txt");

fn list() -> Vec<Vector> {
    vectors::read(LIST)
}

#[test]
fn the_list_is_small_and_whole() {
    assert!(LIST.len() <= 1_300_000, "{} bytes", LIST.len());
    assert!(list().len() >= 300, "{} sheets", list().len());
    let title = LIST
        .lines()
        .next()
        .unwrap_or_default()
        .trim_start_matches("# ");
    assert_eq!(vectors::write(title, &list()), LIST);
}

#[test]
fn it_starts_with_the_examples() {
    for (example, vector) in examples::trials().iter().zip(list()) {
        assert_eq!(example.label, vector.label);
        assert_eq!(example.snippet.sheet().text(), vector.sheet);
        assert_eq!(example.answer, vector.answer, "{}", vector.label);
    }
}

#[test]
fn sheets_are_valid_and_read_back() {
    for vector in list() {
        let sheet = Sheet::read(&vector.sheet).unwrap_or_else(|e| panic!("{}: {e}", vector.label));
        assert_eq!(sheet.text(), vector.sheet, "{}", vector.label);
        assert_eq!(check::check(&sheet, LIBRARY), Ok(()), "{}", vector.label);
    }
}

#[test]
fn some_have_more_names_than_the_printing_program_takes() {
    let names = |vector: &Vector| Sheet::read(&vector.sheet).expect("a sheet").names.len();
    let counts: Vec<usize> = list().iter().map(names).collect();
    let few = counts.iter().filter(|&&count| count <= PRINTING.names);
    assert!(few.count() >= 1_000);
    for words in 3..=8 {
        let of_words = |count: &&usize| **count / 64 + 1 == words;
        assert!(
            counts.iter().filter(of_words).count() >= 30,
            "{words} words"
        );
    }
    assert!(counts.contains(&LIBRARY.names));
}

#[test]
fn answers_are_well_formed_and_fit_their_sheets() {
    for vector in list() {
        let sheet = Sheet::read(&vector.sheet).expect("a sheet");
        let answer = Answer::read(&vector.answer);
        let answer = answer.unwrap_or_else(|| panic!("{}: malformed answer", vector.label));
        assert_eq!(answer.text(), vector.answer, "{}", vector.label);
        match answer {
            Answer::Refusal { number, line, col } => {
                assert!((11..=14).contains(&number), "{}", vector.label);
                assert_eq!(number == 14, (line, col) == (0, 0), "{}", vector.label);
            }
            Answer::Queries(queries) => {
                assert_eq!(queries.len(), sheet.queries.len(), "{}", vector.label);
                for (query, answer) in (1..).zip(&queries) {
                    let statements = match answer.placed {
                        Placed::NeverAnalysed => 0,
                        _ => statement_count(&sheet, query),
                    };
                    assert_eq!(answer.order.len(), statements, "{}", vector.label);
                    let names = sheet.names.len() as u16;
                    assert!(answer.entries.iter().all(|e| (1..=names).contains(&e.name)));
                }
            }
        }
    }
}

fn statement_count(sheet: &Sheet, query: usize) -> usize {
    let mut count = 0;
    let mut next = sheet.queries[query - 1];
    while next != 0 {
        count += 1;
        next = sheet.statements[usize::from(next) - 1].next;
    }
    count
}
