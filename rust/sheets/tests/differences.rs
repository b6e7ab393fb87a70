//! `docs/DIFFERENCES.md` has the queries of the list, in its order, and says of each what the
//! original's answer is.

use sheets::answer::{Answer, Placed, QueryAnswer, Set};
use sheets::check::check;
use sheets::differences::DIFFERENCES;
use sheets::limits::PRINTING;
use std::fmt::Write;

const PAGE: &str = include_str!("../../../docs/DIFFERENCES.md");

/// The query, the original and the reference, of each row of the page's tables.
fn rows() -> Vec<[String; 3]> {
    let row = |line: &str| {
        // A bar inside a cell has a backslash before it.
        let line = line.replace("\\|", "\0");
        let cells = line.trim_matches('|').split('|');
        let cells: Vec<String> = cells.map(|c| c.trim().replace('\0', "|")).collect();
        cells.try_into().expect("three cells")
    };
    let lines = PAGE.lines().filter(|line| line.starts_with("| `"));
    lines.map(row).collect()
}

/// An answer in the words of the page.
fn words(answer: &Answer, names: &[String]) -> String {
    match answer {
        Answer::Refusal { number, line, col } => format!("refused with {number} at {line} {col}"),
        Answer::Queries(queries) => {
            let query = |(number, query): (usize, &QueryAnswer)| match number {
                1 => of_query(query, names),
                _ => format!("query {number} {}", of_query(query, names)),
            };
            let all: Vec<String> = (1..).zip(queries).map(query).collect();
            all.join("; ")
        }
    }
}

fn of_query(query: &QueryAnswer, names: &[String]) -> String {
    let listed = |statements: &[u16]| {
        let numbers: Vec<String> = statements.iter().map(u16::to_string).collect();
        numbers.join(" ")
    };
    let reached: Vec<u16> = (0..)
        .zip(&query.reached)
        .filter_map(|(index, &reached)| reached.then_some(index))
        .collect();
    let mut text = match query.placed {
        Placed::Yes if query.order.is_sorted() => "placed".to_string(),
        Placed::Yes => format!("placed in the order {}", listed(&query.order)),
        Placed::No if reached.is_empty() => "unplaced, none reached".to_string(),
        Placed::No => format!("unplaced, reached: {}", listed(&reached)),
        Placed::NeverAnalysed => "never analysed".to_string(),
    };
    if query.input {
        text.push_str(", reads `input`");
    }
    for entry in &query.entries {
        let name = &names[usize::from(entry.name) - 1];
        let _ = match entry.set {
            Set::Locals => write!(text, ", `{name}` local at {} {}", entry.line, entry.col),
            Set::Unscoped => write!(text, ", `{name}` unscoped"),
            Set::Inputs => write!(text, ", `{name}` input"),
        };
    }
    text
}

#[test]
fn the_page_has_the_queries_of_the_list() {
    let on_page: Vec<String> = rows()
        .into_iter()
        .map(|[query, ..]| query.trim_end_matches(" *").to_string())
        .collect();
    let in_list: Vec<String> = DIFFERENCES.iter().map(|d| d.label()).collect();
    assert_eq!(on_page, in_list);
}

#[test]
fn the_page_says_what_the_original_answers() {
    for (difference, [_, original, reference]) in DIFFERENCES.iter().zip(rows()) {
        let answer = Answer::read(&difference.answer()).expect("an answer");
        let words = words(&answer, &difference.sheet().names);
        let said = original.split(". ").next();
        assert_eq!(said, Some(words.as_str()), "{}", difference.label());
        assert!(!reference.is_empty(), "{}", difference.label());
    }
}

#[test]
fn the_sheets_pass_questions_2_to_6() {
    for difference in DIFFERENCES {
        let sheet = difference.sheet();
        assert_eq!(check(&sheet, PRINTING), Ok(()), "{}", difference.label());
    }
}
