//! The sheets on which the proved analysis is compared, a part a function, in either width.

use super::{expected::of_answer, fixed_list};
use crate::comparing::{
    compare_edges, smaller, spread, Call, Difference, Due, Lengths, Lent, Tally,
};
use sheets::answer::Answer;
use sheets::limits::{LIBRARY, PRINTING, TABLES};
use sheets::positions::Style;
use sheets::rng::Rng;
use sheets::small::{snippets, Kinds};
use sheets::vectors::Vector;
use sheets::{damage, edges, examples, generate};

/// How many bytes the printing program lends for the text.
pub const ANSWER: usize = 65_536;

/// Enough for the text of a sheet of a few rows.
const SMALL_ANSWER: usize = 1_024;

/// What is due of a sheet of the fixed list; the original is not asked again.
fn due<C: Call>(vector: &Vector, lengths: Lengths) -> Due {
    match C::rows(vector.sheet.as_bytes(), lengths) {
        Err(refusal) => Due::refused(refusal),
        Ok(_) => of_answer(&Answer::read(&vector.answer).expect("an answer"), lengths),
    }
}

/// Sheets that come out in every way but 1 and 7, with the length of the text: 0 for a refusal.
pub fn sheets_of_every_sort<C: Call>() -> Vec<(Vec<u8>, usize)> {
    let mut sheets = Vec::new();
    let list = fixed_list();
    let mut add = |vector: &Vector| {
        let due = due::<C>(vector, Lengths::exact(C::LIMITS, ANSWER));
        sheets.push((vector.sheet.clone().into_bytes(), due.answer.len()));
    };
    // The trial queries stand first.
    list[..examples::trials().len()].iter().for_each(&mut add);
    for start in ["refusal line col\n13 ", "refusal line col\n14 "] {
        let refused = list.iter().find(|v| v.answer.starts_with(start));
        add(refused.expect("each refusal is in the list"));
    }
    let nested = |v: &&Vector| v.answer.contains("\n4 1 1\n\nquery place");
    list.iter().filter(nested).take(2).for_each(&mut add);
    // The sheets with the most names stand last.
    let placed = |v: &&Vector| v.answer.starts_with("query placed input\n1 1 ");
    list.iter().rev().filter(placed).take(2).for_each(&mut add);
    let edges = edges::edges(C::LIMITS);
    for number in 2..=6 {
        let refused = |edge: &&edges::Edge| edge.expected.is_err_and(|f| f.number == number);
        let edge = edges.iter().find(refused);
        sheets.push((edge.expect("each refusal has an edge").text.clone(), 0));
    }
    sheets.push((Vec::new(), 0));
    sheets
}

/// One sheet on buffers of these lengths.
fn compare<C: Call>(sheet: &[u8], lengths: Lengths, tally: &mut Tally) -> Result<(), Difference> {
    let compared = Lent::<C>::new(lengths).compare(sheet);
    tally.count(compared.map_err(smaller::<C>)?);
    Ok(())
}

/// The lengths of answers about that of the text.
fn answers(text: usize) -> [usize; 6] {
    [0, 1, text.saturating_sub(1), text, text + 1, ANSWER]
}

/// Lent buffers of every length about those that either width asks for, with sheets of every sort.
pub fn lengths<C: Call>() -> Result<Tally, Difference> {
    let about = |length: usize| [length - 1, length, length + 1];
    let tables = [&[0, 1][..], &about(TABLES), &[2 * TABLES]].concat();
    let work = [&[0, 1][..], &about(PRINTING.work), &about(LIBRARY.work)].concat();
    oracle::on_deep_stack(|| {
        let mut tally = Tally::default();
        for (sheet, text) in sheets_of_every_sort::<C>() {
            for &tables in &tables {
                for &work in &work {
                    for answer in answers(text) {
                        let lengths = Lengths {
                            tables,
                            work,
                            answer,
                        };
                        compare::<C>(&sheet, lengths, &mut tally)?;
                    }
                }
            }
        }
        Ok(tally)
    })
}

/// Answers of every length about that of the text, for so many generated sheets.
pub fn answer_lengths<C: Call>(seed: u64, count: u64) -> Result<Tally, Difference> {
    oracle::on_deep_stack(|| {
        let mut tally = Tally::default();
        let exact = |answer| Lengths::exact(C::LIMITS, answer);
        for number in 0..count {
            let sheet = generate::sheet(seed.wrapping_add(number)).text();
            let due = C::due(sheet.as_bytes(), exact(ANSWER));
            for answer in answers(due.answer.len()) {
                compare::<C>(sheet.as_bytes(), exact(answer), &mut tally)?;
            }
        }
        Ok(tally)
    })
}

/// Every edge, and each that passes with so many different faults.
pub fn edges<C: Call>(faults: u64) -> Result<Tally, Difference> {
    compare_edges::<C>(ANSWER, faults)
}

/// The fixed list.
pub fn list<C: Call>() -> Result<Tally, Difference> {
    let lengths = Lengths::exact(C::LIMITS, ANSWER);
    let mut lent = Lent::<C>::new(lengths);
    let mut tally = Tally::default();
    for vector in fixed_list() {
        let due = due::<C>(&vector, lengths);
        tally.count(lent.compare_with(vector.sheet.as_bytes(), &due)?);
        tally.count_names(vector.sheet.as_bytes());
    }
    Ok(tally)
}

/// So many generated sheets.
pub fn generated<C: Call>(seed: u64, count: u64) -> Result<Tally, Difference> {
    spread::<C>(ANSWER, count, |comparer, number| {
        let sheet = generate::sheet(seed.wrapping_add(number));
        comparer.compare(sheet.text().as_bytes())
    })
}

/// So many generated sheets with faults.
pub fn damaged<C: Call>(seed: u64, count: u64) -> Result<Tally, Difference> {
    const EACH: u64 = 4;
    spread::<C>(ANSWER, count.div_ceil(EACH), |comparer, number| {
        let own = seed.wrapping_add(number);
        let text = generate::sheet(own).text().into_bytes();
        let mut rng = Rng::new(!own);
        for _ in 0..(count - EACH * number).min(EACH) {
            comparer.compare(&damage::damage(&text, &mut rng))?;
        }
        Ok(())
    })
}

/// Every sheet of up to two statements and so many expressions over two names.
pub fn small<C: Call>(
    kinds: Kinds,
    names: [&'static str; 2],
    exprs: usize,
    style: Style,
) -> Result<Tally, Difference> {
    let family = snippets(kinds, names, exprs, 2);
    spread::<C>(SMALL_ANSWER, family.count(), |comparer, number| {
        let mut snippet = family.get(number);
        snippet.place(style, &mut Rng::new(number));
        comparer.compare(snippet.sheet().text().as_bytes())
    })
}
