//! The plain reader and the generator's own check, written apart, answer the same.

use reader::{read, Refusal};
use sheets::limits::{self, Limits};
use sheets::rng::Rng;
use sheets::{check, damage, edges, generate};

/// The limits of the library and of the printing program, by both accounts.
const BOTH: [(usize, Limits); 2] = [
    (reader::LIBRARY, limits::LIBRARY),
    (reader::PRINTING, limits::PRINTING),
];

fn own_check(text: &[u8], limits: Limits) -> Result<(), Refusal> {
    check::check_text(text, limits)
        .map(|_| ())
        .map_err(|fault| Refusal {
            number: fault.number,
            line: fault.line,
        })
}

fn plain(text: &[u8], most_names: usize) -> Result<(), Refusal> {
    read(text, most_names).map(|_| ())
}

#[test]
fn generated_sheets_pass_where_they_may() {
    for seed in 1..=3_000 {
        let text = generate::sheet(seed).text();
        for (most_names, limits) in BOTH {
            let due = own_check(text.as_bytes(), limits);
            assert_eq!(plain(text.as_bytes(), most_names), due, "seed {seed}");
        }
        let text = generate::few(seed).text();
        for (most_names, _) in BOTH {
            assert_eq!(plain(text.as_bytes(), most_names), Ok(()), "seed {seed}");
        }
    }
}

#[test]
fn edges_answer_as_expected() {
    for (most_names, limits) in BOTH {
        for edge in edges::edges(limits) {
            let expected = edge.expected.map_err(|fault| Refusal {
                number: fault.number,
                line: fault.line,
            });
            assert_eq!(plain(&edge.text, most_names), expected, "{}", edge.label);
        }
    }
}

#[test]
fn damaged_sheets_answer_the_same() {
    let mut rng = Rng::new(21);
    for seed in 1..=30_000 {
        let text = generate::sheet(seed % 3_000 + 1).text();
        let damaged = damage::damage(text.as_bytes(), &mut rng);
        let shown = String::from_utf8_lossy(&damaged);
        for (most_names, limits) in BOTH {
            let due = own_check(&damaged, limits);
            assert_eq!(plain(&damaged, most_names), due, "{shown}");
        }
    }
}
