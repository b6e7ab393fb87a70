//! Sheets with one or two faults. Most faults are small, so that many damaged sheets pass the
//! early questions and are refused by the last.

mod bytes;
mod fields;
mod page;
mod rows;

use crate::rng::Rng;
use page::Page;

/// One kind of fault.
pub struct Way {
    /// What is done; no two ways are alike.
    pub label: &'static str,
    /// How often it is taken, beside the others.
    weight: usize,
    harm: Harm,
}

enum Harm {
    /// A change of rows and fields; needs a text that has the form of a sheet.
    Page(fn(&mut Page, &mut Rng)),
    Bytes(fn(&mut Vec<u8>, &mut Rng)),
}

/// Every kind of fault.
pub fn ways() -> Vec<Way> {
    let mut ways = Vec::new();
    ways.extend(fields::WAYS.iter().map(on_page));
    ways.extend(rows::WAYS.iter().map(on_page));
    ways.extend(bytes::WAYS.iter().map(|&(label, weight, harm)| Way {
        label,
        weight,
        harm: Harm::Bytes(harm),
    }));
    ways
}

fn on_page(&(label, weight, harm): &(&'static str, usize, fn(&mut Page, &mut Rng))) -> Way {
    Way {
        label,
        weight,
        harm: Harm::Page(harm),
    }
}

impl Way {
    /// The text with this fault; unchanged where it has no place for it.
    pub fn apply(&self, text: &[u8], rng: &mut Rng) -> Vec<u8> {
        match self.harm {
            Harm::Page(harm) => {
                let Some(mut page) = Page::read(text) else {
                    return text.to_vec();
                };
                harm(&mut page, rng);
                page.text()
            }
            Harm::Bytes(harm) => {
                let mut text = text.to_vec();
                harm(&mut text, rng);
                text
            }
        }
    }
}

/// The text with one fault or two; unchanged only where a few tries in a row change nothing.
pub fn damage(text: &[u8], rng: &mut Rng) -> Vec<u8> {
    let ways = ways();
    let weights: Vec<usize> = ways.iter().map(|way| way.weight).collect();
    let mut damaged = text.to_vec();
    for _ in 0..8 {
        let count = if rng.percent(70) { 1 } else { 2 };
        let mut taken: Vec<usize> = (0..count).map(|_| rng.weighted(&weights)).collect();
        // Faults of rows stand first in the list; they need a text that still has the form.
        taken.sort_unstable();
        for way in taken {
            damaged = ways[way].apply(&damaged, rng);
        }
        if damaged != text {
            break;
        }
    }
    damaged
}
