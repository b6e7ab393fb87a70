//! Faults of single bytes and of the text's end.

// All ways have one type, also those that need no more than a slice.
#![allow(clippy::ptr_arg)]

use crate::rng::Rng;
use crate::sheet::limits;

type Harm = fn(&mut Vec<u8>, &mut Rng);

/// Each fault with how often it is taken.
pub(super) const WAYS: &[(&str, usize, Harm)] = &[
    ("a bit flipped", 2, flip),
    ("a byte replaced", 1, replace),
    ("a byte inserted", 1, insert),
    ("a byte deleted", 2, delete),
    ("a byte doubled", 2, double),
    ("a digit changed", 12, digit),
    ("a digit deleted", 3, delete_digit),
    ("a digit doubled", 3, double_digit),
    ("a leading zero", 1, leading_zero),
    ("a sign", 1, sign),
    ("a space doubled", 1, double_space),
    ("a tab for a space", 1, tab),
    ("a space before a line end", 1, trailing_space),
    ("CR before a line end", 1, carriage_return),
    ("CR before every line end", 1, carriage_returns),
    ("NUL", 1, nul),
    ("a byte that is no UTF-8", 1, no_utf8),
    ("a line end deleted", 1, join),
    ("an empty line", 1, empty_line),
    ("the end cut off", 1, truncate),
    ("the last empty line missing", 1, no_last_line),
    ("bytes behind the end", 1, behind),
    ("more bytes than a sheet may have", 1, too_long),
];

/// The places of the bytes that satisfy a condition.
fn places(text: &[u8], holds: impl Fn(u8) -> bool) -> Vec<usize> {
    (0..text.len()).filter(|&at| holds(text[at])).collect()
}

/// One of these places, if there is any.
fn place(text: &[u8], rng: &mut Rng, holds: impl Fn(u8) -> bool) -> Option<usize> {
    let places = places(text, holds);
    (!places.is_empty()).then(|| *rng.pick(&places))
}

/// The first digit of a value.
fn value(text: &[u8], rng: &mut Rng) -> Option<usize> {
    let mut starts = places(text, |b| b.is_ascii_digit());
    starts.retain(|&at| at > 0 && matches!(text[at - 1], b' ' | b'\n'));
    (!starts.is_empty()).then(|| *rng.pick(&starts))
}

fn flip(text: &mut Vec<u8>, rng: &mut Rng) {
    if let Some(at) = place(text, rng, |_| true) {
        text[at] ^= 1 << rng.below(8);
    }
}

fn replace(text: &mut Vec<u8>, rng: &mut Rng) {
    if let Some(at) = place(text, rng, |_| true) {
        text[at] = rng.below(256) as u8;
    }
}

fn insert(text: &mut Vec<u8>, rng: &mut Rng) {
    let at = rng.between(0, text.len());
    text.insert(at, rng.below(256) as u8);
}

fn delete(text: &mut Vec<u8>, rng: &mut Rng) {
    if let Some(at) = place(text, rng, |_| true) {
        text.remove(at);
    }
}

fn double(text: &mut Vec<u8>, rng: &mut Rng) {
    if let Some(at) = place(text, rng, |_| true) {
        text.insert(at, text[at]);
    }
}

fn digit(text: &mut Vec<u8>, rng: &mut Rng) {
    if let Some(at) = place(text, rng, |b| b.is_ascii_digit()) {
        text[at] = b'0' + rng.below(10) as u8;
    }
}

fn delete_digit(text: &mut Vec<u8>, rng: &mut Rng) {
    if let Some(at) = place(text, rng, |b| b.is_ascii_digit()) {
        text.remove(at);
    }
}

fn double_digit(text: &mut Vec<u8>, rng: &mut Rng) {
    if let Some(at) = place(text, rng, |b| b.is_ascii_digit()) {
        text.insert(at, text[at]);
    }
}

fn leading_zero(text: &mut Vec<u8>, rng: &mut Rng) {
    if let Some(at) = value(text, rng) {
        text.insert(at, b'0');
    }
}

fn sign(text: &mut Vec<u8>, rng: &mut Rng) {
    if let Some(at) = value(text, rng) {
        text.insert(at, *rng.pick(b"+-"));
    }
}

fn double_space(text: &mut Vec<u8>, rng: &mut Rng) {
    if let Some(at) = place(text, rng, |b| b == b' ') {
        text.insert(at, b' ');
    }
}

fn tab(text: &mut Vec<u8>, rng: &mut Rng) {
    if let Some(at) = place(text, rng, |b| b == b' ') {
        text[at] = b'\t';
    }
}

fn trailing_space(text: &mut Vec<u8>, rng: &mut Rng) {
    if let Some(at) = place(text, rng, |b| b == b'\n') {
        text.insert(at, b' ');
    }
}

fn carriage_return(text: &mut Vec<u8>, rng: &mut Rng) {
    if let Some(at) = place(text, rng, |b| b == b'\n') {
        text.insert(at, b'\r');
    }
}

fn carriage_returns(text: &mut Vec<u8>, _: &mut Rng) {
    for at in places(text, |b| b == b'\n').into_iter().rev() {
        text.insert(at, b'\r');
    }
}

fn nul(text: &mut Vec<u8>, rng: &mut Rng) {
    let at = rng.between(0, text.len());
    text.insert(at, 0);
}

fn no_utf8(text: &mut Vec<u8>, rng: &mut Rng) {
    let at = rng.between(0, text.len());
    text.insert(at, rng.between(0x80, 0xff) as u8);
}

fn join(text: &mut Vec<u8>, rng: &mut Rng) {
    if let Some(at) = place(text, rng, |b| b == b'\n') {
        text.remove(at);
    }
}

fn empty_line(text: &mut Vec<u8>, rng: &mut Rng) {
    if let Some(at) = place(text, rng, |b| b == b'\n') {
        text.insert(at, b'\n');
    }
}

fn truncate(text: &mut Vec<u8>, rng: &mut Rng) {
    text.truncate(rng.below(text.len()));
}

fn no_last_line(text: &mut Vec<u8>, _: &mut Rng) {
    text.pop();
}

fn behind(text: &mut Vec<u8>, rng: &mut Rng) {
    let bytes = *rng.pick(&["\n", "0", " ", "1\n", "name\n\n"]);
    text.extend_from_slice(bytes.as_bytes());
}

fn too_long(text: &mut Vec<u8>, rng: &mut Rng) {
    text.resize(limits::BYTES + rng.between(1, 9), b'\n');
}
