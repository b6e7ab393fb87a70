//! Words, numbers, texts and signs with their places.

use crate::tree::Position;

#[derive(Clone, Debug, PartialEq, Eq)]
pub(super) enum Token {
    Word(String),
    Number,
    /// What stands between the quotes.
    Text(String),
    /// One of [`SIGNS`], or a line's end.
    Sign(&'static str),
}

/// A sign that begins another one comes after it.
const SIGNS: [&str; 24] = [
    ":=", ":", "==", "=", "!=", "<=", "<", ">=", ">", "+", "-", "*", "/", "%", "|", "(", ")", "[",
    "]", "{", "}", ",", ".", ";",
];

/// # Panics
/// At a character that begins no token.
pub(super) fn tokens(text: &str) -> Vec<(Token, Position)> {
    let mut all = Vec::new();
    for (line, number) in text.lines().zip(1..) {
        let at = |rest: &str| Position {
            line: number,
            col: (line.len() - rest.len()) as u16 + 1,
        };
        let mut rest = line.trim_start();
        while !rest.is_empty() {
            let (token, length) = first(rest);
            all.push((token, at(rest)));
            rest = rest[length..].trim_start();
        }
        all.push((Token::Sign("\n"), at(rest)));
    }
    all
}

/// The token that the text begins with, and its length.
fn first(text: &str) -> (Token, usize) {
    if let Some(quoted) = text.strip_prefix('"') {
        let (inner, _) = quoted.split_once('"').expect("a closing quote");
        return (Token::Text(inner.to_string()), inner.len() + 2);
    }
    let word = text.bytes().take_while(|&b| is_word_byte(b)).count();
    if is_word(&text[..word]) {
        return (Token::Word(text[..word].to_string()), word);
    }
    if word > 0 {
        return (Token::Number, word);
    }
    let sign = SIGNS.iter().find(|sign| text.starts_with(**sign));
    let sign = sign.unwrap_or_else(|| panic!("no token: {text}"));
    (Token::Sign(sign), sign.len())
}

fn is_word_byte(byte: u8) -> bool {
    byte.is_ascii_alphanumeric() || byte == b'_'
}

/// A letter or `_`, then letters, digits and `_`.
pub(super) fn is_word(text: &str) -> bool {
    text.bytes().all(is_word_byte) && text.starts_with(|c: char| !c.is_ascii_digit())
}
