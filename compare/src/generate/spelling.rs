//! Spellings of tokens, and texts made of them with gaps between.

use super::random::Random;

/// A text's tokens as they are spelt, without the gaps.
pub type Spellings = Vec<String>;

pub const WORDS: [&str; 21] = [
    "unit", "section", "license", "return", "reg", "imm", "map", "type", "key", "value", "max",
    "if", "else", "guard", "heap", "event", "bytes", "u32", "u64", "i32", "i64",
];

pub const SIGNS: [&str; 23] = [
    "{", "}", "(", ")", ":", ".", ",", ";", "[", "]", "=", "+=", "-=", "*=", "/=", "%=", "+", "-",
    "*", "/", "%", "<<", ">>",
];

/// Names, among them some that begin as reserved words and numbers do.
pub const NAMES: [&str; 12] = [
    "a", "b", "c", "x1", "_", "unit_", "maps", "u33", "U32", "hash", "x0f", "e9",
];

pub const NUMBERS: [&str; 14] = [
    "0",
    "1",
    "2",
    "7",
    "63",
    "64",
    "-1",
    "-0",
    "0x1F",
    "-0xa",
    "4294967295",
    "4294967296",
    "007",
    "9223372036854775807",
];

pub const STRINGS: [&str; 6] = [
    "\"\"",
    "\"xdp\"",
    "\"GPL\"",
    "\"a\\\"b\"",
    "\"\\\\\\n\"",
    "\"tc/x\"",
];

const GAPS: [&str; 10] = [
    " ", " ", " ", "  ", "\n", "\t", "\r\n", "// c\n", "/* */", "/**\n/*/",
];

/// Any token.
pub fn any_token(random: &mut Random) -> &'static str {
    match random.below(10) {
        0..=1 => random.pick(&WORDS),
        2..=5 => random.pick(&SIGNS),
        6..=7 => random.pick(&NAMES),
        8 => random.pick(&NUMBERS),
        _ => random.pick(&STRINGS),
    }
}

/// A text of these tokens: gaps where two tokens would not stay two, and here
/// and there elsewhere.
pub fn joined(random: &mut Random, tokens: &[String]) -> Vec<u8> {
    let mut text = String::new();
    for (index, token) in tokens.iter().enumerate() {
        if random.one_in(12) {
            push_gap(random, &mut text);
        } else if index > 0 && would_merge(&tokens[index - 1], token) {
            text.push(' ');
        }
        text.push_str(token);
    }
    if random.one_in(12) {
        push_gap(random, &mut text);
    }
    text.into_bytes()
}

/// A gap; behind a `/` it begins with a blank, so that the `/` stays a token.
fn push_gap(random: &mut Random, text: &mut String) {
    if text.ends_with('/') {
        text.push(' ');
    }
    text.push_str(random.pick(&GAPS));
}

/// Whether two tokens with nothing between them are read as something else.
fn would_merge(left: &str, right: &str) -> bool {
    let (Some(last), Some(first)) = (left.bytes().last(), right.bytes().next()) else {
        return false;
    };
    match last {
        b'-' => first.is_ascii_digit() || first == b'=',
        b'/' => matches!(first, b'/' | b'*' | b'='),
        b'+' | b'*' | b'%' => first == b'=',
        _ => is_word_byte(last) && is_word_byte(first),
    }
}

fn is_word_byte(byte: u8) -> bool {
    byte.is_ascii_alphanumeric() || byte == b'_'
}

#[cfg(test)]
mod tests {
    use super::*;
    use crate::scan::scan;

    /// However they are joined, tokens are read back as they were.
    #[test]
    fn joined_tokens_stay_themselves() {
        let mut random = Random::new(3);
        for _ in 0..2000 {
            let tokens: Spellings = (0..12)
                .map(|_| any_token(&mut random).to_string())
                .collect();
            let text = String::from_utf8(joined(&mut random, &tokens)).unwrap();
            let read = scan(&text).tokens;
            let spelt: Spellings = read.into_iter().map(|token| token.lexeme).collect();
            assert_eq!(spelt[..spelt.len() - 1], tokens, "{text:?}");
        }
    }
}
