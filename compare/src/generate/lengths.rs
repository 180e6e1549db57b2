//! Texts of 65,535, 65,536 and 65,537 bytes. The last are not compared:
//! LANGUAGE.md answers 1.

use crate::terms::LONGEST_TEXT;

/// What stands first, what is repeated to fill the length, and what stands last.
struct Filling {
    first: &'static str,
    repeated: &'static str,
    last: &'static str,
}

const FILLINGS: [Filling; 15] = [
    filling("", " ", ""),
    filling("", "\n", ""),
    filling("", "a", ""),
    filling("", ";", ""),
    filling("", "0", "1"),
    filling("\"", "n", "\""),
    filling("\"", "n", ""),
    filling("/*", "*", "*/"),
    filling("/*", "*", ""),
    filling("unit u{", " x+=1;\n", "}"),
    filling("unit u{a", "+a", ";}"),
    filling("unit u{a", ".b", ";}"),
    filling("unit u{", "*", "x;}"),
    filling("unit u{", "(", ""),
    filling("unit u{", "(", "1.m()"),
];

const fn filling(first: &'static str, repeated: &'static str, last: &'static str) -> Filling {
    Filling {
        first,
        repeated,
        last,
    }
}

/// Each filling at each length around the limit; blanks fill what a repetition
/// does not.
pub fn texts() -> impl Iterator<Item = Vec<u8>> {
    FILLINGS.iter().flat_map(|filling| {
        [LONGEST_TEXT - 1, LONGEST_TEXT, LONGEST_TEXT + 1].map(|length| filled(filling, length))
    })
}

fn filled(filling: &Filling, length: usize) -> Vec<u8> {
    let room = length - filling.first.len() - filling.last.len();
    let mut text = filling.first.to_string();
    text.push_str(&filling.repeated.repeat(room / filling.repeated.len()));
    text.push_str(&" ".repeat(room % filling.repeated.len()));
    text.push_str(filling.last);
    text.into_bytes()
}

#[cfg(test)]
mod tests {
    use super::*;

    #[test]
    fn lengths_are_around_the_limit() {
        let mut lengths: Vec<usize> = texts().map(|text| text.len()).collect();
        lengths.sort();
        lengths.dedup();
        assert_eq!(lengths, [65_535, 65_536, 65_537]);
    }
}
