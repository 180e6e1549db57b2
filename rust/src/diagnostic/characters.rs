//! What characters are called, and what is meant where one stands that begins nothing.

use crate::columns::{is_mark, shows};

/// Blanks that are none here, and what does not show, each with its name.
const BLANKS: [(char, &str); 25] = [
    ('\u{85}', "a next-line character"),
    ('\u{a0}', "a no-break space"),
    ('\u{ad}', "a soft hyphen"),
    ('\u{1680}', "an ogham space"),
    ('\u{2000}', "an en quad"),
    ('\u{2001}', "an em quad"),
    ('\u{2002}', "an en space"),
    ('\u{2003}', "an em space"),
    ('\u{2004}', "a three-per-em space"),
    ('\u{2005}', "a four-per-em space"),
    ('\u{2006}', "a six-per-em space"),
    ('\u{2007}', "a figure space"),
    ('\u{2008}', "a punctuation space"),
    ('\u{2009}', "a thin space"),
    ('\u{200a}', "a hair space"),
    ('\u{200b}', "a zero-width space"),
    ('\u{200c}', "a zero-width non-joiner"),
    ('\u{200d}', "a zero-width joiner"),
    ('\u{2028}', "a line separator"),
    ('\u{2029}', "a paragraph separator"),
    ('\u{202f}', "a narrow no-break space"),
    ('\u{205f}', "a mathematical space"),
    ('\u{2060}', "a word joiner"),
    ('\u{3000}', "an ideographic space"),
    ('\u{feff}', "a byte order mark"),
];

/// Quotes other than `"`.
const QUOTES: &str = "'`´‘’‚‛“”„‟«»‹›「」＂＇";

/// Signs that look like one of the language's.
const ALIKE: [(char, &str); 18] = [
    ('−', "-"),
    ('–', "-"),
    ('—', "-"),
    ('‐', "-"),
    ('×', "*"),
    ('∗', "*"),
    ('÷', "/"),
    ('∕', "/"),
    ('；', ";"),
    ('：', ":"),
    ('，', ","),
    ('．', "."),
    ('（', "("),
    ('）', ")"),
    ('｛', "{"),
    ('｝', "}"),
    ('＝', "="),
    ('＋', "+"),
];

/// What a blank is called that is none in this language.
pub fn blank(letter: char) -> Option<&'static str> {
    let found = BLANKS.iter().find(|(blank, _)| *blank == letter);
    found.map(|(_, name)| *name)
}

/// Whether a character is a quote of any kind.
pub fn is_quote(letter: char) -> bool {
    letter == '"' || QUOTES.contains(letter)
}

/// The sign that a character looks like.
pub fn alike(letter: char) -> Option<&'static str> {
    let found = ALIKE.iter().find(|(sign, _)| *sign == letter);
    found.map(|(_, sign)| *sign)
}

/// Whether a character is part of an operator that other languages have.
pub fn is_operator(letter: char) -> bool {
    "!&|^~?=<>".contains(letter)
}

/// Why an operator is none here.
pub fn no_operator(sign: &str) -> String {
    let lack = match sign {
        "!" => "no negation",
        "&&" | "||" => "no logical operators",
        "&" | "|" | "^" | "~" | "&=" | "|=" | "^=" => "no bitwise operators",
        "?" => "no conditional expressions",
        "->" => "no pointers to follow",
        "<<<" | ">>>" | "<<=" | ">>=" => "the shifts '<<' and '>>' only",
        _ => "no comparisons",
    };
    format!("Solnix has {lack}: '{sign}' is not an operator")
}

/// A character in quotes, by its number where it would not show there.
pub fn named(letter: char) -> String {
    match letter {
        _ if letter.is_ascii() => format!("'{}'", (letter as u8).escape_ascii()),
        _ if !shows(letter) || is_mark(letter) || letter.is_whitespace() => {
            format!("'{}'", letter.escape_unicode())
        }
        _ => format!("'{letter}'"),
    }
}

#[cfg(test)]
mod tests {
    use super::*;

    #[test]
    fn what_begins_nothing_is_named() {
        let cases = [
            ('@', "'@'"),
            ('\u{1}', "'\\x01'"),
            ('°', "'°'"),
            ('角', "'角'"),
            ('\u{a0}', "'\\u{a0}'"),
            ('\u{301}', "'\\u{301}'"),
            ('\u{202e}', "'\\u{202e}'"),
        ];
        for (letter, wanted) in cases {
            assert_eq!(named(letter), wanted);
        }
    }

    #[test]
    fn blanks_and_quotes_are_known() {
        assert_eq!(blank('\u{a0}'), Some("a no-break space"));
        assert_eq!((blank(' '), blank('\n')), (None, None));
        assert!(is_quote('”') && is_quote('\'') && is_quote('"') && !is_quote('a'));
        assert_eq!((alike('−'), alike('-')), (Some("-"), None));
    }
}
