//! The original's scanner asked for the rows of a text and for its ending.

use crate::differences::first_character_outside;
use crate::kinds::number_of;
use crate::lexer::{LexError, Lexer};
use crate::parser::{SourceLoc, Token, TokenKind};
use crate::quiet::caught;
use crate::search::least;
use crate::terms::{Place, Refusal, Row};

/// The original's tokens, the row of each, and the refusal if there is one.
/// Without a refusal the last token is Eof.
pub struct Scan {
    pub tokens: Vec<Token>,
    pub rows: Vec<Row>,
    pub ending: Option<Refusal>,
}

/// Scans a text. A character of two bytes or more outside comments and strings is 11, where the original casts its bytes
/// (`differences`): it is asked about what stands in front of that character.
pub fn scan(text: &str) -> Scan {
    let Some(offset) = first_character_outside(text) else {
        return read(text);
    };
    let mut scanned = read(&text[..offset]);
    if scanned.ending.is_none() {
        scanned.tokens.pop();
        scanned.rows.pop();
        scanned.ending = Some(lexical(11, counted_place(text, offset)));
    }
    scanned
}

/// What the original reads in a text.
fn read(text: &str) -> Scan {
    let mut lexer = Lexer::new(text);
    let mut tokens: Vec<Token> = Vec::new();
    let mut ending = None;
    while ending.is_none() && !ends_with_eof(&tokens) {
        match caught(|| lexer.next_token()) {
            Ok(Ok(token)) => tokens.push(token),
            Ok(Err(error)) => ending = Some(refusal_of(text, error)),
            Err(panic) => ending = Some(refusal_of_panic(text, &panic)),
        }
    }
    let mut rows: Vec<Row> = tokens.iter().map(|token| row_of(text, token)).collect();
    count_comments(text, &mut rows);
    Scan {
        tokens,
        rows,
        ending,
    }
}

fn ends_with_eof(tokens: &[Token]) -> bool {
    tokens
        .last()
        .is_some_and(|token| token.kind == TokenKind::Eof)
}

/// A token's row; the end is where the lexeme ends.
fn row_of(text: &str, token: &Token) -> Row {
    let place = match token.kind {
        TokenKind::Eof => counted_place(text, token.loc.offset),
        _ => place_of(token.loc),
    };
    Row {
        kind: number_of(token.kind),
        start: place.offset,
        end: place.offset + token.lexeme.len() as u32,
        line: place.line,
        column: place.column,
        value: token.int_value.unwrap_or(0),
        comments: 0,
    }
}

/// Gives each row the number of comments in the gap before it.
fn count_comments(text: &str, rows: &mut [Row]) {
    let mut end = 0;
    for row in rows {
        row.comments = comments_of(&text[end..row.start as usize]);
        end = row.end as usize;
    }
}

/// How many comments a gap has, in which there are only comments and blanks.
fn comments_of(gap: &str) -> u32 {
    let mut rest = gap.trim_start();
    let mut count = 0;
    while !rest.is_empty() {
        let (opening, closing) = rest.split_at(2);
        let close = if opening == "//" { "\n" } else { "*/" };
        rest = closing
            .split_once(close)
            .map_or("", |(_, behind)| behind.trim_start());
        count += 1;
    }
    count
}

/// The position before the byte at `offset`, counted in the text.
pub fn counted_place(text: &str, offset: usize) -> Place {
    let before = &text.as_bytes()[..offset];
    let newlines = before.iter().filter(|&&byte| byte == b'\n').count();
    let since_newline = before
        .iter()
        .rev()
        .take_while(|&&byte| byte != b'\n')
        .count();
    Place {
        offset: offset as u32,
        line: 1 + newlines as u32,
        column: 1 + since_newline as u32,
    }
}

fn place_of(loc: SourceLoc) -> Place {
    Place {
        offset: loc.offset as u32,
        line: loc.line as u32,
        column: loc.column as u32,
    }
}

fn lexical(number: u32, place: Place) -> Refusal {
    Refusal::bare(number, place)
}

fn refusal_of(text: &str, (loc, message): LexError) -> Refusal {
    let number = match number_of_message(&message) {
        11 if is_hex_without_digit(&text[..loc.offset]) => 17,
        number => number,
    };
    lexical(number, place_of(loc))
}

/// Whether what stands in front of an invalid character is refused too: the original has one message for a byte that begins no
/// row, in front of which all is read, and for `0x` without a digit.
fn is_hex_without_digit(before: &str) -> bool {
    before.ends_with("0x") && Lexer::new(before).tokenize().is_err()
}

fn number_of_message(message: &str) -> u32 {
    match message {
        "Invalid character" => 11,
        "Unexpected character '<'" | "Unexpected character '>'" => 16,
        "Unterminated comment" => 12,
        "Unterminated string literal" => 13,
        _ if message.starts_with("Invalid escape sequence: ") => 14,
        _ => unreachable!("the original's scanner has no message {message:?}"),
    }
}

/// The scanner's only panic is an overflow in a number's digits.
fn refusal_of_panic(text: &str, message: &str) -> Refusal {
    match message {
        "attempt to multiply with overflow" | "attempt to add with overflow" => {
            lexical(15, place_of_overflowing_number(text))
        }
        _ => unreachable!("the original's scanner does not panic with {message:?}"),
    }
}

/// The start of the number at which the original panics. A beginning of the
/// text makes it panic exactly if it reaches the digit too many; so in the
/// longest beginning that does not, that number, cut short, is the last token.
fn place_of_overflowing_number(text: &str) -> Place {
    let shortest_panicking = least(text.len(), |length| {
        let whole = text.floor_char_boundary(length);
        caught(|| Lexer::new(&text[..whole]).tokenize()).is_err()
    });
    let tokens = Lexer::new(&text[..shortest_panicking - 1])
        .tokenize()
        .expect("a text that ends inside a number's digits scans");
    place_of(tokens[tokens.len() - 2].loc)
}

#[cfg(test)]
mod tests {
    use super::*;

    fn place(offset: u32, line: u32, column: u32) -> Place {
        Place {
            offset,
            line,
            column,
        }
    }

    #[test]
    fn places_are_counted_by_newlines_alone() {
        assert_eq!(counted_place("", 0), place(0, 1, 1));
        assert_eq!(counted_place("a\r\n\x0bb", 4), place(4, 2, 2));
    }

    #[test]
    fn an_overflowing_number_is_refused_at_its_start() {
        let texts = [
            ("9223372036854775808", place(0, 1, 1)),
            (
                "a\n /* 99999999999999999999 */ -9223372036854775808 @",
                place(30, 2, 29),
            ),
            ("9223372036854775807 0x08000000000000000;", place(20, 1, 21)),
            (
                "/*\u{20ac}\u{e9}*/99999999999999999999//\u{20ac}",
                place(9, 1, 10),
            ),
        ];
        for (text, start) in texts {
            assert_eq!(scan(text).ending, Some(lexical(15, start)), "{text}");
        }
    }

    /// What is 11 here is an identifier or a panic there.
    #[test]
    fn the_original_casts_each_byte_of_a_character() {
        assert_eq!(read("\u{ea}").rows[0].end, 2);
        assert!(caught(|| Lexer::new("\u{e9}").tokenize()).is_err());
        assert!(caught(|| Lexer::new("a\u{e9}").tokenize()).is_err());
        assert!(caught(|| Lexer::new("\u{a0}").tokenize()).is_err());
        for (text, rows, offset) in [
            ("\u{ea}", 0, 0),
            ("a\u{ea}", 1, 1),
            ("\"\u{ea}\"\u{ea}", 1, 4),
        ] {
            let scanned = scan(text);
            assert_eq!(scanned.rows.len(), rows, "{text}");
            let refused = lexical(11, counted_place(text, offset));
            assert_eq!(scanned.ending, Some(refused), "{text}");
        }
    }
}
