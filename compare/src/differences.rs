//! Where LANGUAGE.md says something else than the original.
//!
//! 11: a character of two bytes or more outside comments and strings is refused. The original casts each of its bytes to a
//! character of its own, takes it into an identifier, or panics.
//!
//! Two refusals are not known to the original's parser:
//!
//! 27: the original casts `max` and event lengths to 32 bits silently.
//! 32: the original has no limit on nesting.
//!
//! For a text whose rows are in the grammar up to the row in question, that row
//! is found here by walks over the rows without recursion. Where the rows leave
//! the grammar before, the original refuses before, and what the walks find
//! behind that is not used.

use crate::parser::{Token, TokenKind};

/// A refusal of LANGUAGE.md that the original does not give, and its row.
#[derive(Debug, Clone, Copy, PartialEq, Eq)]
pub struct Difference {
    pub number: u32,
    pub row: usize,
}

/// The offset of the first character of two bytes or more that stands outside comments and strings. Where the scan is refused
/// before, what is found behind that is not used.
pub fn first_character_outside(text: &str) -> Option<usize> {
    let bytes = text.as_bytes();
    let mut index = 0;
    while index < bytes.len() && bytes[index] < 128 {
        index += match &bytes[index..] {
            [b'/', b'/', line @ ..] => 2 + before(line, b"\n"),
            [b'/', b'*', inside @ ..] => 2 + before(inside, b"*/") + 2,
            [b'"', inside @ ..] => 1 + string_length(inside),
            _ => 1,
        };
    }
    (index < bytes.len()).then_some(index)
}

/// How many bytes stand before an ending, all where there is none.
fn before(bytes: &[u8], ending: &[u8]) -> usize {
    let found = bytes.windows(ending.len()).position(|part| part == ending);
    found.unwrap_or(bytes.len())
}

/// How many bytes a string has behind its opening quote: up to its closing one, or all. A backslash takes the next byte along.
fn string_length(bytes: &[u8]) -> usize {
    let mut index = 0;
    while index < bytes.len() && bytes[index] != b'"' {
        index += if bytes[index] == b'\\' { 2 } else { 1 };
    }
    index + 1
}

/// The constructs that may be open at once.
const NESTING_LIMIT: usize = 64;

/// The first row at which LANGUAGE.md refuses with 27 or 32.
pub fn first_named_difference(tokens: &[Token]) -> Option<Difference> {
    let too_large = number_too_large(tokens).map(|row| Difference { number: 27, row });
    let too_deep = opening_too_deep(tokens).map(|row| Difference { number: 32, row });
    too_large
        .into_iter()
        .chain(too_deep)
        .min_by_key(|difference| difference.row)
}

/// The first number at which `max` is over 2^32 - 1 or a length outside 0 to 2^32 - 1.
fn number_too_large(tokens: &[Token]) -> Option<usize> {
    (0..tokens.len()).find_map(|row| match tokens[row].kind {
        TokenKind::KeywordMax => max_too_large(tokens, row),
        TokenKind::LBracket => length_out_of_range(tokens, row),
        _ => None,
    })
}

/// The value of the number at `row`, if there is one.
fn number_at(tokens: &[Token], row: usize) -> Option<i64> {
    tokens.get(row)?.int_value
}

fn length_out_of_range(tokens: &[Token], bracket: usize) -> Option<usize> {
    let length = number_at(tokens, bracket + 1)?;
    u32::try_from(length).is_err().then_some(bracket + 1)
}

/// The last number of the expression behind `max :`, if its value is too large.
/// A missing number or a count outside 0 to 63 is refused by the original.
fn max_too_large(tokens: &[Token], max: usize) -> Option<usize> {
    let mut row = max + 2;
    let mut value = number_at(tokens, row)?;
    while let Some(operator @ (TokenKind::Shl | TokenKind::Shr)) =
        tokens.get(row + 1).map(|token| token.kind)
    {
        row += 2;
        let count = u32::try_from(number_at(tokens, row)?).ok()?;
        value = match operator {
            TokenKind::Shl => value.checked_shl(count)?,
            _ => value.checked_shr(count)?,
        };
    }
    (value > i64::from(u32::MAX)).then_some(row)
}

/// What a walk over the rows has met and not yet left.
#[derive(Debug, Clone, Copy, PartialEq, Eq)]
enum Open {
    Star,
    Parenthesis { counted: bool },
    Brace { counted: bool },
}

impl Open {
    fn counts(self) -> bool {
        match self {
            Open::Star => true,
            Open::Parenthesis { counted } | Open::Brace { counted } => counted,
        }
    }
}

/// The constructs open at a row, innermost last, and how many of them count.
#[derive(Default)]
struct Opens {
    stack: Vec<Open>,
    counted: usize,
}

impl Opens {
    fn push(&mut self, construct: Open) {
        self.counted += usize::from(construct.counts());
        self.stack.push(construct);
    }

    fn pop(&mut self) {
        if let Some(construct) = self.stack.pop() {
            self.counted -= usize::from(construct.counts());
        }
    }

    fn close_stars(&mut self) {
        while self.stack.last() == Some(&Open::Star) {
            self.pop();
        }
    }
}

/// The row that opens the 65th construct.
fn opening_too_deep(tokens: &[Token]) -> Option<usize> {
    let mut opens = Opens::default();
    for row in 0..tokens.len() {
        if operand_is_complete(tokens, row) {
            opens.close_stars();
        }
        match tokens[row].kind {
            TokenKind::RParen | TokenKind::RBrace => opens.pop(),
            _ => {
                if let Some(construct) = opened_at(tokens, row) {
                    opens.push(construct);
                }
            }
        }
        if opens.counted > NESTING_LIMIT {
            return Some(row);
        }
    }
    None
}

fn kind_before(tokens: &[Token], row: usize) -> Option<TokenKind> {
    Some(tokens[row.checked_sub(1)?].kind)
}

/// Whether the row before ends an operand: a number, a name or a `)`.
fn follows_operand(tokens: &[Token], row: usize) -> bool {
    matches!(
        kind_before(tokens, row),
        Some(TokenKind::Number | TokenKind::Identifier | TokenKind::RParen)
    )
}

/// Whether an operand ends before `row`, with no `.` or argument list to follow.
fn operand_is_complete(tokens: &[Token], row: usize) -> bool {
    follows_operand(tokens, row) && !matches!(tokens[row].kind, TokenKind::Dot | TokenKind::LParen)
}

/// What the row opens: a `*` that is no multiplication, a group, an argument
/// list, the guard's parentheses, a body or a declaration's braces.
fn opened_at(tokens: &[Token], row: usize) -> Option<Open> {
    match tokens[row].kind {
        TokenKind::Star if !follows_operand(tokens, row) => Some(Open::Star),
        TokenKind::LParen => Some(Open::Parenthesis {
            counted: parenthesis_counts(tokens, row),
        }),
        TokenKind::LBrace => Some(Open::Brace {
            counted: matches!(
                kind_before(tokens, row),
                Some(TokenKind::RParen | TokenKind::KeywordElse)
            ),
        }),
        _ => None,
    }
}

/// The guard's parenthesis does not count, nor an argument list followed by `)`.
fn parenthesis_counts(tokens: &[Token], row: usize) -> bool {
    match kind_before(tokens, row) {
        Some(TokenKind::KeywordGuard) => false,
        Some(TokenKind::Identifier) => tokens
            .get(row + 1)
            .is_some_and(|next| next.kind != TokenKind::RParen),
        _ => true,
    }
}

#[cfg(test)]
mod tests {
    use super::*;
    use crate::scan::scan;

    fn difference(text: &str) -> Option<Difference> {
        first_named_difference(&scan(text).tokens)
    }

    #[test]
    fn characters_inside_comments_and_strings_are_passed_over() {
        for text in [
            "",
            "a",
            "//\u{e9}",
            "/*\u{20ac}*/ //",
            "\"\\\"\u{e9}\"",
            "/*\u{e9}",
            "\"\u{e9}",
            "\"\\",
        ] {
            assert_eq!(first_character_outside(text), None, "{text}");
        }
        for (text, offset) in [
            ("\u{e9}", 0),
            ("a/\u{e9}", 2),
            ("//\n\u{e9}", 3),
            ("/*/*/\u{e9}", 5),
            ("\"//\"\u{e9}", 4),
        ] {
            assert_eq!(first_character_outside(text), Some(offset), "{text}");
        }
    }

    #[test]
    fn numbers_are_judged_by_their_final_value() {
        let at = |row| Some(Difference { number: 27, row });
        assert_eq!(difference("map m{max:4294967295;}"), None);
        assert_eq!(difference("map m{max:4294967296;}"), at(5));
        assert_eq!(difference("map m{max:4294967296>>0;}"), at(7));
        assert_eq!(difference("map m{max:1<<40>>40;}"), None);
        assert_eq!(difference("map m{max:1<<63;}"), None);
        assert_eq!(difference("event e{a:u32[4294967295];}"), None);
        assert_eq!(difference("event e{a:u32[4294967296];}"), at(7));
        assert_eq!(difference("event e{a:bytes[-1];}"), at(7));
    }

    #[test]
    fn a_star_is_open_until_its_operand_ends() {
        let stars = "*".repeat(63);
        let at = |row| Some(Difference { number: 32, row });
        assert_eq!(difference(&format!("unit u{{{stars}a.f(x)+*(b);}}")), None);
        assert_eq!(
            difference(&format!("unit u{{*{stars}a.f(x);}}")),
            at(3 + 64 + 3)
        );
        assert_eq!(difference(&format!("unit u{{*{stars}a.f();}}")), None);
        assert_eq!(difference(&format!("unit u{{**{stars}a;}}")), at(3 + 64));
    }

    #[test]
    fn the_guards_parentheses_and_declarations_do_not_count() {
        let bodies = "if guard(a){".repeat(64);
        let closed = "}".repeat(64);
        assert_eq!(difference(&format!("unit u{{{bodies}{closed}}}")), None);
        assert_eq!(
            difference(&format!("unit u{{{bodies}if guard(a){{}}{closed}}}")),
            Some(Difference {
                number: 32,
                row: 3 + 64 * 6 + 5
            })
        );
    }
}
