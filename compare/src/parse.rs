//! The original's parser asked about a scanned text.
//!
//! Each of its messages stands for one refusal number, and comes with the place.
//! A panic comes without one. Its place is found with the parser itself: it reads
//! left to right and panics right after it took the row that decides, so the
//! shortest beginning of the rows (Eof behind it) that makes it panic ends with
//! that row. For 28 that row is the count itself; for 29 it is the map's `}`, and
//! the place is the row behind it; for 31 it is the call's `)`, and the place is
//! the row before the `(` that belongs to it.
//!
//! The kinds that would have fitted are the chart's. The row that the original
//! refuses must be none of them, and the kind that it wants one.

use crate::ast::Program;
use crate::chart::{fitting, has, Set};
use crate::differences::first_named_difference;
use crate::kinds::{number_of, KINDS};
use crate::nodes::{row_at, tree_of};
use crate::parser::{parse_program, ParseError, Parser, Token, TokenKind};
use crate::quiet::caught;
use crate::search::least;
use crate::terms::{Parsed, Refusal, Row};

/// The original's own outcome. `decided_at` is the row that it was reading when
/// it refused, which is behind the refusal's place for 31.
enum Outcome {
    Accepted(Program),
    Refused { refusal: Refusal, decided_at: usize },
}

/// What comes of parsing a text that has these tokens and rows, Eof last.
pub fn parse(tokens: &[Token], rows: &[Row]) -> Parsed {
    let difference = first_named_difference(tokens);
    match (outcome(tokens, rows), difference) {
        (Outcome::Accepted(program), None) => Parsed::Accepted(tree_of(&program, tokens)),
        (Outcome::Refused { refusal, .. }, None) => Parsed::Refused(refusal),
        (
            Outcome::Refused {
                refusal,
                decided_at,
            },
            Some(difference),
        ) if decided_at <= difference.row => Parsed::Refused(refusal),
        (_, Some(difference)) => Parsed::NotComparable {
            number: difference.number,
        },
    }
}

/// The original's own tree of a text that has these tokens, Eof last, if it accepts the text and LANGUAGE.md does too.
pub fn accepted(tokens: &[Token]) -> Option<Program> {
    match (run(tokens.to_vec()), first_named_difference(tokens)) {
        (Ok(Ok(program)), None) => Some(program),
        _ => None,
    }
}

fn outcome(tokens: &[Token], rows: &[Row]) -> Outcome {
    match run(tokens.to_vec()) {
        Ok(Ok(program)) => Outcome::Accepted(program),
        Ok(Err(error)) => refused(error, tokens, rows),
        Err(panic) => panicked(&panic, tokens, rows),
    }
}

/// Runs the original's parser; the outer error is a panic's message.
fn run(tokens: Vec<Token>) -> Result<Result<Program, ParseError>, String> {
    caught(|| parse_program(&mut Parser::new(tokens)?))
}

fn refused((loc, message): ParseError, tokens: &[Token], rows: &[Row]) -> Outcome {
    let row = row_at(tokens, loc.offset);
    let found = tokens[row].kind;
    let (number, field) = number_and_field(&message);
    let mut refusal = Refusal::bare(number, rows[row].place());
    refusal.told = [field, 0];
    if let 21 | 22 | 23 | 25 | 30 = number {
        let set = fitting_in_place_of(lost_row(number, tokens, row), tokens);
        if number == 21 {
            let wanted = wanted_in(&message, found);
            assert!(has(set, number_of(wanted)), "{message} does not fit");
        }
        refusal = refusal.with_set(set, number_of(found));
    }
    Outcome::Refused {
        refusal,
        decided_at: row,
    }
}

/// The row that a refusal at `row` is about: of 25 the one that should have been
/// the type, which stands in front unless it is Eof.
fn lost_row(number: u32, tokens: &[Token], row: usize) -> usize {
    match number {
        25 if tokens[row - 2].kind == TokenKind::Colon => row - 1,
        _ => row,
    }
}

/// What the chart says of the rows in front of one that the original refuses:
/// programs begin with them, and none goes on with that row.
fn fitting_in_place_of(lost: usize, tokens: &[Token]) -> Set {
    let kinds = tokens[..lost].iter().map(|token| number_of(token.kind));
    let set = fitting(kinds).expect("programs begin with what the original reads");
    assert!(
        !has(set, number_of(tokens[lost].kind)),
        "what the original refuses fits"
    );
    set
}

/// The number that a message stands for, and the field that a map lacks.
fn number_and_field(message: &str) -> (u32, u32) {
    match message {
        "Expected 'map', 'unit', or 'event'" => (22, 0),
        "Expected type (u32, u64, i32, i64)" => (25, 0),
        "max_entries must be >= 0" => (26, 0),
        "Map missing required field: key" => (29, 2),
        "Map missing required field: value" => (29, 3),
        "Map missing required field: max" | "Ringbuf map requires: max" => (29, 4),
        "Invalid event field type" => (30, 0),
        _ if message.starts_with("Unexpected token inside map: ") => (23, 0),
        _ if message.starts_with("Unknown map type: ") => (24, 0),
        _ => (21, 0),
    }
}

/// The kind that a message `Expected .., found ..` wants.
fn wanted_in(message: &str, found: TokenKind) -> TokenKind {
    KINDS
        .into_iter()
        .find(|wanted| message == format!("Expected {wanted}, found {found}"))
        .unwrap_or_else(|| unreachable!("the original's parser has no message {message:?}"))
}

fn panicked(message: &str, tokens: &[Token], rows: &[Row]) -> Outcome {
    let decided_at = deciding_row(tokens);
    let (number, row, field) = match message {
        "attempt to shift left with overflow" | "attempt to shift right with overflow" => {
            (28, decided_at, 0)
        }
        "called `Option::unwrap()` on a `None` value" => (29, decided_at + 1, 1),
        "Unsupported method receiver" => (31, method_before(tokens, decided_at), 0),
        _ => unreachable!("the original's parser does not panic with {message:?}"),
    };
    Outcome::Refused {
        refusal: Refusal {
            told: [field, 0],
            ..Refusal::bare(number, rows[row].place())
        },
        decided_at,
    }
}

/// The row behind whose taking the original panics.
fn deciding_row(tokens: &[Token]) -> usize {
    let shortest_panicking = least(tokens.len(), |count| run(beginning(tokens, count)).is_err());
    shortest_panicking - 1
}

/// The first `count` tokens with an Eof behind them.
fn beginning(tokens: &[Token], count: usize) -> Vec<Token> {
    let mut beginning = tokens[..count].to_vec();
    beginning.push(Token::eof(0));
    beginning
}

/// The method name of the call whose arguments end with the `)` at `closing`:
/// the row before the `(` that belongs to it.
fn method_before(tokens: &[Token], closing: usize) -> usize {
    let mut open = 0;
    for row in (0..=closing).rev() {
        match tokens[row].kind {
            TokenKind::RParen => open += 1,
            TokenKind::LParen => open -= 1,
            _ => {}
        }
        if open == 0 {
            return row - 1;
        }
    }
    unreachable!("the original closes only calls that it has opened")
}

#[cfg(test)]
mod tests {
    use super::*;

    /// "Expected .., found .." is read back without doubt.
    #[test]
    fn every_wanted_kind_is_read_back() {
        for wanted in KINDS {
            for found in KINDS {
                let message = format!("Expected {wanted}, found {found}");
                assert_eq!(wanted_in(&message, found), wanted);
            }
        }
    }
}
