//! The scan of a text into lent room.

use super::lex::{piece, Piece, Shown};
use super::text::valid_bytes;
use super::{behind, refusal, Told, START};
use crate::terms::{Place, Refusal, Row, LONGEST_TEXT};

/// What a scan with this room answers and writes.
pub fn scan(text: &[u8], room: usize) -> Told {
    if text.len() > LONGEST_TEXT {
        return Told::refused(1, START);
    }
    let valid = valid_bytes(text);
    if valid < text.len() {
        return Told::refused(2, behind(START, &text[..valid]));
    }
    let (rows, ending) = read(text);
    Told::in_room(rows, text.len() as u32, ending, room)
}

/// The rows of a text that is valid, and the refusal that they end in.
pub fn read(text: &[u8]) -> (Vec<Row>, Option<Refusal>) {
    let mut rows = Vec::new();
    let mut place = START;
    let mut comments = 0;
    loop {
        let rest = &text[place.offset as usize..];
        if rest.is_empty() {
            rows.push(eof(place, comments));
            return (rows, None);
        }
        let shown = Shown {
            bytes: rest,
            whole: true,
        };
        let length = match piece(shown).expect("a whole text decides everything") {
            Piece::Blank => 1,
            Piece::Comment { length } => {
                comments += 1;
                length
            }
            Piece::Row {
                kind,
                length,
                value,
            } => {
                rows.push(row(place, kind, length, value, comments));
                comments = 0;
                length
            }
            Piece::Refused {
                number,
                place: distance,
            } => {
                let ending = refusal(number, behind(place, &rest[..distance]));
                return (rows, Some(ending));
            }
        };
        place = behind(place, &rest[..length]);
    }
}

/// A row of so many bytes at a place, with so many comments before it.
pub fn row(place: Place, kind: u32, length: usize, value: i64, comments: u32) -> Row {
    Row {
        kind,
        start: place.offset,
        end: place.offset + length as u32,
        line: place.line,
        column: place.column,
        value,
        comments,
    }
}

/// Eof's row.
pub fn eof(place: Place, comments: u32) -> Row {
    row(place, 52, 0, 0, comments)
}
