//! LANGUAGE.md written down a second time, as plain Rust: scan, tables, edit, parse and stored tables.
//!
//! The original has no room, no tables from outside and no edit, and its tree leaves words out; here every answer and every
//! written word is said. It is slow and short, and takes nothing from the crates that it is held against.

pub mod edit;
pub mod file;
pub mod forms;
pub mod lex;
pub mod parse;
pub mod scan;
pub mod table;
pub mod text;

use crate::terms::{Place, Refusal, Row};

/// Before the first byte.
pub const START: Place = Place {
    offset: 0,
    line: 1,
    column: 1,
};

/// What a scan or an edit answers: the rows that it writes, the text's length (0 where it is refused below 11), and the refusal.
#[derive(Debug, Clone, PartialEq, Eq)]
pub struct Told {
    pub rows: Vec<Row>,
    pub length: u32,
    pub refusal: Option<Refusal>,
}

impl Told {
    /// A refusal below 11 that writes no row.
    pub fn refused(number: u32, place: Place) -> Told {
        Told {
            rows: Vec::new(),
            length: 0,
            refusal: Some(refusal(number, place)),
        }
    }

    /// The rows of a text of this length into so much room: 4 if they do not fit.
    pub fn in_room(rows: Vec<Row>, length: u32, ending: Option<Refusal>, room: usize) -> Told {
        if rows.len() <= room {
            return Told {
                rows,
                length,
                refusal: ending,
            };
        }
        Told {
            rows: rows[..room].to_vec(),
            length: 0,
            refusal: Some(refusal(4, START)),
        }
    }

    /// Whether it is a table: not refused, or from 11 on.
    pub fn is_table(&self) -> bool {
        self.refusal.is_none_or(|refusal| refusal.number >= 11)
    }

    /// The answer in the C face's layout.
    pub fn words(&self) -> [u32; 8] {
        let mut words = refusal_words(self.refusal);
        words[6] = self.rows.len() as u32;
        words[7] = self.length;
        words
    }
}

/// Number, place and what is told in the C face's layout, with count 0; the length is 0 too, unless 21 tells a kind there.
pub fn refusal_words(refusal: Option<Refusal>) -> [u32; 8] {
    match refusal {
        None => [0; 8],
        Some(Refusal {
            number,
            place,
            told: [x, y],
            found,
        }) => [
            number,
            place.offset,
            place.line,
            place.column,
            x,
            y,
            0,
            found,
        ],
    }
}

/// A refusal that tells nothing besides.
pub fn refusal(number: u32, place: Place) -> Refusal {
    Refusal::bare(number, place)
}

/// The eight words of a row.
pub fn row_words(row: &Row) -> [u32; 8] {
    let value = row.value as u64;
    [
        row.kind,
        row.start,
        row.end,
        row.line,
        row.column,
        value as u32,
        (value >> 32) as u32,
        row.comments,
    ]
}

/// The row that eight words are.
pub fn row_of(words: &[u32]) -> Row {
    Row {
        kind: words[0],
        start: words[1],
        end: words[2],
        line: words[3],
        column: words[4],
        value: (u64::from(words[6]) << 32 | u64::from(words[5])) as i64,
        comments: words[7],
    }
}

/// The place behind bytes that stand at `place`.
pub fn behind(place: Place, bytes: &[u8]) -> Place {
    bytes.iter().fold(place, |place, &byte| Place {
        offset: place.offset + 1,
        line: place.line + u32::from(byte == b'\n'),
        column: if byte == b'\n' { 1 } else { place.column + 1 },
    })
}
