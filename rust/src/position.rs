//! Places as editors count them.

use crate::refusal::Place;
use std::fmt;

/// A place as editors count it. Bytes count from 0; line and both columns from 1.
#[derive(Debug, Clone, Copy, PartialEq, Eq, Hash)]
#[non_exhaustive]
pub struct Position {
    /// The offset.
    pub byte: usize,
    /// One more than the newlines in front.
    pub line: usize,
    /// In bytes.
    pub column: usize,
    /// In units of UTF-16; a byte that is no UTF-8 counts as one.
    pub utf16: usize,
}

impl Position {
    /// The place before the byte at `offset`, or the text's end.
    pub fn of(text: &[u8], offset: usize) -> Position {
        let Place {
            offset: byte,
            line,
            column,
        } = Place::before(text, offset);
        let start = byte + 1 - column;
        let units = text[start..byte]
            .utf8_chunks()
            .map(|chunk| chunk.valid().encode_utf16().count() + chunk.invalid().len());
        Position {
            byte,
            line,
            column,
            utf16: 1 + units.sum::<usize>(),
        }
    }
}

/// `line:column`, in bytes.
impl fmt::Display for Position {
    fn fmt(&self, out: &mut fmt::Formatter<'_>) -> fmt::Result {
        write!(out, "{}:{}", self.line, self.column)
    }
}
