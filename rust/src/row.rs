//! Rows, read from their words.

use crate::kind::Kind;
use crate::lent::ROW_WORDS;
use crate::refusal::Place;
use std::fmt;
use std::iter::FusedIterator;
use std::ops::Range;
use std::slice;

/// A row: what stands where. Start, end and column count bytes. The value is 0 unless the kind is Number. The comments are those between
/// the row and the one before it, or the text's start. A later version may tell more of it.
#[derive(Debug, Clone, Copy, PartialEq, Eq, Hash)]
#[non_exhaustive]
pub struct Row {
    /// What it is.
    pub kind: Kind,
    /// The offset of its first byte.
    pub start: usize,
    /// The offset after its last byte.
    pub end: usize,
    /// The line of its start, from 1.
    pub line: usize,
    /// The column of its start in bytes, from 1.
    pub column: usize,
    /// The value of a number, else 0.
    pub value: i64,
    /// How many comments stand in front of it.
    pub comments: usize,
}

impl Row {
    fn from_words(words: &[u32; ROW_WORDS]) -> Row {
        let [kind, start, end, line, column, low, high, comments] = *words;
        Row {
            kind: Kind::read(kind),
            start: start as usize,
            end: end as usize,
            line: line as usize,
            column: column as usize,
            value: (u64::from(high) << 32 | u64::from(low)) as i64,
            comments: comments as usize,
        }
    }

    /// The bytes of the text that the row spells.
    pub fn span(&self) -> Range<usize> {
        self.start..self.end
    }

    /// The place before the row's first byte.
    pub fn place(&self) -> Place {
        Place {
            offset: self.start,
            line: self.line,
            column: self.column,
        }
    }
}

/// `line:column kind`, and of a number its value: `2:5 number -1`.
impl fmt::Display for Row {
    fn fmt(&self, out: &mut fmt::Formatter<'_>) -> fmt::Result {
        write!(out, "{} {}", self.place(), self.kind)?;
        match self.kind {
            Kind::Number => write!(out, " {}", self.value),
            _ => Ok(()),
        }
    }
}

/// The rows of a document, in order.
#[derive(Debug, Clone)]
pub struct Rows<'a> {
    words: slice::Iter<'a, [u32; ROW_WORDS]>,
}

impl<'a> Rows<'a> {
    pub(crate) fn new(words: &'a [u32]) -> Rows<'a> {
        Rows {
            words: words.as_chunks().0.iter(),
        }
    }
}

impl Iterator for Rows<'_> {
    type Item = Row;

    fn next(&mut self) -> Option<Row> {
        self.words.next().map(Row::from_words)
    }

    fn nth(&mut self, index: usize) -> Option<Row> {
        self.words.nth(index).map(Row::from_words)
    }

    fn size_hint(&self) -> (usize, Option<usize>) {
        self.words.size_hint()
    }
}

impl DoubleEndedIterator for Rows<'_> {
    fn next_back(&mut self) -> Option<Row> {
        self.words.next_back().map(Row::from_words)
    }
}

impl ExactSizeIterator for Rows<'_> {}

impl FusedIterator for Rows<'_> {}

#[cfg(test)]
mod tests {
    use super::*;

    #[test]
    fn values_are_two_s_complement() {
        let row = Row::from_words(&[50, 12, 14, 2, 5, u32::MAX, u32::MAX, 3]);
        assert_eq!(row.value, -1);
        assert_eq!((row.span(), row.comments), (12..14, 3));
        let row = Row::from_words(&[50, 0, 19, 1, 1, u32::MAX, 0x7fff_ffff, 0]);
        assert_eq!(row.value, i64::MAX);
    }
}
