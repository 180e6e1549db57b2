//! When a table is well formed, and how a row is spelt.

use super::text::valid_bytes;
use super::{behind, refusal, row_of, START};
use crate::terms::{Place, Refusal, Row, LONGEST_TEXT};

/// A table as it is lent: row words, and the eight words beside them.
#[derive(Debug, Clone, Copy)]
pub struct Lent<'a> {
    pub rows: &'a [u32],
    pub table: &'a [u32; 8],
}

/// Bytes of the kinds whose spelling is fixed: 0 to 47 and 51.
const FIXED_LENGTHS: [u32; 48] = [
    4, 7, 7, 6, 3, 3, 3, 4, 3, 5, 3, 2, 4, 5, 4, 5, // reserved words
    0, 0, 0, 0, 0, // never made
    3, 3, 3, 3, // types
    1, 1, 1, 1, 1, 1, 1, 1, 1, 1, // brackets and points
    1, 2, 2, 2, 2, 2, // assignments
    1, 1, 1, 1, 1, 2, 2, // operators
];

impl Lent<'_> {
    pub fn count(&self) -> usize {
        self.table[6] as usize
    }

    pub fn length(&self) -> u32 {
        self.table[7]
    }

    /// The table's rows, if they are lent.
    pub fn all_rows(&self) -> Option<Vec<Row>> {
        let words = self.rows.get(..self.count().checked_mul(8)?)?;
        Some(words.chunks_exact(8).map(row_of).collect())
    }

    /// The refused ending.
    pub fn ending(&self) -> Option<Refusal> {
        let [number, offset, line, column, ..] = *self.table;
        let place = Place {
            offset,
            line,
            column,
        };
        (number != 0).then(|| refusal(number, place))
    }

    pub fn is_well_formed(&self) -> bool {
        let Some(rows) = self.all_rows() else {
            return false;
        };
        matches!(self.table[0], 0 | 11..=17)
            && self.length() as usize <= LONGEST_TEXT
            && rows.iter().all(is_made)
            && gaps_hold(&rows)
            && rows
                .windows(2)
                .all(|pair| follows(&pair[0], pair[1].place()))
            && self.ends_well(&rows)
    }

    /// Eof is last, at the length, exactly when the ending is none; a refusal stands between the last row's end and the length.
    fn ends_well(&self, rows: &[Row]) -> bool {
        let (last, before) = match rows.split_last() {
            Some((last, before)) => (Some(last), before),
            None => (None, rows),
        };
        if before.iter().any(|row| row.kind == 52) {
            return false;
        }
        match self.ending() {
            None => last.is_some_and(|row| row.kind == 52 && row.start == self.length()),
            Some(ending) => {
                last.is_none_or(|row| row.kind != 52 && follows(row, ending.place))
                    && is_place(ending.place)
                    && ending.place.offset <= self.length()
            }
        }
    }

    /// The bytes that a row spells, or the refusal: 1, 2, 3.
    pub fn spelling(&self, text: &[u8], row: u32) -> Result<(u32, u32), Refusal> {
        self.judged(text)?;
        match self.all_rows().unwrap_or_default().get(row as usize) {
            Some(row) => Ok((row.start, row.end)),
            None => Err(refusal(3, START)),
        }
    }

    /// 1, 2 and 3 of a text and its table.
    pub fn judged(&self, text: &[u8]) -> Result<(), Refusal> {
        if text.len() > LONGEST_TEXT {
            return Err(refusal(1, START));
        }
        let valid = valid_bytes(text);
        if valid < text.len() {
            return Err(refusal(2, behind(START, &text[..valid])));
        }
        if !self.is_well_formed() || self.length() as usize != text.len() {
            return Err(refusal(3, START));
        }
        Ok(())
    }
}

/// Kind, length and value are a row's, and its place is one.
fn is_made(row: &Row) -> bool {
    let Some(length) = row.end.checked_sub(row.start) else {
        return false;
    };
    let has_its_length = match row.kind {
        16..=20 => false,
        0..=47 => length == FIXED_LENGTHS[row.kind as usize],
        48 | 50 => length >= 1,
        49 => length >= 2,
        51 => length == 5,
        52 => length == 0,
        _ => false,
    };
    let has_its_value = match row.kind {
        50 => row.value != i64::MIN,
        _ => row.value == 0,
    };
    has_its_length && has_its_value && is_place(row.place())
}

/// Each row has at most half as many comments as its gap, from the row before it or from the text's start, has bytes.
fn gaps_hold(rows: &[Row]) -> bool {
    let ends = std::iter::once(0).chain(rows.iter().map(|row| row.end));
    ends.zip(rows)
        .all(|(end, row)| row.comments <= row.start.saturating_sub(end) / 2)
}

/// Lines and columns are 1 or more and never exceed offset + 1.
fn is_place(place: Place) -> bool {
    let most = u64::from(place.offset) + 1;
    place.line >= 1
        && place.column >= 1
        && u64::from(place.line) <= most
        && u64::from(place.column) <= most
}

/// Whether what stands at a place may follow a row: no overlap, lines do not fall, and on one line columns go with offsets.
fn follows(row: &Row, place: Place) -> bool {
    place.offset >= row.end
        && place.line >= row.line
        && (place.line > row.line
            || i64::from(place.column) - i64::from(row.column)
                == i64::from(place.offset) - i64::from(row.start))
}
