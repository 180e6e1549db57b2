//! The edit: the new table from the old one and a window of the new text; and the change, which has all of it.

use super::lex::{opens_gap, piece, Piece, Shown};
use super::scan::{eof, row};
use super::table::Lent;
use super::text::{shown_bytes, valid_bytes};
use super::{behind, refusal, Told, START};
use crate::terms::{Place, Refusal, Row, LONGEST_TEXT};

/// Old bytes a to b (b not included) became n new ones.
#[derive(Debug, Clone, Copy, PartialEq, Eq)]
pub struct Change {
    pub a: u32,
    pub b: u32,
    pub n: u32,
}

/// So many bytes behind the new ones a window must show, or the text's end, before it is judged.
const JUDGING: u64 = 4;

/// Where a reading of the window ends.
enum End {
    /// At an ending of its own.
    Own(Option<Refusal>),
    /// Before the old row with this index, which stands at this place now, behind so many comments.
    Meets(usize, Place, u32),
    /// Before anything is decided.
    Short,
}

/// What an edit with this room answers and writes.
pub fn edit(old: Lent, change: Change, start: u32, window: &[u8], room: usize) -> Told {
    let Change { a, b, n } = change;
    if !old.is_well_formed() {
        return Told::refused(3, START);
    }
    let rows = old.all_rows().expect("a well-formed table's rows are lent");
    let restart = restart_in(&rows, a);
    if a > b || b > old.length() || start != restart.offset {
        return Told::refused(6, START);
    }
    let new_length = u64::from(old.length() - (b - a)) + u64::from(n);
    let window_end = u64::from(start) + window.len() as u64;
    if window_end > new_length {
        return Told::refused(6, START);
    }
    if new_length > LONGEST_TEXT as u64 {
        return Told::refused(1, START);
    }
    let whole = window_end == new_length;
    if !whole && window_end < u64::from(a) + u64::from(n) + JUDGING {
        return Told::refused(7, START);
    }
    let valid = if whole {
        valid_bytes(window)
    } else {
        shown_bytes(window)
    };
    if valid < window.len() {
        return Told::refused(2, behind(restart, &window[..valid]));
    }
    let shown = Shown {
        bytes: window,
        whole,
    };
    let (new_rows, end) = look(&rows, change, restart, shown);
    let mut told: Vec<Row> = rows[..kept(&rows, a)].to_vec();
    told.extend(new_rows);
    let ending = match end {
        End::Short => return Told::refused(7, START),
        End::Own(ending) => ending,
        End::Meets(index, place, comments) => {
            let met = rows[index].place();
            let first = told.len();
            told.extend(rows[index..].iter().map(|row| moved_row(row, met, place)));
            told[first].comments = comments;
            old.ending().map(|ending| Refusal {
                place: moved(ending.place, met, place),
                ..ending
            })
        }
    };
    Told::in_room(told, new_length as u32, ending, room)
}

/// What a change to this text with this room answers and writes.
pub fn change(old: Lent, change: Change, text: &[u8], room: usize) -> Told {
    let Change { a, b, n } = change;
    if !old.is_well_formed() {
        return Told::refused(3, START);
    }
    let makes = i64::from(old.length()) - (i64::from(b) - i64::from(a)) + i64::from(n);
    if a > b || b > old.length() || text.len() as i64 != makes {
        return Told::refused(6, START);
    }
    let rows = old.all_rows().expect("a well-formed table's rows are lent");
    let start = restart_in(&rows, a).offset;
    edit(old, change, start, &text[start as usize..], room)
}

/// Where the window of an edit at `a` must start, or the refusal: 3, 6.
pub fn restart(old: Lent, a: u32) -> Result<Place, Refusal> {
    if !old.is_well_formed() {
        return Err(refusal(3, START));
    }
    if a > old.length() {
        return Err(refusal(6, START));
    }
    Ok(restart_in(&old.all_rows().unwrap_or_default(), a))
}

/// How many rows end below `a`.
fn kept(rows: &[Row], a: u32) -> usize {
    rows.iter().take_while(|row| row.end < a).count()
}

fn restart_in(rows: &[Row], a: u32) -> Place {
    match rows[..kept(rows, a)].last() {
        None => START,
        Some(row) => Place {
            offset: row.end,
            line: row.line,
            column: row.column + (row.end - row.start),
        },
    }
}

/// Reads the window up to a meeting place, an ending or where it is short.
fn look(old: &[Row], change: Change, restart: Place, window: Shown) -> (Vec<Row>, End) {
    let mut rows = Vec::new();
    let mut place = restart;
    let mut comments = 0;
    loop {
        let shown = Shown {
            bytes: &window.bytes[(place.offset - restart.offset) as usize..],
            ..window
        };
        if shown.bytes.is_empty() {
            if !shown.whole {
                return (rows, End::Short);
            }
            rows.push(eof(place, comments));
            return (rows, End::Own(None));
        }
        if let Some(index) = meeting(old, change, place.offset) {
            if !opens_gap(shown.bytes) {
                return (rows, End::Meets(index, place, comments));
            }
        }
        let length = match piece(shown) {
            None => return (rows, End::Short),
            Some(Piece::Blank) => 1,
            Some(Piece::Comment { length }) => {
                comments += 1;
                length
            }
            Some(Piece::Row {
                kind,
                length,
                value,
            }) => {
                rows.push(row(place, kind, length, value, comments));
                comments = 0;
                length
            }
            Some(Piece::Refused {
                number,
                place: distance,
            }) => {
                let ending = refusal(number, behind(place, &shown.bytes[..distance]));
                return (rows, End::Own(Some(ending)));
            }
        };
        place = behind(place, &shown.bytes[..length]);
    }
}

/// The old row that starts, moved by the change in length, at an offset behind the new bytes.
fn meeting(old: &[Row], Change { a, b, n }: Change, offset: u32) -> Option<usize> {
    let distance = offset.checked_sub(a + n)?;
    old.binary_search_by_key(&(b + distance), |row| row.start)
        .ok()
}

/// A place, where what stood at `met` stands at `now`.
fn moved(place: Place, met: Place, now: Place) -> Place {
    Place {
        offset: place.offset + now.offset - met.offset,
        line: place.line + now.line - met.line,
        column: if place.line == met.line {
            place.column + now.column - met.column
        } else {
            place.column
        },
    }
}

fn moved_row(row: &Row, met: Place, now: Place) -> Row {
    let Place {
        offset,
        line,
        column,
    } = moved(row.place(), met, now);
    Row {
        start: offset,
        end: offset + (row.end - row.start),
        line,
        column,
        ..*row
    }
}
