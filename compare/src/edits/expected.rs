//! What is expected of an edit: its restart place, and the answer of each call.
//!
//! Rows and lexical refusals are the original's, of the new text; so are the rows before a 4. The restart place is LANGUAGE.md's
//! rule over the original's rows of the old text. Where a call is refused with 1, 2, 3, 6 or 7, the model says so. Where the
//! model and the original both answer, they must agree.

use super::{Call, Edit};
use crate::answer::answer;
use crate::model::edit::{edit, restart, Change};
use crate::model::table::Lent;
use crate::model::{refusal_words, row_words, Told, START};
use crate::terms::{Answer, Place, Row};

/// The most bytes that a text or window reaches to; behind a new text the program has zeros up to there.
pub const MOST_BYTES: usize = 600;

/// The words of memory that the program has for rows.
pub const MOST_WORDS: usize = 2500;

/// An edit with the tables that its expectations come from.
pub struct Asked {
    pub edit: Edit,
    rows: Vec<u32>,
    table: [u32; 8],
    new: Vec<u8>,
    fresh: Option<Told>,
}

/// What the original reads in a text; nothing where LANGUAGE.md answers 1 or 2.
pub fn original(text: &[u8]) -> Option<Told> {
    match answer(text) {
        Answer::NotCompared { .. } => None,
        Answer::Compared { rows, ending, .. } => Some(Told {
            rows,
            length: text.len() as u32,
            refusal: ending,
        }),
    }
}

impl Asked {
    pub fn new(edit: Edit) -> Asked {
        let told = original(&edit.old);
        let mut rows: Vec<u32> = told
            .iter()
            .flat_map(|told| told.rows.iter().flat_map(row_words))
            .collect();
        for (index, word) in &edit.damage {
            rows[*index] = *word;
        }
        let length = edit.old.len();
        let (a, b) = ((edit.a as usize).min(length), (edit.b as usize).min(length));
        let new = [&edit.old[..a], &edit.new_bytes, &edit.old[b..]].concat();
        assert!(new.len() <= MOST_BYTES);
        Asked {
            table: told.map_or([0; 8], |told| told.words()),
            fresh: original(&new),
            rows,
            new,
            edit,
        }
    }

    fn lent(&self) -> Lent<'_> {
        Lent {
            rows: &self.rows,
            table: &self.table,
        }
    }

    /// The words of the old rows.
    pub fn old_words(&self) -> &[u32] {
        &self.rows
    }

    /// How many rows the new text has.
    pub fn count(&self) -> usize {
        self.fresh.as_ref().map_or(0, |told| told.rows.len())
    }

    /// The rows that a call writes, all or the first of them.
    pub fn fresh_rows(&self) -> &[Row] {
        self.fresh.as_ref().map_or(&[], |told| &told.rows)
    }

    /// The new text's length.
    pub fn new_length(&self) -> usize {
        self.new.len()
    }

    /// Whether the old table is one.
    pub fn is_well_formed(&self) -> bool {
        self.lent().is_well_formed()
    }

    /// Number, offset, line and column that are expected of the restart call.
    pub fn restart(&self) -> [u32; 4] {
        match restart(self.lent(), self.edit.a) {
            Ok(place) => {
                assert_eq!(place, self.place_behind_kept(), "{:?}", self.edit);
                [0, place.offset, place.line, place.column]
            }
            Err(refusal) => {
                let [number, offset, line, column, ..] = refusal_words(Some(refusal));
                [number, offset, line, column]
            }
        }
    }

    /// Behind the last of the original's rows with end below a, or the text's start.
    fn place_behind_kept(&self) -> Place {
        let old = original(&self.edit.old).expect("a table that no scan gives is refused");
        let kept = old.rows.iter().rfind(|row| row.end < self.edit.a);
        kept.map_or(START, |row| Place {
            offset: row.end,
            line: row.line,
            column: row.column + row.end - row.start,
        })
    }

    /// The bytes that a window shows.
    fn window(&self, start: u32, size: usize) -> Vec<u8> {
        let mut text = self.new.clone();
        text.resize(MOST_BYTES, 0);
        text[start as usize..][..size].to_vec()
    }

    /// Whether a window of this size is too short, by the model.
    pub fn is_short(&self, start: u32, size: usize) -> bool {
        self.told(start, size, MOST_WORDS).words()[0] == 7
    }

    /// What is expected of a call.
    fn told(&self, start: u32, size: usize, words: usize) -> Told {
        let Edit { a, b, n, .. } = self.edit;
        let window = self.window(start, size);
        let model = edit(self.lent(), Change { a, b, n }, start, &window, words / 8);
        if matches!(model.words()[0], 1 | 2 | 3 | 6 | 7) {
            return model;
        }
        let fresh = self
            .fresh
            .clone()
            .expect("an edit that is answered makes a text");
        let original = Told::in_room(fresh.rows, fresh.length, fresh.refusal, words / 8);
        assert_eq!(model, original, "{:?}", self.edit);
        original
    }

    /// A call with what is expected of it.
    pub fn call(&self, start: u32, size: usize, words: usize) -> Call {
        assert!(words <= MOST_WORDS);
        let [number, offset, line, column, _, _, count, length] =
            self.told(start, size, words).words();
        Call {
            start,
            size,
            words,
            told: [number, offset, line, column, count, length],
        }
    }
}
