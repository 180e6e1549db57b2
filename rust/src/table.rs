//! A table without its text: rows and how they end, stored as a file and read back.

use crate::form::{most_rows, Form};
use crate::lent::{self, Words, ROW_WORDS};
use crate::refusal::Refusal;
use crate::row::{Row, Rows};
use std::fmt;

/// The rows of a text and how they end, without the text: what a [`crate::Document`] has beside its text, or what a file holds. Which text
/// it is the table of is not in it, but for the text's length.
///
/// Two tables are equal if their rows, refusals and text lengths are.
#[derive(Clone)]
pub struct Table {
    /// The rows' words, and behind them room that no row has.
    rows: Vec<u32>,
    /// What stands beside the rows, in the words in which the library told it.
    words: Words,
}

impl Table {
    /// The table that a call told, if it is one, with the rows that it wrote.
    pub(crate) fn told(words: Words, rows: Vec<u32>) -> Result<Table, Refusal> {
        taken(&words)?;
        Ok(Table { rows, words })
    }

    /// What stands in the place of a table where a call told none: no rows, and the refusal.
    pub(crate) fn of_no_text(words: Words) -> Table {
        Table {
            rows: Vec::new(),
            words,
        }
    }

    /// Whether it is a table, which that of a text that is too long is not.
    pub(crate) fn is_of_a_text(&self) -> bool {
        taken(&self.words).is_ok()
    }

    /// Becomes the table that a call told, if it is one, whose rows stand in `spare`; its own rows before are the spare then.
    pub(crate) fn become_told(
        &mut self,
        words: Words,
        spare: &mut Vec<u32>,
    ) -> Result<(), Refusal> {
        taken(&words)?;
        self.words = words;
        std::mem::swap(&mut self.rows, spare);
        Ok(())
    }

    /// Reads a stored table. The file is judged before any of it is taken: 42 if it is cut short or longer than it says, 41 with the block
    /// ([`crate::Reason::BadBlock`]) if one is damaged, 44 if it is stored in another form than 1, 43 if its blocks are sound and hold no
    /// table. What is read is the table that was stored; that it is the table of a certain text nobody can tell without the text.
    ///
    /// # Errors
    ///
    /// 41 to 44.
    pub fn load(file: &[u8]) -> Result<Table, Refusal> {
        Table::read(file, |rows| lent::load(file, rows))
    }

    /// Reads a file of either form beside its text. A file of [`Form::Short`] has its lines and columns from there, one of [`Form::Full`] is
    /// held against them. Refused is what [`Table::load`] refuses, but for a file of form 2, and last a text whose length, lines or columns
    /// do not agree with the file's (45, [`crate::Reason::OtherText`]). That the table is the text's own only a reading tells.
    ///
    /// # Errors
    ///
    /// 41 to 45.
    pub fn load_beside(text: &[u8], file: &[u8]) -> Result<Table, Refusal> {
        Table::read(file, |rows| lent::load_beside(text, file, rows))
    }

    /// What a reading of a file gives, in room for all rows that it can have.
    fn read(file: &[u8], load: impl FnOnce(&mut [u32]) -> Words) -> Result<Table, Refusal> {
        let mut rows = vec![0; most_rows(file.len()) * ROW_WORDS];
        let words = load(&mut rows);
        rows.truncate(count(&words) * ROW_WORDS);
        Table::told(words, rows)
    }

    /// The file of [`Form::Full`] that holds the table; the same table gives the same bytes. A table of over
    /// [`crate::MOST_STORED_ROWS`] rows is 40, and that of a text that is too long is 1.
    ///
    /// # Errors
    ///
    /// 1 or 40.
    pub fn store(&self) -> Result<Vec<u8>, Refusal> {
        taken(&self.words)?;
        let mut file = vec![0; Form::Full.file_length(count(&self.words))];
        let answer = lent::store(self.row_words(), &self.words, &mut file);
        match Refusal::from_words(&answer) {
            Some(refusal) => Err(refusal),
            None => Ok(file),
        }
    }

    /// The rows in order; without a refusal the last is Eof.
    pub fn rows(&self) -> Rows<'_> {
        Rows::new(self.row_words())
    }

    /// The row with this number.
    pub fn row(&self, row: usize) -> Option<Row> {
        self.rows().nth(row)
    }

    /// The refusal, 11 to 17, at which the rows end, or 1 of a document whose text is too long; nothing if the whole text scanned.
    pub fn refusal(&self) -> Option<Refusal> {
        Refusal::from_words(&self.words)
    }

    /// How many bytes the text has; 0 where the refusal is 1.
    pub fn text_length(&self) -> usize {
        self.words[lent::LENGTH] as usize
    }

    /// Whether a text may have this table: it is as long, and no row and no refusal stands inside one of its characters.
    pub(crate) fn fits(&self, text: &str) -> bool {
        let between = |offset| text.is_char_boundary(offset);
        self.is_of_a_text()
            && self.text_length() == text.len()
            && (text.is_ascii()
                || self
                    .rows()
                    .all(|row| between(row.start) && between(row.end))
                    && self
                        .refusal()
                        .is_none_or(|refusal| between(refusal.place.offset)))
    }

    /// The words of the rows, as a call of [`crate::lent`] is lent them.
    pub fn row_words(&self) -> &[u32] {
        written(&self.rows, &self.words)
    }

    /// The words beside them, in which the library told the table.
    pub fn words(&self) -> &Words {
        &self.words
    }
}

impl PartialEq for Table {
    fn eq(&self, other: &Table) -> bool {
        self.words == other.words && self.row_words() == other.row_words()
    }
}

impl Eq for Table {}

impl fmt::Debug for Table {
    fn fmt(&self, out: &mut fmt::Formatter<'_>) -> fmt::Result {
        out.debug_struct("Table")
            .field("rows", &self.rows().collect::<Vec<Row>>())
            .field("refusal", &self.refusal())
            .field("text_length", &self.text_length())
            .finish()
    }
}

fn count(words: &Words) -> usize {
    words[lent::COUNT] as usize
}

/// The words of the rows that a call told.
pub(crate) fn written<'a>(rows: &'a [u32], told: &Words) -> &'a [u32] {
    rows.get(..count(told) * ROW_WORDS).unwrap_or(rows)
}

/// Whether an answer tells a table, which may end in a refusal of 11 to 17.
fn taken(answer: &Words) -> Result<(), Refusal> {
    match Refusal::from_words(answer) {
        Some(refusal) if !refusal.reason.ends_a_table() => Err(refusal),
        _ => Ok(()),
    }
}
