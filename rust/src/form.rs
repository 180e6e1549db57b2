//! The forms in which a table is stored, and their sizes.

use std::fmt;

/// The most rows that a file holds.
pub const MOST_STORED_ROWS: usize = 65_535;

/// The bytes of a file's block.
pub(crate) const BLOCK: usize = 512;

/// How a table is stored: with the line and column of each row, or without, in three quarters of the bytes.
#[derive(Debug, Clone, Copy, PartialEq, Eq, Hash)]
pub enum Form {
    /// Form 1, which is read without the text too, by [`crate::Table::load`].
    Full,
    /// Form 2, from which lines and columns are left out: the text has them.
    Short,
}

impl Form {
    /// Both forms.
    pub const ALL: [Form; 2] = [Form::Full, Form::Short];

    /// The number that a file of the form says.
    pub fn number(self) -> u32 {
        match self {
            Form::Full => 1,
            Form::Short => 2,
        }
    }

    /// The form of a number.
    pub fn from_number(number: u32) -> Option<Form> {
        Form::ALL.into_iter().find(|form| form.number() == number)
    }

    /// How many rows a full block holds.
    pub(crate) fn block_rows(self) -> usize {
        match self {
            Form::Full => 15,
            Form::Short => 21,
        }
    }

    /// How long the file of so many rows is.
    pub(crate) fn file_length(self, rows: usize) -> usize {
        let rows = rows.min(MOST_STORED_ROWS);
        BLOCK * (1 + rows.div_ceil(self.block_rows()))
    }
}

impl fmt::Display for Form {
    fn fmt(&self, out: &mut fmt::Formatter<'_>) -> fmt::Result {
        write!(out, "form {}", self.number())
    }
}

/// The most rows that a file of so many bytes can have, in either form.
pub(crate) fn most_rows(bytes: usize) -> usize {
    (bytes / BLOCK * Form::Short.block_rows()).min(MOST_STORED_ROWS)
}
