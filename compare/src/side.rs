//! The proved library side by side with the original and with the model, through its archive.
//!
//! Each part makes texts, asks the library, and stops at the first difference with the input that shows it. What it counts is
//! printed by the binary `side`.

pub mod chains;
pub mod edit;
pub mod figures;
pub mod files;
pub mod fitting;
pub mod forms;
pub mod layout;
pub mod pairs;
pub mod parse;
pub mod scan;
pub mod tables;

use crate::model::{row_words, Told};
use std::collections::BTreeMap;
use std::fmt;

/// What stands in lent memory before a call, so that words that were not to be written show.
pub const CANARY: u32 = 0xA5C3_96E1;

/// A difference: what was asked, and both answers.
#[derive(Debug, Clone, PartialEq, Eq)]
pub struct Difference {
    pub asked: String,
    pub library: String,
    pub expected: String,
}

impl fmt::Display for Difference {
    fn fmt(&self, out: &mut fmt::Formatter<'_>) -> fmt::Result {
        let Difference {
            asked,
            library,
            expected,
        } = self;
        write!(
            out,
            "asked    {asked}\nlibrary  {library}\nexpected {expected}"
        )
    }
}

/// How often what was compared.
#[derive(Debug, Clone, Default, PartialEq, Eq)]
pub struct Counts(BTreeMap<String, u64>);

impl Counts {
    pub fn add(&mut self, what: impl Into<String>) {
        self.add_many(what, 1);
    }

    pub fn add_many(&mut self, what: impl Into<String>, count: u64) {
        *self.0.entry(what.into()).or_default() += count;
    }

    pub fn get(&self, what: &str) -> u64 {
        self.0.get(what).copied().unwrap_or(0)
    }
}

impl fmt::Display for Counts {
    fn fmt(&self, out: &mut fmt::Formatter<'_>) -> fmt::Result {
        for (what, count) in &self.0 {
            writeln!(out, "{count:>12}  {what}")?;
        }
        Ok(())
    }
}

/// What a part gives back.
pub type Compared = Result<Counts, Difference>;

/// Nothing if both are the same, else the difference in answering what `asked` tells.
pub fn same<T: PartialEq + fmt::Debug>(
    library: T,
    expected: T,
    asked: impl Fn() -> String,
) -> Result<(), Difference> {
    if library == expected {
        return Ok(());
    }
    Err(Difference {
        asked: asked(),
        library: format!("{library:?}"),
        expected: format!("{expected:?}"),
    })
}

/// The words that lent memory of this size must hold afterwards: the rows, and canaries behind them.
pub fn memory_with(told: &Told, words: usize) -> Vec<u32> {
    let mut memory: Vec<u32> = told.rows.iter().flat_map(row_words).collect();
    memory.resize(words, CANARY);
    memory
}

/// A text in a message, cut if it is long.
pub fn shown(text: &[u8]) -> String {
    match text.get(..300) {
        Some(beginning) => format!("`{}`.. ({} bytes)", beginning.escape_ascii(), text.len()),
        None => format!("`{}`", text.escape_ascii()),
    }
}

/// Lent memory that is kept between calls, all canaries before each.
#[derive(Default)]
pub struct Memory(Vec<u32>);

impl Memory {
    /// So many words of canaries.
    pub fn fresh(&mut self, words: usize) -> &mut [u32] {
        self.0.clear();
        self.0.resize(words, CANARY);
        &mut self.0
    }
}
