//! Texts and files with the answers that are expected of the calls with the text at hand, for a program that cannot run Rust.
//!
//! `cases` makes texts with files, sound and damaged, and `calls` what is expected of the calls over them; `file` writes them down, and
//! `report` what the program must write of them. README.md describes the form.

pub mod calls;
pub mod cases;
pub mod file;
pub mod report;

use crate::model::row_words;
use crate::model::scan::scan;

/// Where the sample stands.
pub const FILE: &str = concat!(env!("CARGO_MANIFEST_DIR"), "/../crates/replay_forms/stdin");

/// Where it stands what the program writes of it.
pub const REPORT: &str = concat!(env!("CARGO_MANIFEST_DIR"), "/../crates/replay_forms/stdout");

/// The most bytes that a call is lent for a file, and the most words for rows and for a list of blocks.
pub const MOST_BYTES: usize = 3072;
pub const MOST_WORDS: usize = 376;
pub const MOST_LISTED: usize = 16;

/// Both forms.
pub const FORMS: [u32; 2] = [1, 2];

/// A text, a file, and the calls over them.
#[derive(Debug, Clone, PartialEq, Eq)]
pub struct Case {
    pub text: Vec<u8>,
    pub file: Vec<u8>,
    pub calls: Vec<Call>,
}

/// What a call does; the sample has the number.
#[derive(Debug, Clone, Copy, PartialEq, Eq)]
pub enum Kind {
    Load,
    Move,
    Mend,
}

/// A call: the form that is asked for (0 for a reading), how many words or bytes are lent for rows or a file, and how many words for a
/// list; the eight words that are expected, and the digests of what was lent, memory and list.
#[derive(Debug, Clone, PartialEq, Eq)]
pub struct Call {
    pub kind: Kind,
    pub form: u32,
    pub room: usize,
    pub list: usize,
    pub told: [u32; 8],
    pub left: [u32; 2],
}

/// The words of a text's rows, and those beside them; none where the text has no table.
pub fn table_of(text: &[u8]) -> Option<(Vec<u32>, [u32; 8])> {
    let told = scan(text, usize::MAX);
    let rows = told.rows.iter().flat_map(row_words).collect();
    told.is_table().then(|| (rows, told.words()))
}
