//! Stored tables with the answers that are expected of storing and reading them, for a program that cannot run Rust.
//!
//! `damage` spoils files, `cases` makes tables with their files and calls, `file` writes them down, and `report` what the program must
//! write of them. README.md describes the form.

pub mod cases;
pub mod damage;
pub mod file;
pub mod report;

use damage::Damage;

/// Where the sample stands.
pub const FILE: &str = concat!(env!("CARGO_MANIFEST_DIR"), "/../crates/replay_files/stdin");

/// Where it stands what the program writes of it.
pub const REPORT: &str = concat!(env!("CARGO_MANIFEST_DIR"), "/../crates/replay_files/stdout");

/// The most rows of a stored table of the sample, and the most bytes that a call over a file is lent.
pub const MOST_ROWS: usize = 45;
pub const MOST_BYTES: usize = 3072;

/// A table as it is lent, the file that storing it gives (none where that is refused), and the calls.
#[derive(Debug, Clone, PartialEq, Eq)]
pub struct Case {
    pub table: [u32; 8],
    pub rows: Vec<u32>,
    pub file: Vec<u8>,
    pub stores: Vec<Store>,
    pub loads: Vec<Load>,
}

/// Storing into room for so many bytes, and the eight words that are expected of it.
#[derive(Debug, Clone, PartialEq, Eq)]
pub struct Store {
    pub room: usize,
    pub told: [u32; 8],
}

/// Reading a file that came of the stored one, into so many words, and the eight words that are expected of it. Where they tell a
/// table, it is the stored one.
#[derive(Debug, Clone, PartialEq, Eq)]
pub struct Load {
    pub damage: Damage,
    pub file: Vec<u8>,
    pub words: usize,
    pub told: [u32; 8],
}
