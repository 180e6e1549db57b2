//! Edits with the answers that are expected of them, stored for a program that cannot run Rust.
//!
//! `worked` has the cases that papers state, `scenes` makes others, `expected` says what is expected of each call, `file` writes
//! them down, and `report` what the program must write of them. README.md describes the form.

pub mod expected;
pub mod file;
pub mod report;
pub mod scenes;
pub mod worked;

use crate::generate::random::Random;
use expected::Asked;

/// Where the sample stands.
pub const FILE: &str = concat!(env!("CARGO_MANIFEST_DIR"), "/../crates/replay_edits/stdin");

/// Where it stands what the program writes of it.
pub const REPORT: &str = concat!(env!("CARGO_MANIFEST_DIR"), "/../crates/replay_edits/stdout");

/// Edits with their calls.
pub type Edits = [(Asked, Vec<Call>)];

/// What an edit is in the sample for; the file has the number.
#[derive(Debug, Clone, Copy, PartialEq, Eq)]
pub enum Kind {
    Worked,
    AtStart,
    AtEnd,
    InComment,
    InString,
    Opening,
    Closing,
    OldRefused,
    Anywhere,
    Outside,
    Damaged,
}

/// Old bytes a to b become n others, of which these are shown; some words of the old rows may be changed before.
#[derive(Debug, Clone, PartialEq, Eq)]
pub struct Edit {
    pub kind: Kind,
    pub old: Vec<u8>,
    pub damage: Vec<(usize, u32)>,
    pub a: u32,
    pub b: u32,
    pub n: u32,
    pub new_bytes: Vec<u8>,
}

impl Edit {
    /// Bytes a to b become these; nothing is damaged.
    pub fn of(kind: Kind, old: &[u8], a: usize, b: usize, new_bytes: &[u8]) -> Edit {
        Edit {
            kind,
            old: old.to_vec(),
            damage: Vec::new(),
            a: a as u32,
            b: b as u32,
            n: new_bytes.len() as u32,
            new_bytes: new_bytes.to_vec(),
        }
    }
}

/// A call: the window is so many bytes from a start on, so many words are lent for rows. Number, place, row count and text
/// length are what is expected.
#[derive(Debug, Clone, Copy, PartialEq, Eq)]
pub struct Call {
    pub start: u32,
    pub size: usize,
    pub words: usize,
    pub told: [u32; 6],
}

/// How many edits of each made kind are stored.
const COUNTS: [(Kind, usize); 10] = [
    (Kind::AtStart, 120),
    (Kind::AtEnd, 120),
    (Kind::InComment, 160),
    (Kind::InString, 160),
    (Kind::Opening, 170),
    (Kind::Closing, 160),
    (Kind::OldRefused, 240),
    (Kind::Anywhere, 270),
    (Kind::Outside, 70),
    (Kind::Damaged, 70),
];

/// How many more have characters of two bytes and more in the old text or among the new bytes.
const WITH_CHARACTERS: [(Kind, usize); 4] = [
    (Kind::InComment, 60),
    (Kind::InString, 60),
    (Kind::OldRefused, 40),
    (Kind::Anywhere, 80),
];

/// The stored edits with their calls, always the same.
pub fn stored() -> Vec<(Asked, Vec<Call>)> {
    let mut random = Random::new(1);
    let mut edits = worked::edits();
    for (kind, count) in COUNTS {
        for _ in 0..count {
            edits.push(scenes::scene(&mut random, kind));
        }
    }
    for (kind, count) in WITH_CHARACTERS {
        for _ in 0..count {
            edits.push(scenes::with_characters(&mut random, kind));
        }
    }
    edits
}
