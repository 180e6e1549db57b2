//! Texts with the layouts that are expected of them, for a program that cannot run Rust.
//!
//! `cases` has the texts and the calls over them, `file` writes them down, and `report` what the program must write of them. README.md
//! describes the form.

pub mod cases;
pub mod file;
pub mod report;

/// Where the sample stands.
pub const FILE: &str = concat!(
    env!("CARGO_MANIFEST_DIR"),
    "/../crates/replay_layouts/stdin"
);

/// Where it stands what the program writes of it.
pub const REPORT: &str = concat!(
    env!("CARGO_MANIFEST_DIR"),
    "/../crates/replay_layouts/stdout"
);

/// The most bytes that a call is lent for a layout, and the most words for rows and for nodes.
pub const MOST_BYTES: usize = 4096;
pub const MOST_WORDS: usize = 8192;

/// A text, its layout, which is empty where the text is no program, and the calls over them.
#[derive(Debug, Clone, PartialEq, Eq)]
pub struct Case {
    pub text: Vec<u8>,
    pub layout: Vec<u8>,
    pub calls: Vec<Call>,
}

/// What is lent otherwise than the text has it; the sample has the number.
#[derive(Debug, Clone, Copy, PartialEq, Eq)]
pub enum Forged {
    Nothing,
    /// A word of the rows.
    Row,
    /// A word of the nodes.
    Node,
    /// The node count.
    Count,
}

/// A call: what is changed, at which place, to what; how many bytes are lent; and what is expected, the number and the bytes written.
#[derive(Debug, Clone, PartialEq, Eq)]
pub struct Call {
    pub forged: Forged,
    pub place: usize,
    pub word: u32,
    pub room: usize,
    pub number: u32,
    pub length: usize,
}
