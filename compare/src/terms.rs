//! What is answered about a text, in LANGUAGE.md's terms: places, rows, refusals, and what comes of parsing.

use crate::chart::Set;
use crate::nodes::Tree;

/// The most bytes that a text may have.
pub const LONGEST_TEXT: usize = 65_536;

/// A position in a text: three counters, none of which stands for another.
#[derive(Debug, Clone, Copy, PartialEq, Eq)]
pub struct Place {
    pub offset: u32,
    pub line: u32,
    pub column: u32,
}

/// A row of LANGUAGE.md; the value is zero unless the kind is Number. The comments are those in the gap before it.
#[derive(Debug, Clone, Copy, PartialEq, Eq)]
pub struct Row {
    pub kind: u32,
    pub start: u32,
    pub end: u32,
    pub line: u32,
    pub column: u32,
    pub value: i64,
    pub comments: u32,
}

impl Row {
    pub fn place(&self) -> Place {
        Place {
            offset: self.start,
            line: self.line,
            column: self.column,
        }
    }
}

/// A refusal: its number, its place, and what it tells besides. For 21, 22, 23,
/// 25 and 30 that are the kinds that would have fitted, 0 to 31 in one word and
/// the others in the next, bit by bit; for 29 the field and zero; else two zeros.
/// 21 tells the kind that was found, too; for all others that is 0.
#[derive(Debug, Clone, Copy, PartialEq, Eq)]
pub struct Refusal {
    pub number: u32,
    pub place: Place,
    pub told: [u32; 2],
    pub found: u32,
}

impl Refusal {
    /// A refusal that tells nothing besides.
    pub fn bare(number: u32, place: Place) -> Refusal {
        Refusal {
            number,
            place,
            told: [0, 0],
            found: 0,
        }
    }

    /// The same with the kinds that would have fitted, where its number tells them; 21 tells the kind that was found.
    pub fn with_set(self, set: Set, found: u32) -> Refusal {
        let told = [set as u32, (set >> 32) as u32];
        match self.number {
            21 => Refusal {
                told,
                found,
                ..self
            },
            22 | 23 | 25 | 30 => Refusal { told, ..self },
            _ => self,
        }
    }

    /// The kinds that would have fitted.
    pub fn set(&self) -> Set {
        let [low, high] = self.told.map(Set::from);
        match self.number {
            21 | 22 | 23 | 25 | 30 => high << 32 | low,
            _ => 0,
        }
    }
}

/// What comes of parsing a text.
#[derive(Debug, Clone, PartialEq, Eq)]
pub enum Parsed {
    /// The scan was refused; there is nothing to parse.
    NotScanned,
    /// LANGUAGE.md refuses with this number, 27 or 32, where the original reads on.
    NotComparable {
        number: u32,
    },
    Refused(Refusal),
    Accepted(Tree),
}

/// The answer about a text.
#[derive(Debug, Clone, PartialEq, Eq)]
pub enum Answer {
    /// LANGUAGE.md refuses the text with this number, 1 or 2, before any row;
    /// the original is not asked.
    NotCompared { number: u32 },
    Compared {
        rows: Vec<Row>,
        ending: Option<Refusal>,
        parsed: Parsed,
    },
}
