//! Changes of a text as people hand them on, and when two of them may change places.

use crate::refusal::Refusal;
use std::error::Error;
use std::fmt;
use std::ops::Range;

/// A change of a text: the bytes in `range` become `new`. It is told in places of the text that it was made for.
#[derive(Clone, Debug, PartialEq, Eq, Hash)]
pub struct Edit {
    /// The old bytes, which the change takes away.
    pub range: Range<usize>,
    /// What stands there instead.
    pub new: String,
}

impl Edit {
    /// The change that puts `new` in the place of the bytes in `range`.
    pub fn new(range: Range<usize>, new: impl Into<String>) -> Edit {
        let new = new.into();
        Edit { range, new }
    }

    /// This change in the text after `other`, if at least one old byte lies between the two; both are told in places of the same text.
    /// A change in front of the other stays where it is, and one behind it moves.
    ///
    /// For two such changes either order is proved to end alike, in rows, ending and refusal.
    ///
    /// ```
    /// use spoonharbor::Edit;
    ///
    /// let one = Edit::new(0..1, "xyz");
    /// let other = Edit::new(2..4, "3");
    /// assert_eq!(other.after(&one), Some(Edit::new(4..6, "3")));
    /// assert_eq!(one.after(&other), Some(one.clone()));
    /// assert_eq!(Edit::new(1..4, "3").after(&one), None);
    /// ```
    pub fn after(&self, other: &Edit) -> Option<Edit> {
        if self.range.end < other.range.start {
            return Some(self.clone());
        }
        if self.range.start <= other.range.end {
            return None;
        }
        let gone = other.range.end.checked_sub(other.range.start)?;
        let moved = |place: usize| place.checked_add(other.new.len())?.checked_sub(gone);
        let range = moved(self.range.start)?..moved(self.range.end)?;
        Some(Edit::new(range, self.new.as_str()))
    }
}

/// Why a change of someone else's was not taken. The document is as it was.
#[derive(Clone, Debug, PartialEq, Eq)]
#[non_exhaustive]
pub enum Conflict {
    /// No old byte lies between their change and one of ours. Which of the two is to come first, or to stay, nobody but people can say.
    Touching {
        /// Which one of ours.
        ours: usize,
        /// Their change, in places of the text that this one of ours was made for.
        theirs: Edit,
    },
    /// Their change is none of the text that it is said to be for: its range is not in the text, or cuts a character (6).
    Refused(Refusal),
}

impl From<Refusal> for Conflict {
    fn from(refusal: Refusal) -> Conflict {
        Conflict::Refused(refusal)
    }
}

impl fmt::Display for Conflict {
    fn fmt(&self, out: &mut fmt::Formatter<'_>) -> fmt::Result {
        match self {
            Conflict::Touching { ours, theirs } => {
                let Range { start, end } = theirs.range;
                write!(
                    out,
                    "the change of bytes {start} to {end} touches our change {ours}"
                )
            }
            Conflict::Refused(refusal) => refusal.fmt(out),
        }
    }
}

impl Error for Conflict {}
