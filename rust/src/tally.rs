//! Figures: what is counted of a program, and the counts of many programs added up.

// A refusal of a joining holds a tally, as its answer does: no result is larger for it.
#![allow(clippy::result_large_err)]

use crate::lent::{self, Counts, NODE_WORDS, TALLY_COUNTS};
use crate::refusal::{Place, Reason, Refusal};
use crate::sets::ProgramKind;
use crate::tree::MapType;
use std::error::Error;
use std::fmt;
use std::iter::Sum;

/// What one of a tally's counts is of.
#[derive(Debug, Clone, Copy, PartialEq, Eq, Hash)]
#[non_exhaustive]
pub enum Figure {
    /// Units of a program kind.
    Units(ProgramKind),
    /// Maps of a type.
    Maps(MapType),
    /// Events.
    Events,
    /// Statements, also those in bodies; an `if` is one.
    Statements,
    /// The sum of all `max`.
    Max,
    /// The context methods that each unit's kind allows, added up.
    Methods,
}

/// Twenty counts of a program, or of several. Each is of 64 bits, and the counts of any one program fit.
#[derive(Debug, Clone, Copy, PartialEq, Eq, Hash, Default)]
pub struct Tally {
    counts: Counts,
}

/// 70: a sum of two tallies' counts passes 64 bits, so nothing is added.
#[derive(Debug, Clone, Copy, PartialEq, Eq, Hash)]
#[non_exhaustive]
pub struct CountTooLarge {
    /// The first of the two tallies, whole.
    pub kept: Tally,
}

impl Figure {
    /// Every figure, at the index of its count.
    pub const ALL: [Figure; TALLY_COUNTS] = [
        Figure::Units(ProgramKind::Xdp),
        Figure::Units(ProgramKind::Tc),
        Figure::Units(ProgramKind::Socket),
        Figure::Units(ProgramKind::Cgroup),
        Figure::Units(ProgramKind::Kprobe),
        Figure::Units(ProgramKind::Tracepoint),
        Figure::Units(ProgramKind::RawTracepoint),
        Figure::Units(ProgramKind::Fentry),
        Figure::Units(ProgramKind::Fexit),
        Figure::Units(ProgramKind::Lsm),
        Figure::Units(ProgramKind::Unknown),
        Figure::Maps(MapType::Hash),
        Figure::Maps(MapType::Array),
        Figure::Maps(MapType::Ringbuf),
        Figure::Maps(MapType::LruHash),
        Figure::Maps(MapType::ProgArray),
        Figure::Events,
        Figure::Statements,
        Figure::Max,
        Figure::Methods,
    ];

    /// A name of small letters and `_`: `units_raw_tracepoint`, `maps_hash`, `events`.
    pub fn name(self) -> String {
        match self {
            Figure::Units(kind) => format!("units_{}", kind.name().replace(' ', "_")),
            Figure::Maps(map_type) => format!("maps_{map_type}"),
            Figure::Events => "events".to_string(),
            Figure::Statements => "statements".to_string(),
            Figure::Max => "max".to_string(),
            Figure::Methods => "methods".to_string(),
        }
    }
}

/// What a person calls the figure: `raw tracepoint units`, `hash maps`, `events`.
impl fmt::Display for Figure {
    fn fmt(&self, out: &mut fmt::Formatter<'_>) -> fmt::Result {
        match self {
            Figure::Units(kind) => write!(out, "{kind} units"),
            Figure::Maps(map_type) => write!(out, "{map_type} maps"),
            Figure::Events => out.write_str("events"),
            Figure::Statements => out.write_str("statements"),
            Figure::Max => out.write_str("sum of max"),
            Figure::Methods => out.write_str("methods"),
        }
    }
}

impl Tally {
    /// The tally of nothing, which changes no other by joining.
    pub const EMPTY: Tally = Tally {
        counts: [0; TALLY_COUNTS],
    };

    /// The tally of whole nodes, as [`lent::parse`] writes them. [`crate::Document::tally`] is that of a text.
    ///
    /// # Errors
    ///
    /// 3, if they are over [`lent::TALLY_MOST_NODES`], or one is of a kind, a program kind or a map type that there is not.
    pub fn of_nodes(nodes: &[u32]) -> Result<Tally, Refusal> {
        let count = u32::try_from(nodes.len() / NODE_WORDS).unwrap_or(u32::MAX);
        match lent::tally(nodes, count) {
            (0, counts) => Ok(Tally { counts }),
            _ => Err(Refusal {
                reason: Reason::NotWellFormed,
                place: Place::START,
            }),
        }
    }

    /// The tally of these counts, each at the index that it has in [`Figure::ALL`]. Any twenty are a tally.
    pub const fn from_counts(counts: Counts) -> Tally {
        Tally { counts }
    }

    /// The counts, each at the index that it has in [`Figure::ALL`].
    pub const fn counts(&self) -> &Counts {
        &self.counts
    }

    /// One of the counts.
    pub fn count(&self, figure: Figure) -> u64 {
        let mut all = self.figures();
        all.find(|(one, _)| *one == figure)
            .map_or(0, |(_, count)| count)
    }

    /// Every figure with its count.
    pub fn figures(&self) -> impl Iterator<Item = (Figure, u64)> {
        Figure::ALL.into_iter().zip(self.counts)
    }

    /// How many units there are, of all kinds.
    pub fn units(&self) -> u128 {
        self.summed(|figure| matches!(figure, Figure::Units(_)))
    }

    /// How many maps there are, of all types.
    pub fn maps(&self) -> u128 {
        self.summed(|figure| matches!(figure, Figure::Maps(_)))
    }

    fn summed(&self, wanted: impl Fn(Figure) -> bool) -> u128 {
        let all = self.figures().filter(|(figure, _)| wanted(*figure));
        all.map(|(_, count)| u128::from(count)).sum()
    }

    /// Both tallies added up, count by count. Any order and any grouping gives the same, where the sums fit, which is proved of the library
    /// below.
    ///
    /// # Errors
    ///
    /// 70 with this tally, if a sum passes 64 bits.
    pub fn join(&self, other: &Tally) -> Result<Tally, CountTooLarge> {
        match lent::join(&self.counts, &other.counts) {
            (0, counts) => Ok(Tally { counts }),
            (_, counts) => Err(CountTooLarge {
                kept: Tally { counts },
            }),
        }
    }

    /// Adds a tally to this one, which is as it was if that is refused. There is no `+=`: it could not tell.
    ///
    /// # Errors
    ///
    /// 70, if a sum passes 64 bits.
    pub fn add(&mut self, other: &Tally) -> Result<(), CountTooLarge> {
        *self = self.join(other)?;
        Ok(())
    }
}

/// The tallies added up from the first on, or 70 with the sum of those before the first that does not fit.
impl<'a> Sum<&'a Tally> for Result<Tally, CountTooLarge> {
    fn sum<I: Iterator<Item = &'a Tally>>(mut tallies: I) -> Result<Tally, CountTooLarge> {
        tallies.try_fold(Tally::EMPTY, |sum, tally| sum.join(tally))
    }
}

/// The tallies added up from the first on, or 70 with the sum of those before the first that does not fit.
impl Sum<Tally> for Result<Tally, CountTooLarge> {
    fn sum<I: Iterator<Item = Tally>>(mut tallies: I) -> Result<Tally, CountTooLarge> {
        tallies.try_fold(Tally::EMPTY, |sum, tally| sum.join(&tally))
    }
}

/// One line: `2 units (1 xdp, 1 kprobe), 1 map (1 hash), 0 events, 5 statements, sum of max 16, 13 methods`.
impl fmt::Display for Tally {
    fn fmt(&self, out: &mut fmt::Formatter<'_>) -> fmt::Result {
        let units = self.parts(|figure| match figure {
            Figure::Units(kind) => Some(kind.name()),
            _ => None,
        });
        let maps = self.parts(|figure| match figure {
            Figure::Maps(map_type) => Some(map_type.word()),
            _ => None,
        });
        write!(
            out,
            "{}{units}, {}{maps}, {}, {}, sum of max {}, {}",
            counted(self.units(), "unit"),
            counted(self.maps(), "map"),
            counted(self.count(Figure::Events).into(), "event"),
            counted(self.count(Figure::Statements).into(), "statement"),
            self.count(Figure::Max),
            counted(self.count(Figure::Methods).into(), "method"),
        )
    }
}

impl Tally {
    /// The counts that have a name and are not 0, in parentheses.
    fn parts(&self, named: impl Fn(Figure) -> Option<&'static str>) -> String {
        let parts: Vec<String> = self
            .figures()
            .filter(|(_, count)| *count > 0)
            .filter_map(|(figure, count)| Some(format!("{count} {}", named(figure)?)))
            .collect();
        match parts.is_empty() {
            true => String::new(),
            false => format!(" ({})", parts.join(", ")),
        }
    }
}

/// `1 unit`, `2 units`.
fn counted(count: u128, word: &str) -> String {
    match count {
        1 => format!("1 {word}"),
        _ => format!("{count} {word}s"),
    }
}

impl CountTooLarge {
    /// The refusal's number.
    pub const NUMBER: u32 = 70;
}

impl fmt::Display for CountTooLarge {
    fn fmt(&self, out: &mut fmt::Formatter<'_>) -> fmt::Result {
        out.write_str("a sum of counts passes 64 bits")
    }
}

impl Error for CountTooLarge {}
