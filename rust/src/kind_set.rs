//! Sets of row kinds: what would have fitted where a row of another kind stands.

use crate::kind::Kind;
use crate::kind::Kind::*;
use std::fmt;

/// A set of row kinds, as a refusal with 21, 22, 23, 25 or 30 tells it: exactly the kinds with which some program of the grammar goes on.
///
/// It is shown as people say it, `';', '.' or an operator`, and with `{:#}` each kind by itself.
///
/// ```
/// use spoonharbor::{Document, Kind};
///
/// let document = Document::open("unit u{ a + b }")?;
/// let fitting = document.tree().unwrap_err().reason.fitting().unwrap();
/// assert!(fitting.contains(Kind::Semicolon) && fitting.contains(Kind::Star));
/// assert!(!fitting.contains(Kind::Shl));
/// # Ok::<(), spoonharbor::Refusal>(())
/// ```
#[derive(Clone, Copy, PartialEq, Eq, Hash, Default)]
pub struct KindSet(u64);

/// The kinds that rows have, bit k for kind k: all of 0 to 52 but 16 to 20.
const MADE: u64 = (1 << 53) - 1 - (0b11111 << 16);

/// What people call by one name, in the order in which it is said: a whole before its parts, and what ends a thing before what goes on
/// with it. All else is said behind it, in the order of the kinds' numbers.
const SAID: [(&str, KindSet); 11] = [
    ("a statement", STATEMENT),
    ("an expression", EXPRESSION),
    ("a type", KindSet::of(&[TypeU32, TypeU64, TypeI32, TypeI64])),
    ("an identifier", KindSet::of(&[Identifier])),
    ("';'", KindSet::of(&[Semicolon])),
    ("','", KindSet::of(&[Comma])),
    ("')'", KindSet::of(&[RParen])),
    ("'('", KindSet::of(&[LParen])),
    ("'.'", KindSet::of(&[Dot])),
    ("an operator", OPERATOR),
    ("an operator other than a shift", UNSHIFTED),
];

/// What begins a statement, and what begins an expression.
const STATEMENT: KindSet = KindSet::of(&[
    KeywordReturn,
    KeywordReg,
    KeywordImm,
    KeywordIf,
    KeywordHeap,
    LParen,
    Star,
    Identifier,
    Number,
]);
const EXPRESSION: KindSet = KindSet::of(&[LParen, Star, Identifier, Number]);

/// What stands between two sides, and what does behind a sum.
const OPERATOR: KindSet = KindSet::of(&[Plus, Minus, Star, Slash, Percent, Shr, Shl]);
const UNSHIFTED: KindSet = KindSet::of(&[Plus, Minus, Star, Slash, Percent]);

impl KindSet {
    const fn of(kinds: &[Kind]) -> KindSet {
        let mut bits = 0;
        let mut at = 0;
        while at < kinds.len() {
            bits |= 1 << kinds[at] as u32;
            at += 1;
        }
        KindSet(bits)
    }

    /// The set with bit k for kind k. Bits of numbers that no kind has are left out.
    pub fn from_bits(bits: u64) -> KindSet {
        KindSet(bits & MADE)
    }

    /// The set of two words: kinds 0 to 31, and from 32 on.
    pub(crate) fn from_words(low: u32, high: u32) -> KindSet {
        KindSet::from_bits(u64::from(high) << 32 | u64::from(low))
    }

    /// Bit k for kind k.
    pub fn bits(self) -> u64 {
        self.0
    }

    /// Whether a kind is in the set; [`Kind::Other`] never is.
    pub fn contains(self, kind: Kind) -> bool {
        self.0.checked_shr(kind.number()).unwrap_or(0) & 1 == 1
    }

    /// How many kinds there are.
    pub fn len(self) -> usize {
        self.0.count_ones() as usize
    }

    /// Whether it has none.
    pub fn is_empty(self) -> bool {
        self.0 == 0
    }

    /// The kinds, in the order of their numbers.
    pub fn iter(self) -> Kinds {
        Kinds(self.0)
    }

    fn contains_all(self, other: KindSet) -> bool {
        self.0 & other.0 == other.0
    }

    fn without(self, other: KindSet) -> KindSet {
        KindSet(self.0 & !other.0)
    }

    /// What people say of it, part by part.
    fn parts(self) -> Vec<String> {
        let mut parts = Vec::new();
        let mut rest = self;
        for (name, kinds) in SAID {
            if rest.contains_all(kinds) {
                parts.push(name.to_string());
                rest = rest.without(kinds);
            }
        }
        parts.extend(rest.iter().map(named));
        parts
    }
}

/// The kinds of a set, in the order of their numbers.
#[derive(Debug, Clone)]
pub struct Kinds(u64);

impl Iterator for Kinds {
    type Item = Kind;

    fn next(&mut self) -> Option<Kind> {
        let lowest = self.0.trailing_zeros();
        self.0 &= self.0.wrapping_sub(1);
        Kind::from_number(lowest)
    }

    fn size_hint(&self) -> (usize, Option<usize>) {
        let count = self.0.count_ones() as usize;
        (count, Some(count))
    }
}

impl ExactSizeIterator for Kinds {}

impl IntoIterator for KindSet {
    type Item = Kind;
    type IntoIter = Kinds;

    fn into_iter(self) -> Kinds {
        self.iter()
    }
}

/// [`Kind::Other`] is left out.
impl FromIterator<Kind> for KindSet {
    fn from_iter<T: IntoIterator<Item = Kind>>(kinds: T) -> KindSet {
        let bit = |kind: Kind| 1u64.checked_shl(kind.number()).unwrap_or(0);
        KindSet::from_bits(kinds.into_iter().fold(0, |bits, kind| bits | bit(kind)))
    }
}

/// A kind as one of several that would do.
fn named(kind: Kind) -> String {
    match kind {
        Identifier => "an identifier".to_string(),
        StringLiteral => "a string".to_string(),
        Number => "a number".to_string(),
        _ => kind.to_string(),
    }
}

/// `';', '.' or an operator`; with `{:#}` each kind by itself; `nothing` if there is none.
impl fmt::Display for KindSet {
    fn fmt(&self, out: &mut fmt::Formatter<'_>) -> fmt::Result {
        let parts = if out.alternate() {
            self.iter().map(named).collect()
        } else {
            self.parts()
        };
        match parts.split_last() {
            None => out.write_str("nothing"),
            Some((last, [])) => out.write_str(last),
            Some((last, before)) => write!(out, "{} or {last}", before.join(", ")),
        }
    }
}

impl fmt::Debug for KindSet {
    fn fmt(&self, out: &mut fmt::Formatter<'_>) -> fmt::Result {
        out.debug_set().entries(self.iter()).finish()
    }
}

#[cfg(test)]
mod tests {
    use super::*;

    #[test]
    fn a_set_has_the_kinds_of_its_bits() {
        let set = KindSet::from_bits(u64::MAX);
        assert_eq!((set.bits(), set.len()), (MADE, 48));
        assert_eq!(set.iter().len(), 48);
        assert!(set.iter().all(|kind| set.contains(kind)));
        assert!(!set.contains(Other));
        assert_eq!(set.iter().collect::<KindSet>(), set);
        let two = KindSet::from_words(1 << 26, 1 << 20);
        assert_eq!(two.into_iter().collect::<Vec<Kind>>(), [RBrace, Eof]);
        assert_eq!([RBrace, Other, Eof].into_iter().collect::<KindSet>(), two);
        assert!(two.contains(Eof) && !two.contains(LBrace));
        assert_eq!(format!("{two:?}"), "{RBrace, Eof}");
    }

    #[test]
    fn no_kind_is_in_the_empty_set() {
        let none = KindSet::default();
        assert!(none.is_empty() && none.iter().next().is_none());
        assert_eq!(none.to_string(), "nothing");
        assert_eq!(KindSet::from_bits(0b11111 << 16 | 1 << 53), none);
    }

    #[test]
    fn sets_are_said_as_wholes_or_kind_by_kind() {
        assert_eq!(OPERATOR.to_string(), "an operator");
        assert_eq!(UNSHIFTED.to_string(), "an operator other than a shift");
        assert_eq!(EXPRESSION.to_string(), "an expression");
        let each = format!("{EXPRESSION:#}");
        assert_eq!(each, "'(', '*', an identifier or a number");
        let fewer = EXPRESSION.without(KindSet::of(&[Star]));
        assert_eq!(fewer.to_string(), "an identifier, '(' or a number");
    }
}
