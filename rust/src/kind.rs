//! The kinds of rows.

use std::fmt;

/// A row's kind. Numbers 16 to 20 are never made and have no case here. A later version may have more kinds.
#[derive(Debug, Clone, Copy, PartialEq, Eq, Hash)]
#[repr(u32)]
#[non_exhaustive]
pub enum Kind {
    /// The word `unit`.
    KeywordUnit = 0,
    /// The word `section`.
    KeywordSection = 1,
    /// The word `license`.
    KeywordLicense = 2,
    /// The word `return`.
    KeywordReturn = 3,
    /// The word `reg`.
    KeywordReg = 4,
    /// The word `imm`.
    KeywordImm = 5,
    /// The word `map`.
    KeywordMap = 6,
    /// The word `type`.
    KeywordType = 7,
    /// The word `key`.
    KeywordKey = 8,
    /// The word `value`.
    KeywordValue = 9,
    /// The word `max`.
    KeywordMax = 10,
    /// The word `if`.
    KeywordIf = 11,
    /// The word `else`.
    KeywordElse = 12,
    /// The word `guard`.
    KeywordGuard = 13,
    /// The word `heap`.
    KeywordHeap = 14,
    /// The word `event`.
    KeywordEvent = 15,
    /// The word `u32`.
    TypeU32 = 21,
    /// The word `u64`.
    TypeU64 = 22,
    /// The word `i32`.
    TypeI32 = 23,
    /// The word `i64`.
    TypeI64 = 24,
    /// `{`.
    LBrace = 25,
    /// `}`.
    RBrace = 26,
    /// `(`.
    LParen = 27,
    /// `)`.
    RParen = 28,
    /// `:`.
    Colon = 29,
    /// `.`.
    Dot = 30,
    /// `,`.
    Comma = 31,
    /// `;`.
    Semicolon = 32,
    /// `[`.
    LBracket = 33,
    /// `]`.
    RBracket = 34,
    /// `=`.
    Equals = 35,
    /// `+=`.
    PlusEquals = 36,
    /// `-=`.
    MinusEquals = 37,
    /// `*=`.
    StarEquals = 38,
    /// `/=`.
    SlashEquals = 39,
    /// `%=`.
    PercentEquals = 40,
    /// `+`.
    Plus = 41,
    /// `-`.
    Minus = 42,
    /// `*`.
    Star = 43,
    /// `/`.
    Slash = 44,
    /// `%`.
    Percent = 45,
    /// `>>`.
    Shr = 46,
    /// `<<`.
    Shl = 47,
    /// A name.
    Identifier = 48,
    /// A string, with its quotes.
    StringLiteral = 49,
    /// A number, with its sign.
    Number = 50,
    /// The word `bytes`.
    KeywordBytes = 51,
    /// The text's end.
    Eof = 52,
    /// A kind that this version has no name for. The library of this version makes none.
    Other = u32::MAX,
}

use Kind::*;

/// Every kind with its spelling, or with nothing where the text decides it.
const KINDS: [(Kind, Option<&str>); 48] = [
    (KeywordUnit, Some("unit")),
    (KeywordSection, Some("section")),
    (KeywordLicense, Some("license")),
    (KeywordReturn, Some("return")),
    (KeywordReg, Some("reg")),
    (KeywordImm, Some("imm")),
    (KeywordMap, Some("map")),
    (KeywordType, Some("type")),
    (KeywordKey, Some("key")),
    (KeywordValue, Some("value")),
    (KeywordMax, Some("max")),
    (KeywordIf, Some("if")),
    (KeywordElse, Some("else")),
    (KeywordGuard, Some("guard")),
    (KeywordHeap, Some("heap")),
    (KeywordEvent, Some("event")),
    (TypeU32, Some("u32")),
    (TypeU64, Some("u64")),
    (TypeI32, Some("i32")),
    (TypeI64, Some("i64")),
    (LBrace, Some("{")),
    (RBrace, Some("}")),
    (LParen, Some("(")),
    (RParen, Some(")")),
    (Colon, Some(":")),
    (Dot, Some(".")),
    (Comma, Some(",")),
    (Semicolon, Some(";")),
    (LBracket, Some("[")),
    (RBracket, Some("]")),
    (Equals, Some("=")),
    (PlusEquals, Some("+=")),
    (MinusEquals, Some("-=")),
    (StarEquals, Some("*=")),
    (SlashEquals, Some("/=")),
    (PercentEquals, Some("%=")),
    (Plus, Some("+")),
    (Minus, Some("-")),
    (Star, Some("*")),
    (Slash, Some("/")),
    (Percent, Some("%")),
    (Shr, Some(">>")),
    (Shl, Some("<<")),
    (Identifier, None),
    (StringLiteral, None),
    (Number, None),
    (KeywordBytes, Some("bytes")),
    (Eof, None),
];

impl Kind {
    /// The kind with this number, if one is made with it.
    pub fn from_number(number: u32) -> Option<Kind> {
        entry(number).map(|entry| entry.0)
    }

    /// The kind with this number, or [`Kind::Other`].
    pub(crate) fn read(number: u32) -> Kind {
        Kind::from_number(number).unwrap_or(Kind::Other)
    }

    /// The kind's number, 0 to 52; 4294967295 for [`Kind::Other`].
    pub fn number(self) -> u32 {
        self as u32
    }

    /// How every row of this kind is spelt; nothing for identifiers, strings, numbers and the end.
    pub fn spelling(self) -> Option<&'static str> {
        entry(self.number()).and_then(|entry| entry.1)
    }
}

/// The kind with this number and its spelling: no kind has the numbers 16 to 20.
fn entry(number: u32) -> Option<&'static (Kind, Option<&'static str>)> {
    let index = match number {
        0..=15 => number,
        21.. => number - 5,
        _ => return None,
    };
    KINDS.get(index as usize)
}

/// The kind as a person names it: `';'`, `'unit'`, `number`.
impl fmt::Display for Kind {
    fn fmt(&self, out: &mut fmt::Formatter<'_>) -> fmt::Result {
        match (self, self.spelling()) {
            (_, Some(spelling)) => write!(out, "'{spelling}'"),
            (Identifier, None) => out.write_str("identifier"),
            (StringLiteral, None) => out.write_str("string"),
            (Number, None) => out.write_str("number"),
            (Eof, None) => out.write_str("end of file"),
            (_, None) => out.write_str("another kind"),
        }
    }
}

#[cfg(test)]
mod tests {
    use super::*;

    #[test]
    fn numbers_and_kinds_belong_together() {
        let mut made = 0;
        for number in 0..=60 {
            if let Some(kind) = Kind::from_number(number) {
                assert_eq!(kind.number(), number);
                made += 1;
            }
        }
        assert_eq!(made, KINDS.len());
        assert_eq!(Kind::from_number(16), None);
        assert_eq!(Kind::from_number(20), None);
        assert_eq!(Kind::from_number(53), None);
        assert_eq!(Kind::from_number(u32::MAX), None);
        assert_eq!(Kind::read(16), Kind::Other);
        assert_eq!(Kind::Other.spelling(), None);
        assert_eq!(Kind::from_number(Kind::Other.number()), None);
    }

    #[test]
    fn kinds_are_named_as_in_the_language() {
        assert_eq!(Semicolon.to_string(), "';'");
        assert_eq!(KeywordBytes.to_string(), "'bytes'");
        assert_eq!(Shr.to_string(), "'>>'");
        assert_eq!(Number.to_string(), "number");
        assert_eq!(Eof.to_string(), "end of file");
    }
}
