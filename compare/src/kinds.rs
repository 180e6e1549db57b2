//! The 53 token kinds with their numbers: source order, KeywordUnit 0 to Eof 52.

use crate::parser::TokenKind::{self, *};

/// Every kind, at the index that is its number.
pub const KINDS: [TokenKind; 53] = [
    KeywordUnit,
    KeywordSection,
    KeywordLicense,
    KeywordReturn,
    KeywordReg,
    KeywordImm,
    KeywordMap,
    KeywordType,
    KeywordKey,
    KeywordValue,
    KeywordMax,
    KeywordIf,
    KeywordElse,
    KeywordGuard,
    KeywordHeap,
    KeywordEvent,
    MapTypeHash,
    MapTypeArray,
    MapTypeRingbuf,
    MapTypeLruHash,
    MapTypeProgArray,
    TypeU32,
    TypeU64,
    TypeI32,
    TypeI64,
    LBrace,
    RBrace,
    LParen,
    RParen,
    Colon,
    Dot,
    Comma,
    Semicolon,
    LBracket,
    RBracket,
    Equals,
    PlusEquals,
    MinusEquals,
    StarEquals,
    SlashEquals,
    PercentEquals,
    Plus,
    Minus,
    Star,
    Slash,
    Percent,
    Shr,
    Shl,
    Identifier,
    StringLiteral,
    Number,
    KeywordBytes,
    Eof,
];

/// The number of a kind in LANGUAGE.md.
pub fn number_of(kind: TokenKind) -> u32 {
    kind as u32
}

#[cfg(test)]
mod tests {
    use super::*;

    #[test]
    fn every_kind_stands_at_its_number() {
        for (index, kind) in KINDS.iter().enumerate() {
            assert_eq!(number_of(*kind) as usize, index);
        }
    }
}
