//! The scan rules: what stands at the front of some bytes, which may stop short of the text's end.

/// What stands at the front, with its length in bytes; a refusal's place is so many bytes on.
#[derive(Debug, Clone, Copy, PartialEq, Eq)]
pub enum Piece {
    Blank,
    Comment {
        length: usize,
    },
    Row {
        kind: u32,
        length: usize,
        value: i64,
    },
    Refused {
        number: u32,
        place: usize,
    },
}

use Piece::*;

/// The 21 reserved words with their kinds.
const RESERVED: [(&[u8], u32); 21] = [
    (b"unit", 0),
    (b"section", 1),
    (b"license", 2),
    (b"return", 3),
    (b"reg", 4),
    (b"imm", 5),
    (b"map", 6),
    (b"type", 7),
    (b"key", 8),
    (b"value", 9),
    (b"max", 10),
    (b"if", 11),
    (b"else", 12),
    (b"guard", 13),
    (b"heap", 14),
    (b"event", 15),
    (b"u32", 21),
    (b"u64", 22),
    (b"i32", 23),
    (b"i64", 24),
    (b"bytes", 51),
];

/// Signs of one byte that is no other's beginning.
const SINGLE: [(u8, u32); 11] = [
    (b'{', 25),
    (b'}', 26),
    (b'(', 27),
    (b')', 28),
    (b':', 29),
    (b'.', 30),
    (b',', 31),
    (b';', 32),
    (b'[', 33),
    (b']', 34),
    (b'=', 35),
];

/// Signs that a `=` makes longer: with it, and alone.
const BEFORE_EQUALS: [(u8, u32, u32); 5] = [
    (b'+', 36, 41),
    (b'-', 37, 42),
    (b'*', 38, 43),
    (b'/', 39, 44),
    (b'%', 40, 45),
];

/// Bytes of a text; `whole` if they go to its end.
#[derive(Clone, Copy)]
pub struct Shown<'a> {
    pub bytes: &'a [u8],
    pub whole: bool,
}

impl Shown<'_> {
    /// The byte at an index, nothing inside behind the text's end; nothing at all if it is not shown.
    fn at(&self, index: usize) -> Option<Option<u8>> {
        match self.bytes.get(index) {
            Some(&byte) => Some(Some(byte)),
            None => self.whole.then_some(None),
        }
    }

    /// The first index from `from` on whose byte does not pass, or the text's end.
    fn run(&self, from: usize, passes: impl Fn(u8) -> bool) -> Option<usize> {
        let mut index = from;
        while self.at(index)?.is_some_and(&passes) {
            index += 1;
        }
        Some(index)
    }
}

pub fn is_blank(byte: u8) -> bool {
    matches!(byte, 9..=13 | 32)
}

/// Whether a gap begins with these bytes; a `/` that is the last of them opens none.
pub fn opens_gap(bytes: &[u8]) -> bool {
    match bytes {
        [byte, ..] if is_blank(*byte) => true,
        [b'/', b'/' | b'*', ..] => true,
        _ => false,
    }
}

/// The piece at the front of bytes that are not empty, or nothing if the byte that decides it is not shown.
pub fn piece(shown: Shown) -> Option<Piece> {
    let first = shown.bytes[0];
    match first {
        _ if is_blank(first) => Some(Blank),
        b'/' if shown.at(1)? == Some(b'/') => line_comment(shown),
        b'/' if shown.at(1)? == Some(b'*') => block_comment(shown),
        b'a'..=b'z' | b'A'..=b'Z' | b'_' => identifier(shown),
        b'0'..=b'9' => number(shown, 0),
        b'-' if shown.at(1)?.is_some_and(|byte| byte.is_ascii_digit()) => number(shown, 1),
        b'"' => string(shown),
        _ => sign(shown),
    }
}

fn line_comment(shown: Shown) -> Option<Piece> {
    let end = shown.run(2, |byte| byte != b'\n')?;
    Some(Comment { length: end })
}

fn block_comment(shown: Shown) -> Option<Piece> {
    let mut index = 2;
    loop {
        match (shown.at(index)?, shown.at(index + 1)?) {
            (Some(b'*'), Some(b'/')) => return Some(Comment { length: index + 2 }),
            (_, None) => {
                return Some(Refused {
                    number: 12,
                    place: 2,
                })
            }
            _ => index += 1,
        }
    }
}

fn identifier(shown: Shown) -> Option<Piece> {
    let length = shown.run(0, |byte| byte.is_ascii_alphanumeric() || byte == b'_')?;
    let spelling = &shown.bytes[..length];
    let reserved = RESERVED.iter().find(|(word, _)| *word == spelling);
    Some(Row {
        kind: reserved.map_or(48, |(_, kind)| *kind),
        length,
        value: 0,
    })
}

/// A number whose digits, or `0x`, begin behind so many bytes of sign.
fn number(shown: Shown, sign: usize) -> Option<Piece> {
    let is_hex = shown.at(sign)? == Some(b'0') && shown.at(sign + 1)? == Some(b'x');
    let (digits, base) = if is_hex { (sign + 2, 16) } else { (sign, 10) };
    let end = shown.run(digits, |byte| char::from(byte).is_digit(base))?;
    if end == digits {
        return Some(Refused {
            number: 17,
            place: end,
        });
    }
    let spelt = shown.bytes[digits..end]
        .iter()
        .try_fold(0i64, |value, &byte| {
            let digit = char::from(byte).to_digit(base)?;
            value.checked_mul(base.into())?.checked_add(digit.into())
        });
    Some(match spelt {
        Some(value) => Row {
            kind: 50,
            length: end,
            value: if sign == 1 { -value } else { value },
        },
        None => Refused {
            number: 15,
            place: 0,
        },
    })
}

fn string(shown: Shown) -> Option<Piece> {
    let mut index = 1;
    loop {
        match shown.at(index)? {
            Some(b'"') => {
                return Some(Row {
                    kind: 49,
                    length: index + 1,
                    value: 0,
                })
            }
            None | Some(b'\n') => {
                return Some(Refused {
                    number: 13,
                    place: index,
                })
            }
            Some(b'\\') => match shown.at(index + 1)? {
                Some(b'"' | b'\\' | b'n') => index += 2,
                None => {
                    return Some(Refused {
                        number: 13,
                        place: index + 1,
                    })
                }
                Some(_) => {
                    return Some(Refused {
                        number: 14,
                        place: index,
                    })
                }
            },
            Some(_) => index += 1,
        }
    }
}

fn sign(shown: Shown) -> Option<Piece> {
    let first = shown.bytes[0];
    let row = |kind, length| {
        Some(Row {
            kind,
            length,
            value: 0,
        })
    };
    if let Some((_, kind)) = SINGLE.iter().find(|(byte, _)| *byte == first) {
        return row(*kind, 1);
    }
    if let Some((_, longer, alone)) = BEFORE_EQUALS.iter().find(|(byte, ..)| *byte == first) {
        return match shown.at(1)? {
            Some(b'=') => row(*longer, 2),
            _ => row(*alone, 1),
        };
    }
    match first {
        b'>' if shown.at(1)? == Some(b'>') => row(46, 2),
        b'<' if shown.at(1)? == Some(b'<') => row(47, 2),
        b'<' | b'>' => Some(Refused {
            number: 16,
            place: 0,
        }),
        _ => Some(Refused {
            number: 11,
            place: 0,
        }),
    }
}
