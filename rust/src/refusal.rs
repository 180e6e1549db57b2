//! Refusals: a number, a place, and what is told besides.

use crate::kind::Kind;
use crate::kind_set::KindSet;
use crate::lent::{self, Words};
use std::error::Error;
use std::fmt;

/// A position in a text. Offsets count from 0, lines and columns from 1; columns count bytes.
#[derive(Debug, Clone, Copy, PartialEq, Eq, Hash)]
pub struct Place {
    /// How many bytes are in front.
    pub offset: usize,
    /// One more than the newlines in front.
    pub line: usize,
    /// One more than the bytes since the last newline.
    pub column: usize,
}

/// A field that a map must have.
#[derive(Debug, Clone, Copy, PartialEq, Eq, Hash)]
pub enum MapField {
    /// `type`, which every map has.
    Type,
    /// `key`, which every map has but a ringbuf.
    Key,
    /// `value`, which every map has but a ringbuf.
    Value,
    /// `max`, which every map has.
    Max,
}

/// Why a text or a file is refused. A later version may have more reasons.
#[derive(Debug, Clone, Copy, PartialEq, Eq, Hash)]
#[non_exhaustive]
pub enum Reason {
    /// 1: over 65,536 bytes.
    TextTooLong,
    /// 2: not valid UTF-8; the place is where the first character starts that is broken or cut by the text's end.
    BadByte,
    /// 3: a table, a row or a set number that is not well formed.
    NotWellFormed,
    /// 4: more rows than lent room.
    NoRowRoom,
    /// 4 as well, but told by [`crate::Document::layout`] alone: the layout has over 65,536 bytes, so it is no text.
    LayoutTooLong,
    /// 5: node room below the row count.
    NoNodeRoom,
    /// 6: an edit that is not sensible.
    EditNotSensible,
    /// 6 as well, but told by [`crate::Document::replace`] alone: a range that starts or ends inside a character, at this place.
    InsideCharacter,
    /// 7: the window is short.
    WindowShort,
    /// 11: a byte that begins no row, also one of 128 or more.
    NoRowBegins,
    /// 12: a comment that is not closed.
    OpenComment,
    /// 13: a string that is not closed.
    OpenString,
    /// 14: an escape other than `\"`, `\\` and `\n`.
    BadEscape,
    /// 15: digits over 2^63 - 1.
    NumberTooLarge,
    /// 16: a lone `<` or `>`.
    LoneSign,
    /// 17: `0x` without a hex digit; the place is behind the `x`.
    NoHexDigit,
    /// 21: rows of other kinds were wanted, one of which would have fitted.
    #[non_exhaustive]
    Wanted {
        /// The kinds that would have fitted.
        fitting: KindSet,
        /// The kind that was found.
        found: Kind,
    },
    /// 22: none of `map`, `event` and `unit`; with what would have fitted.
    NotTopLevel(KindSet),
    /// 23: none of `type`, `key`, `value` and `max`; with what would have fitted.
    NotMapField(KindSet),
    /// 24: the map type behind the dot is unknown.
    MapTypeUnknown,
    /// 25: a key or a value without a type; with what would have fitted in place of the row that is none. The place is one row on, unless the
    /// text ends there.
    NotType(KindSet),
    /// 26: a negative `max`.
    MaxNegative,
    /// 27: a `max` over 2^32 - 1, or a length outside 0 to 2^32 - 1.
    OutOfRange,
    /// 28: a shift count outside 0 to 63.
    ShiftCount,
    /// 29: a map without this field.
    MapLacks(MapField),
    /// 30: an event field without a type; with what would have fitted.
    NotEventType(KindSet),
    /// 31: a method called on anything but a variable.
    CallOnOther,
    /// 32: the 65th open construct.
    TooDeep,
    /// 40: a table of more than 65,535 rows, which no file holds.
    TooManyRows,
    /// 41: this block of a file is damaged, the first being 0: its check, number, row count or filler is wrong.
    BadBlock(u32),
    /// 42: a file of under 512 bytes, or not as long as its first block says.
    WrongLength,
    /// 43: a file whose blocks are sound and hold no table.
    NoTable,
    /// 44: a file in another form than 1, or where the text is at hand than 1 and 2, or such a form asked for.
    OtherForm,
    /// 45: a stored table that the text cannot have. It is of a text of another length. Or a line or column is not the
    /// text's, which a reading of form 1 beside the text tells. Or a row or refusal starts or ends inside a character,
    /// which [`crate::Document::open_with`] tells.
    OtherText,
    /// A number that this version has no name for. The library of this version gives none.
    Other(u32),
}

/// A refusal and where it stands. A later version may tell more of it.
#[derive(Debug, Clone, Copy, PartialEq, Eq, Hash)]
#[non_exhaustive]
pub struct Refusal {
    /// Why.
    pub reason: Reason,
    /// Where; the text's start if it is about no place.
    pub place: Place,
}

impl MapField {
    fn from_number(number: u32) -> Option<MapField> {
        match number {
            1 => Some(MapField::Type),
            2 => Some(MapField::Key),
            3 => Some(MapField::Value),
            4 => Some(MapField::Max),
            _ => None,
        }
    }

    /// The field's word in the language.
    pub fn word(self) -> &'static str {
        match self {
            MapField::Type => "type",
            MapField::Key => "key",
            MapField::Value => "value",
            MapField::Max => "max",
        }
    }
}

impl Reason {
    /// The refusal's number.
    pub fn number(self) -> u32 {
        match self {
            Reason::TextTooLong => 1,
            Reason::BadByte => 2,
            Reason::NotWellFormed => 3,
            Reason::NoRowRoom | Reason::LayoutTooLong => 4,
            Reason::NoNodeRoom => 5,
            Reason::EditNotSensible | Reason::InsideCharacter => 6,
            Reason::WindowShort => 7,
            Reason::NoRowBegins => 11,
            Reason::OpenComment => 12,
            Reason::OpenString => 13,
            Reason::BadEscape => 14,
            Reason::NumberTooLarge => 15,
            Reason::LoneSign => 16,
            Reason::NoHexDigit => 17,
            Reason::Wanted { .. } => 21,
            Reason::NotTopLevel(_) => 22,
            Reason::NotMapField(_) => 23,
            Reason::MapTypeUnknown => 24,
            Reason::NotType(_) => 25,
            Reason::MaxNegative => 26,
            Reason::OutOfRange => 27,
            Reason::ShiftCount => 28,
            Reason::MapLacks(_) => 29,
            Reason::NotEventType(_) => 30,
            Reason::CallOnOther => 31,
            Reason::TooDeep => 32,
            Reason::TooManyRows => 40,
            Reason::BadBlock(_) => 41,
            Reason::WrongLength => 42,
            Reason::NoTable => 43,
            Reason::OtherForm => 44,
            Reason::OtherText => 45,
            Reason::Other(number) => number,
        }
    }

    /// The kinds that would have fitted, where it tells them: 21, 22, 23, 25 and 30.
    pub fn fitting(self) -> Option<KindSet> {
        match self {
            Reason::Wanted { fitting, .. }
            | Reason::NotTopLevel(fitting)
            | Reason::NotMapField(fitting)
            | Reason::NotType(fitting)
            | Reason::NotEventType(fitting) => Some(fitting),
            _ => None,
        }
    }

    /// Whether it is one in which the rows of a table end: 11 to 17.
    pub(crate) fn ends_a_table(self) -> bool {
        matches!(self.number(), 11..=17)
    }

    /// Whether it is about a file, a table or a layout as a whole, so that no place in a text is meant.
    fn has_no_place(self) -> bool {
        self == Reason::LayoutTooLong || matches!(self.number(), 40..=45)
    }

    /// The reason of an answer whose number is not 0.
    fn from_words(words: &Words) -> Reason {
        let fitting = KindSet::from_words(words[lent::FIRST], words[lent::SECOND]);
        match words[lent::NUMBER] {
            1 => Reason::TextTooLong,
            2 => Reason::BadByte,
            3 => Reason::NotWellFormed,
            4 => Reason::NoRowRoom,
            5 => Reason::NoNodeRoom,
            6 => Reason::EditNotSensible,
            7 => Reason::WindowShort,
            11 => Reason::NoRowBegins,
            12 => Reason::OpenComment,
            13 => Reason::OpenString,
            14 => Reason::BadEscape,
            15 => Reason::NumberTooLarge,
            16 => Reason::LoneSign,
            17 => Reason::NoHexDigit,
            21 => Reason::Wanted {
                fitting,
                found: Kind::read(words[lent::LENGTH]),
            },
            22 => Reason::NotTopLevel(fitting),
            23 => Reason::NotMapField(fitting),
            24 => Reason::MapTypeUnknown,
            25 => Reason::NotType(fitting),
            26 => Reason::MaxNegative,
            27 => Reason::OutOfRange,
            28 => Reason::ShiftCount,
            29 => MapField::from_number(words[lent::FIRST])
                .map_or(Reason::Other(29), Reason::MapLacks),
            30 => Reason::NotEventType(fitting),
            31 => Reason::CallOnOther,
            32 => Reason::TooDeep,
            40 => Reason::TooManyRows,
            41 => Reason::BadBlock(words[lent::FIRST]),
            42 => Reason::WrongLength,
            43 => Reason::NoTable,
            44 => Reason::OtherForm,
            45 => Reason::OtherText,
            number => Reason::Other(number),
        }
    }
}

impl Refusal {
    /// The refusal that an answer tells, whatever its words are; nothing if its number is 0.
    pub fn from_words(words: &Words) -> Option<Refusal> {
        (words[lent::NUMBER] != 0).then(|| Refusal {
            reason: Reason::from_words(words),
            place: Place::from_words(words),
        })
    }

    /// The refusal's number.
    pub fn number(&self) -> u32 {
        self.reason.number()
    }
}

impl Place {
    /// Before the first byte.
    pub(crate) const START: Place = Place {
        offset: 0,
        line: 1,
        column: 1,
    };

    /// The place before the byte at `offset`: lines end with a newline, and columns count bytes.
    pub(crate) fn before(text: &[u8], offset: usize) -> Place {
        let before = text.get(..offset).unwrap_or(text);
        let mut lines = before.rsplit(|&byte| byte == b'\n');
        let column = lines.next().map_or(1, |line| line.len() + 1);
        Place {
            offset: before.len(),
            line: lines.count() + 1,
            column,
        }
    }

    pub(crate) fn from_words(words: &Words) -> Place {
        Place {
            offset: words[lent::OFFSET] as usize,
            line: words[lent::LINE] as usize,
            column: words[lent::COLUMN] as usize,
        }
    }
}

/// `line:column`.
impl fmt::Display for Place {
    fn fmt(&self, out: &mut fmt::Formatter<'_>) -> fmt::Result {
        write!(out, "{}:{}", self.line, self.column)
    }
}

/// The field's word in the language.
impl fmt::Display for MapField {
    fn fmt(&self, out: &mut fmt::Formatter<'_>) -> fmt::Result {
        out.write_str(self.word())
    }
}

/// The reason in words, without the place.
impl fmt::Display for Reason {
    fn fmt(&self, out: &mut fmt::Formatter<'_>) -> fmt::Result {
        match self {
            Reason::TextTooLong => out.write_str("the text is longer than 65,536 bytes"),
            Reason::BadByte => out.write_str("no UTF-8 character begins here"),
            Reason::NotWellFormed => out.write_str("not well formed"),
            Reason::NoRowRoom => out.write_str("more rows than there is room for"),
            Reason::LayoutTooLong => out.write_str("the layout is longer than 65,536 bytes"),
            Reason::NoNodeRoom => out.write_str("less room for nodes than rows"),
            Reason::EditNotSensible => out.write_str("the edit does not fit the text"),
            Reason::InsideCharacter => out.write_str("the edit starts or ends inside a character"),
            Reason::WindowShort => out.write_str("the window shows too little of the text"),
            Reason::NoRowBegins => out.write_str("nothing can begin here"),
            Reason::OpenComment => out.write_str("this comment is not closed: expected '*/'"),
            Reason::OpenString => out.write_str("expected '\"' to close the string"),
            Reason::BadEscape => {
                out.write_str("unknown escape: expected '\\\"', '\\\\' or '\\n'")
            }
            Reason::NumberTooLarge => {
                out.write_str("number too large: the most is 9223372036854775807")
            }
            Reason::LoneSign => {
                out.write_str("a lone '<' or '>': Solnix has no comparisons, and shifts are '<<' and '>>'")
            }
            Reason::NoHexDigit => out.write_str("expected a hex digit behind '0x'"),
            Reason::Wanted { fitting, found } => write!(out, "expected {fitting}, found {found}"),
            Reason::NotTopLevel(fitting) | Reason::NotMapField(fitting) => {
                write!(out, "expected {fitting}")
            }
            Reason::MapTypeUnknown => out.write_str(
                "unknown map type before this: expected 'hash', 'array', 'ringbuf', 'lru_hash' or 'prog_array'",
            ),
            Reason::NotType(fitting) => write!(out, "no type before this: expected {fitting:#}"),
            Reason::MaxNegative => out.write_str("'max' is negative"),
            Reason::OutOfRange => out.write_str("out of range: expected 0 to 4294967295"),
            Reason::ShiftCount => out.write_str("shift count out of range: expected 0 to 63"),
            Reason::MapLacks(field) => {
                write!(out, "the map before this has no '{field}'")
            }
            Reason::NotEventType(fitting) => write!(out, "expected {fitting:#}"),
            Reason::CallOnOther => out.write_str("only a variable has methods"),
            Reason::TooDeep => out.write_str("nested too deeply: at most 64 may be open"),
            Reason::TooManyRows => out.write_str("more rows than a file holds: the most is 65,535"),
            Reason::BadBlock(block) => write!(out, "block {block} is damaged"),
            Reason::WrongLength => {
                out.write_str("no whole stored table: it is cut short, or longer than it says")
            }
            Reason::NoTable => out.write_str("its blocks are sound, but they hold no table"),
            Reason::OtherForm => {
                out.write_str("stored in a form that is not read here")
            }
            Reason::OtherText => out.write_str(
                "the stored table is another text's: length, lines and columns, or characters' edges do not agree",
            ),
            Reason::Other(number) => write!(out, "refused with {number}"),
        }
    }
}

/// `line:column: reason`, or the reason alone where it is about a file.
impl fmt::Display for Refusal {
    fn fmt(&self, out: &mut fmt::Formatter<'_>) -> fmt::Result {
        if self.reason.has_no_place() {
            return self.reason.fmt(out);
        }
        write!(out, "{}: {}", self.place, self.reason)
    }
}

impl Error for Refusal {}

#[cfg(test)]
mod tests {
    use super::*;

    #[test]
    fn every_number_is_read_back() {
        let numbers = (1..=7).chain(11..=17).chain(21..=32);
        for number in numbers {
            let words = [number, 4, 2, 3, 1, 2, 0, 0];
            let refusal = Refusal::from_words(&words).unwrap();
            assert_eq!(refusal.number(), number);
            assert_eq!(
                refusal.place,
                Place {
                    offset: 4,
                    line: 2,
                    column: 3
                }
            );
            assert!(refusal.to_string().starts_with("2:3: "));
        }
        assert_eq!(Refusal::from_words(&[0, 9, 9, 9, 9, 9, 9, 9]), None);
    }

    #[test]
    fn refusals_of_files_have_no_place() {
        for number in 40..=45 {
            let refusal = Refusal::from_words(&[number, 0, 1, 1, 7, 0, 0, 0]).unwrap();
            assert_eq!(refusal.number(), number);
            assert_eq!(refusal.to_string(), refusal.reason.to_string());
        }
        let damaged = Refusal::from_words(&[41, 0, 1, 1, 65_536, 0, 0, 0]).unwrap();
        assert_eq!(damaged.reason, Reason::BadBlock(65_536));
        assert_eq!(damaged.to_string(), "block 65536 is damaged");
    }

    #[test]
    fn places_count_bytes() {
        let places = [
            (0, 1, 1),
            (1, 1, 2),
            (2, 1, 3),
            (3, 2, 1),
            (5, 2, 3),
            (6, 3, 1),
        ];
        for (offset, line, column) in places {
            let wanted = Place {
                offset,
                line,
                column,
            };
            assert_eq!(Place::before("°\n°\n".as_bytes(), offset), wanted);
        }
        assert_eq!(Place::before(b"", 0), Place::START);
        assert_eq!(Place::before(b"", 9), Place::START);
    }

    #[test]
    fn what_is_told_is_read_back() {
        let wanted = Refusal::from_words(&[21, 9, 1, 10, 1 << 30, 1, 0, 50]).unwrap();
        assert_eq!(
            wanted.to_string(),
            "1:10: expected ';' or '.', found number"
        );
        let types = Refusal::from_words(&[25, 9, 1, 10, 0b1111 << 21, 0, 0, 0]).unwrap();
        assert_eq!(
            types.reason.to_string(),
            "no type before this: expected 'u32', 'u64', 'i32' or 'i64'"
        );
        assert_eq!(types.reason.fitting().map(KindSet::len), Some(4));
        let lacking = Refusal::from_words(&[29, 9, 1, 10, 4, 0, 0, 0]).unwrap();
        assert_eq!(lacking.reason, Reason::MapLacks(MapField::Max));
    }

    #[test]
    fn whatever_the_words_are_there_is_a_refusal() {
        for number in (1..100).chain([u32::MAX]) {
            for told in [0, 1, 4, 5, 16, 52, 53, u32::MAX] {
                let words = [number, u32::MAX, 0, u32::MAX, told, told, told, told];
                let refusal = Refusal::from_words(&words).unwrap();
                assert_eq!(refusal.number(), number);
                assert!(!refusal.to_string().is_empty());
            }
        }
        let unknown = Refusal::from_words(&[8, 0, 1, 1, 0, 0, 0, 0]).unwrap();
        assert_eq!(unknown.reason, Reason::Other(8));
        assert_eq!(unknown.to_string(), "1:1: refused with 8");
        let lacking = Refusal::from_words(&[29, 0, 1, 1, 5, 0, 0, 0]).unwrap();
        assert_eq!(lacking.reason, Reason::Other(29));
        let wanted = Refusal::from_words(&[21, 0, 1, 1, 1 << 16, 1 << 21, 0, 53]).unwrap();
        assert_eq!(
            wanted.to_string(),
            "1:1: expected nothing, found another kind"
        );
    }
}
