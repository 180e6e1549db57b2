//! Places as the protocol counts them: lines from 0, and in a line units of UTF-16 or bytes.
//!
//! The protocol ends a line with LF, CR LF or CR. The library ends one with LF alone, so its lines are not used here.

use serde_json::{json, Value};
use std::ops::Range;

/// What is counted in a line.
#[derive(Debug, Clone, Copy, PartialEq, Eq, Default)]
pub enum Encoding {
    Utf8,
    #[default]
    Utf16,
}

impl Encoding {
    /// The protocol's name for it.
    pub fn name(self) -> &'static str {
        match self {
            Encoding::Utf8 => "utf-8",
            Encoding::Utf16 => "utf-16",
        }
    }

    fn length(self, letter: char) -> usize {
        match self {
            Encoding::Utf8 => letter.len_utf8(),
            Encoding::Utf16 => letter.len_utf16(),
        }
    }

    /// How long a part of a line is.
    pub fn length_of(self, text: &str) -> usize {
        match self {
            Encoding::Utf8 => text.len(),
            Encoding::Utf16 if text.is_ascii() => text.len(),
            Encoding::Utf16 => text.chars().map(char::len_utf16).sum(),
        }
    }
}

/// Where each line of a text begins.
#[derive(Debug, Clone)]
pub struct Lines {
    starts: Vec<usize>,
    encoding: Encoding,
}

impl Lines {
    pub fn of(text: &str, encoding: Encoding) -> Lines {
        let bytes = text.as_bytes();
        let is_return_alone = |at: usize| bytes.get(at + 1) != Some(&b'\n');
        let ends = bytes
            .iter()
            .enumerate()
            .filter(|&(at, &byte)| byte == b'\n' || byte == b'\r' && is_return_alone(at));
        Lines {
            starts: [0].into_iter().chain(ends.map(|(at, _)| at + 1)).collect(),
            encoding,
        }
    }

    pub fn encoding(&self) -> Encoding {
        self.encoding
    }

    /// The bytes of a line without what ends it; the empty end of the text for a line that it does not have.
    pub fn line(&self, text: &str, line: usize) -> Range<usize> {
        let end = text.len();
        let start = self.starts.get(line).copied().unwrap_or(end);
        let next = self
            .starts
            .get(line.saturating_add(1))
            .copied()
            .unwrap_or(end);
        let whole = text.get(start..next).unwrap_or_default();
        let is_last = self.starts.len() <= line.saturating_add(1);
        let shown = match whole.strip_suffix("\r\n") {
            _ if is_last => whole,
            Some(shown) => shown,
            None => whole.strip_suffix(['\n', '\r']).unwrap_or(whole),
        };
        start..start + shown.len()
    }

    /// The number of the line that an offset is in.
    pub fn line_of(&self, offset: usize) -> usize {
        let behind = self.starts.partition_point(|&start| start <= offset);
        behind.saturating_sub(1)
    }

    /// The line and what is counted in it before an offset.
    pub fn place(&self, text: &str, offset: usize) -> (usize, usize) {
        let line = self.line_of(offset);
        let Range { start, end } = self.line(text, line);
        let mut offset = offset.clamp(start, end);
        while !text.is_char_boundary(offset) {
            offset -= 1;
        }
        let before = text.get(start..offset).unwrap_or_default();
        (line, self.encoding.length_of(before))
    }

    /// The offset at a place. One that is too far in its line is the line's end, one in a line that is not there the
    /// text's end, and one inside a character where that begins.
    pub fn offset(&self, text: &str, line: usize, character: usize) -> usize {
        let Range { start, end } = self.line(text, line);
        let shown = text.get(start..end).unwrap_or_default();
        let mut left = character;
        let mut offset = start;
        for letter in shown.chars() {
            let length = self.encoding.length(letter);
            if left < length {
                break;
            }
            left -= length;
            offset += letter.len_utf8();
        }
        offset
    }

    /// A place as a message has it.
    pub fn position(&self, text: &str, offset: usize) -> Value {
        let (line, character) = self.place(text, offset);
        json!({ "line": line, "character": character })
    }

    /// Two places as a message has them.
    pub fn range(&self, text: &str, span: &Range<usize>) -> Value {
        json!({ "start": self.position(text, span.start), "end": self.position(text, span.end) })
    }
}

#[cfg(test)]
mod tests {
    use super::*;

    const TEXT: &str = "a°b\r\n😀x\ry\n\nz";

    #[test]
    fn lines_end_as_the_protocol_says() {
        let lines = Lines::of(TEXT, Encoding::Utf16);
        let shown: Vec<&str> = (0..6)
            .map(|line| TEXT.get(lines.line(TEXT, line)).unwrap_or("none"))
            .collect();
        assert_eq!(shown, ["a°b", "😀x", "y", "", "z", ""]);
        let ended = Lines::of("a\n", Encoding::Utf16);
        assert_eq!((ended.line("a\n", 0), ended.line("a\n", 1)), (0..1, 2..2));
    }

    #[test]
    fn places_and_offsets_belong_together() {
        for encoding in [Encoding::Utf8, Encoding::Utf16] {
            let lines = Lines::of(TEXT, encoding);
            for (offset, _) in TEXT.char_indices() {
                let (line, character) = lines.place(TEXT, offset);
                let is_between = TEXT
                    .get(offset..)
                    .is_some_and(|rest| rest.starts_with('\n'))
                    && TEXT
                        .get(..offset)
                        .is_some_and(|front| front.ends_with('\r'));
                let wanted = offset - usize::from(is_between);
                assert_eq!(lines.offset(TEXT, line, character), wanted);
            }
        }
        let lines = Lines::of(TEXT, Encoding::Utf16);
        assert_eq!(lines.place(TEXT, TEXT.len() - 5), (1, 3));
        assert_eq!(lines.offset(TEXT, 1, 2), 10);
    }

    #[test]
    fn places_that_are_not_there_have_the_nearest() {
        let lines = Lines::of(TEXT, Encoding::Utf16);
        assert_eq!(lines.offset(TEXT, 0, 99), 4);
        assert_eq!(lines.offset(TEXT, 99, 0), TEXT.len());
        assert_eq!(lines.offset(TEXT, 1, 1), 6);
        assert_eq!(lines.offset(TEXT, usize::MAX - 1, usize::MAX), TEXT.len());
        let bytes = Lines::of(TEXT, Encoding::Utf8);
        assert_eq!(bytes.offset(TEXT, 0, 2), 1);
        assert_eq!(bytes.place(TEXT, 2), (0, 1));
    }
}
