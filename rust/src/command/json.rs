//! A diagnostic for programs: one JSON object on a line.

use super::source::Source;
use spoonharbor::diagnostic::{Diagnostic, Position};
use spoonharbor::Place;
use std::fmt::Write as _;
use std::io::{self, Write};
use std::ops::Range;

/// Prints a diagnostic of this source.
pub fn print(source: &Source, told: &Diagnostic, out: &mut impl Write) -> io::Result<()> {
    let text = &source.bytes;
    let notes: Vec<String> = told
        .notes
        .iter()
        .map(|note| {
            format!(
                "{{\"message\":{},{}}}",
                quoted(&note.message),
                span(text, note.span.as_ref())
            )
        })
        .collect();
    let fields = [
        format!("\"file\":{}", quoted(&source.name)),
        format!("\"number\":{}", told.number),
        format!("\"severity\":\"{}\"", told.severity),
        format!("\"proved\":{}", told.proved.is_some()),
        format!("\"place\":{}", place(told.proved)),
        span(text, Some(&told.span)),
        format!("\"message\":{}", quoted(&told.message)),
        format!(
            "\"help\":{}",
            told.help
                .as_ref()
                .map_or("null".to_string(), |help| quoted(help))
        ),
        format!("\"notes\":[{}]", notes.join(",")),
    ];
    writeln!(out, "{{{}}}", fields.join(","))
}

/// The place that the library tells, if it does.
fn place(place: Option<Place>) -> String {
    place.map_or("null".to_string(), |at| {
        format!(
            "{{\"byte\":{},\"line\":{},\"column\":{}}}",
            at.offset, at.line, at.column
        )
    })
}

/// Where bytes start and end; both are null where nothing is pointed at.
fn span(text: &[u8], span: Option<&Range<usize>>) -> String {
    let at =
        |offset: Option<usize>| offset.map_or("null".to_string(), |offset| position(text, offset));
    let (start, end) = (span.map(|span| span.start), span.map(|span| span.end));
    format!("\"start\":{},\"end\":{}", at(start), at(end))
}

fn position(text: &[u8], offset: usize) -> String {
    let at = Position::of(text, offset);
    format!(
        "{{\"byte\":{},\"line\":{},\"column\":{},\"utf16\":{}}}",
        at.byte, at.line, at.column, at.utf16
    )
}

/// A text as JSON writes it.
pub fn quoted(text: &str) -> String {
    let mut quoted = String::from("\"");
    for letter in text.chars() {
        match letter {
            '"' | '\\' => quoted.extend(['\\', letter]),
            '\n' => quoted.push_str("\\n"),
            _ if letter.is_control() => {
                // Writing to a string does not fail.
                let _ = write!(quoted, "\\u{:04x}", u32::from(letter));
            }
            _ => quoted.push(letter),
        }
    }
    quoted + "\""
}

#[cfg(test)]
mod tests {
    use super::*;

    #[test]
    fn texts_are_quoted() {
        assert_eq!(
            quoted("a\"b\\\n\u{1}\u{85}é😀"),
            "\"a\\\"b\\\\\\n\\u0001\\u0085é😀\""
        );
        assert_eq!(quoted(""), "\"\"");
    }
}
