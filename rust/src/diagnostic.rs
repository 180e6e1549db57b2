//! What is wrong with a text, for people and editors: every problem at once, each with its words at the fault.
//!
//! The library tells one refusal of a text, the first, at the place that the language gives it. [`diagnose`] tells that
//! refusal in words, anchored where the fault is, and what else is wrong: it goes on at the next declaration and asks
//! the library about each declaration by itself. The refusal of the whole text is among them and is the proved one
//! ([`Diagnostic::proved`]); the others are refusals of parts.
//!
//! ```
//! use spoonharbor::diagnostic::{diagnose, Checks};
//!
//! let text = "unit a {\n x = 1\n}\nunit b {\n y = 2 @ 3;\n}\n";
//! let told = diagnose(text.as_bytes(), &Checks::default());
//! let errors: Vec<_> = told.iter().filter(|one| one.is_error()).collect();
//! assert_eq!(errors[0].message, "expected ';' after this");
//! assert_eq!((errors[0].number, errors[0].span.start), (21, 15));
//! assert_eq!(errors[1].message, "nothing begins with '@'");
//! assert!(errors[1].proved.is_some());
//! ```

mod characters;
mod edit;
mod explain;
mod grammar;
mod lexical;
mod maps;
mod nearest;
mod numbers;
mod outline;
mod parts;
mod scene;
mod statements;
mod wanted;
mod warnings;

pub use crate::position::Position;
pub use edit::Edit;
pub use explain::{explain, explained, Explained};
pub use outline::{Declaration, Outline};

use crate::columns::shown;
use crate::document::Document;
use crate::refusal::{Place, Reason, Refusal};
use std::fmt;
use std::ops::Range;

/// The most letters of a message, a note or a help.
const MOST_LETTERS: usize = 300;

/// How bad it is.
#[derive(Debug, Clone, Copy, PartialEq, Eq, Hash)]
pub enum Severity {
    /// The text is no program.
    Error,
    /// The text may be a program, and something in it is probably not meant so.
    Warning,
}

/// One thing that is wrong with a text. A later version may tell more of it.
#[derive(Debug, Clone, PartialEq, Eq)]
#[non_exhaustive]
pub struct Diagnostic {
    /// The refusal's number, or from 101 on that of a warning; [`explain`] says what it means.
    pub number: u32,
    /// Whether the text is refused for it.
    pub severity: Severity,
    /// The bytes that it is about; empty where something is missing.
    pub span: Range<usize>,
    /// What is wrong, in one line.
    pub message: String,
    /// What belongs to it.
    pub notes: Vec<Note>,
    /// What to write, if that is known.
    pub help: Option<String>,
    /// The same as an edit, where the words leave nothing open.
    pub edit: Option<Edit>,
    /// The place that the library tells, if this is its refusal of the whole text. Of a text's diagnostics at most one
    /// has it.
    pub proved: Option<Place>,
}

/// What belongs to a diagnostic, with the bytes that it is about if there are any.
#[derive(Debug, Clone, PartialEq, Eq)]
#[non_exhaustive]
pub struct Note {
    /// The bytes that it is about, if it is about some.
    pub span: Option<Range<usize>>,
    /// What it says, in one line.
    pub message: String,
}

/// What is looked for besides refusals and warnings. A later version may look for more.
#[derive(Debug, Clone, Default)]
#[non_exhaustive]
pub struct Checks {
    /// Whether a map without a comment above it is told (108).
    pub style: bool,
}

/// Everything that is wrong with a text, which may be any bytes, in the text's order.
pub fn diagnose(text: &[u8], checks: &Checks) -> Vec<Diagnostic> {
    let refusal = refused(text);
    if let Some(alone) = refusal.and_then(|refusal| lexical::told_alone(text, &refusal)) {
        return vec![alone];
    }
    let mut reading = lexical::read(text, refusal);
    let mut told = std::mem::take(&mut reading.told);
    let parts = parts::split(&reading);
    told.extend(grammar::refusals(&reading, &parts, refusal));
    told.extend(warnings::warnings(&reading, &parts, checks));
    told.sort_by_key(|one| one.span.start);
    told
}

/// The library's refusal of this text in words. It is the proved one of [`diagnose`] where that is asked about the same
/// text.
pub fn diagnose_refusal(text: &[u8], refusal: &Refusal) -> Diagnostic {
    let told = diagnose(text, &Checks::default());
    let same =
        |one: &Diagnostic| one.number == refusal.number() && one.proved == Some(refusal.place);
    told.into_iter().find(same).unwrap_or_else(|| {
        let offset = refusal.place.offset.min(text.len());
        Diagnostic::refused(refusal.number(), offset..offset, refusal.reason.to_string())
            .proved_at(refusal.place)
    })
}

/// The library's refusal of the whole text.
fn refused(text: &[u8]) -> Option<Refusal> {
    match Document::open(text) {
        Ok(document) => document.tree().err(),
        Err(refusal) => Some(refusal),
    }
}

impl Diagnostic {
    fn new(number: u32, severity: Severity, span: Range<usize>, message: String) -> Diagnostic {
        Diagnostic {
            number,
            severity,
            span,
            message: printable(&message),
            notes: Vec::new(),
            help: None,
            edit: None,
            proved: None,
        }
    }

    fn refused(number: u32, span: Range<usize>, message: String) -> Diagnostic {
        Diagnostic::new(number, Severity::Error, span, message)
    }

    fn warned(number: u32, span: Range<usize>, message: String) -> Diagnostic {
        Diagnostic::new(number, Severity::Warning, span, message)
    }

    fn note(mut self, message: impl Into<String>) -> Diagnostic {
        self.notes.push(Note {
            span: None,
            message: printable(&message.into()),
        });
        self
    }

    fn note_at(mut self, span: Range<usize>, message: impl Into<String>) -> Diagnostic {
        self.notes.push(Note {
            span: Some(span),
            message: printable(&message.into()),
        });
        self
    }

    fn help(mut self, help: impl Into<String>) -> Diagnostic {
        self.help = Some(printable(&help.into()));
        self
    }

    fn edit(mut self, edit: impl Into<Option<Edit>>) -> Diagnostic {
        self.edit = edit.into();
        self
    }

    fn proved_at(mut self, place: Place) -> Diagnostic {
        self.proved = Some(place);
        self
    }

    /// Whether it is a refusal and not a warning.
    pub fn is_error(&self) -> bool {
        self.severity == Severity::Error
    }

    /// Whether it is about the text as a whole, so that no line of it is shown.
    pub fn is_about_the_whole(&self) -> bool {
        self.number == Reason::TextTooLong.number()
    }
}

/// Words that may hold parts of a text, as they may be printed: with a `?` for what does not show, and not too long.
fn printable(words: &str) -> String {
    let shown = shown(words);
    match shown.char_indices().nth(MOST_LETTERS) {
        Some((end, _)) => format!("{}...", &shown[..end]),
        None => shown,
    }
}

impl Document {
    /// Everything that is wrong with the text, in its order. The text is read afresh for it.
    pub fn diagnostics(&self, checks: &Checks) -> Vec<Diagnostic> {
        diagnose(self.text().as_bytes(), checks)
    }
}

/// `error` or `warning`.
impl fmt::Display for Severity {
    fn fmt(&self, out: &mut fmt::Formatter<'_>) -> fmt::Result {
        out.write_str(match self {
            Severity::Error => "error",
            Severity::Warning => "warning",
        })
    }
}

/// `error[21]: message`.
impl fmt::Display for Diagnostic {
    fn fmt(&self, out: &mut fmt::Formatter<'_>) -> fmt::Result {
        write!(out, "{}[{}]: {}", self.severity, self.number, self.message)
    }
}

#[cfg(test)]
mod tests {
    use super::*;

    #[test]
    fn positions_count_bytes_and_units() {
        let text = "a\n\"é😀\"x".as_bytes();
        let places = [
            (0, 1, 1, 1),
            (2, 2, 1, 1),
            (3, 2, 2, 2),
            (5, 2, 4, 3),
            (9, 2, 8, 5),
            (11, 2, 10, 7),
        ];
        for (byte, line, column, utf16) in places {
            let wanted = Position {
                byte,
                line,
                column,
                utf16,
            };
            assert_eq!(Position::of(text, byte), wanted);
        }
        assert_eq!(Position::of(b"\xff\xffa", 3).utf16, 4);
        assert_eq!(Position::of(b"a", 99).byte, 1);
    }

    #[test]
    fn words_may_be_printed() {
        let text = "unit u { section \"kpro\u{1b}[31m\u{202e}be/\"; license \"GPL\"; }";
        let told = Document::open(text)
            .unwrap()
            .diagnostics(&Checks::default());
        assert_eq!(
            told[0].message,
            "the section \"kpro?[31m?be/\" gives no program kind"
        );
        let long = format!(
            "unit u {{ section \"{}\"; license \"GPL\"; }}",
            "é".repeat(900)
        );
        let told = diagnose(long.as_bytes(), &Checks::default());
        assert_eq!(told[0].message.chars().count(), MOST_LETTERS + 3);
    }

    #[test]
    fn diagnostics_have_their_heading() {
        let told = diagnose(b"@", &Checks::default());
        assert_eq!(told[0].to_string(), "error[11]: nothing begins with '@'");
        assert_eq!(told.len(), 1);
    }
}
