//! A text that is read to its end whatever is wrong with it: its rows, and its declarations one by one.

use super::parts::{split, Part};
use super::{lexical, refused};
use crate::document::Document;
use crate::kind::Kind;
use crate::row::Row;
use std::ops::Range;

/// The rows and declarations of any text, for an editor, whose text is broken most of the time. What the library
/// refuses while it scans is left out, and the rest is read; a text that is too long, or looks like UTF-16, has no
/// rows.
///
/// ```
/// use spoonharbor::diagnostic::Outline;
///
/// let outline = Outline::of(b"unit a {\n x = @ 1\n}\nevent b {}\n");
/// let names = outline.declarations().iter().filter_map(|one| outline.name(one));
/// assert_eq!(names.collect::<Vec<&str>>(), ["a", "b"]);
/// ```
#[derive(Debug, Clone)]
pub struct Outline {
    text: String,
    rows: Vec<Row>,
    declarations: Vec<Declaration>,
}

/// A map, an event or a unit, which need not be whole. A later version may tell more of it.
#[derive(Debug, Clone, PartialEq, Eq)]
#[non_exhaustive]
pub struct Declaration {
    /// Its word: [`Kind::KeywordMap`], [`Kind::KeywordEvent`] or [`Kind::KeywordUnit`].
    pub kind: Kind,
    /// The row of its name, if it has one.
    pub name: Option<usize>,
    /// Its rows, from its word to its `}` or to where the next declaration begins.
    pub rows: Range<usize>,
    /// The bytes of these rows.
    pub span: Range<usize>,
    /// Whether a `}` closes it.
    pub is_closed: bool,
}

impl Outline {
    /// Reads a text, which may be any bytes.
    pub fn of(text: &[u8]) -> Outline {
        let refusal = refused(text);
        if refusal.is_some_and(|refusal| lexical::told_alone(text, &refusal).is_some()) {
            return Outline {
                text: String::new(),
                rows: Vec::new(),
                declarations: Vec::new(),
            };
        }
        let reading = lexical::read(text, refusal);
        let parts = split(&reading);
        let declarations = parts.iter().filter(|part| part.is_declaration);
        let declarations = declarations.map(|part| declaration(&reading.rows, part));
        Outline {
            declarations: declarations.collect(),
            text: reading.text,
            rows: reading.rows,
        }
    }

    /// The text that was read: as long as it was, with blanks for what was refused and a `?` for each byte that is no
    /// UTF-8.
    pub fn text(&self) -> &str {
        &self.text
    }

    /// The rows; the last is Eof.
    pub fn rows(&self) -> &[Row] {
        &self.rows
    }

    /// The declarations in the text's order.
    pub fn declarations(&self) -> &[Declaration] {
        &self.declarations
    }

    /// How a row is spelt; nothing for one that is not there.
    pub fn word(&self, row: usize) -> &str {
        let row = self.rows.get(row);
        row.and_then(|row| self.text.get(row.span()))
            .unwrap_or_default()
    }

    /// The name of a declaration of this text.
    pub fn name(&self, declaration: &Declaration) -> Option<&str> {
        Some(self.word(declaration.name?))
    }

    /// A declaration as a document by itself. Its first row is 0 there and its first byte is at 0.
    pub fn document(&self, declaration: &Declaration) -> Option<Document> {
        let text = self.text.get(declaration.span.clone())?;
        Document::open(text).ok()
    }
}

fn declaration(rows: &[Row], part: &Part) -> Declaration {
    let first = part.rows.start;
    let start = part.bytes.start;
    let last = rows.get(part.rows.end.saturating_sub(1));
    let name = rows
        .get(first + 1)
        .filter(|row| row.kind == Kind::Identifier);
    Declaration {
        kind: rows.get(first).map_or(Kind::Eof, |row| row.kind),
        name: name
            .map(|_| first + 1)
            .filter(|row| part.rows.contains(row)),
        rows: part.rows.clone(),
        span: start..last.map_or(start, |row| row.end),
        is_closed: part.is_closed,
    }
}

#[cfg(test)]
mod tests {
    use super::*;

    #[test]
    fn broken_texts_have_an_outline() {
        let text = "map m { type: \u{201c}x\u{201d};\nunit u { x = 1; } event { } unit map {}";
        let outline = Outline::of(text.as_bytes());
        let told: Vec<_> = outline
            .declarations()
            .iter()
            .map(|one| (one.kind, outline.name(one), one.is_closed))
            .collect();
        assert_eq!(
            told,
            [
                (Kind::KeywordMap, Some("m"), false),
                (Kind::KeywordUnit, Some("u"), true),
                (Kind::KeywordEvent, None, true),
                (Kind::KeywordUnit, None, true),
            ]
        );
        let unit = &outline.declarations()[1];
        assert_eq!(&text[unit.span.clone()], "unit u { x = 1; }");
        let document = outline.document(unit).unwrap();
        assert_eq!(document.tree().unwrap().len(), 5);
        assert_eq!(
            (unit.rows.start, outline.word(unit.rows.start)),
            (6, "unit")
        );
    }

    #[test]
    fn what_is_told_alone_has_no_rows() {
        let long = "a ".repeat(40_000);
        for text in [long.as_bytes(), b"\xff\xfeu\0n\0"] {
            let outline = Outline::of(text);
            assert!(outline.rows().is_empty() && outline.declarations().is_empty());
        }
        let outline = Outline::of(b"");
        assert_eq!((outline.rows().len(), outline.text()), (1, ""));
    }
}
