//! A refused part of a text, as the rules that find words for it look at it.

use super::{Diagnostic, Edit};
use crate::kind::Kind;
use crate::refusal::{Reason, Refusal};
use crate::row::Row;
use std::ops::Range;

/// The most bytes of the text that are put into a message.
const MOST_QUOTED: usize = 40;

/// A refusal among the rows of the text that it is about.
pub struct Scene<'a> {
    pub text: &'a str,
    /// All of the text's rows, Eof last.
    pub rows: &'a [Row],
    /// The rows of the part that is refused.
    pub part: Range<usize>,
    /// The row at the refusal's place, which may be the one behind the part.
    pub at: usize,
    pub reason: Reason,
}

impl<'a> Scene<'a> {
    /// The scene of a refusal whose place is in the whole text.
    pub fn new(text: &'a str, rows: &'a [Row], part: Range<usize>, refusal: &Refusal) -> Scene<'a> {
        let at = rows.partition_point(|row| row.start < refusal.place.offset);
        Scene {
            text,
            rows,
            part,
            at: at.min(rows.len() - 1),
            reason: refusal.reason,
        }
    }

    /// The kind of a row; Eof where there is none.
    pub fn kind(&self, row: usize) -> Kind {
        self.rows.get(row).map_or(Kind::Eof, |row| row.kind)
    }

    /// The kind of the row so many in front of the place; Eof where that is in front of the part.
    pub fn before(&self, count: usize) -> Kind {
        match self.at.checked_sub(count) {
            Some(row) if row >= self.part.start => self.kind(row),
            _ => Kind::Eof,
        }
    }

    /// How a row is spelt.
    pub fn word(&self, row: usize) -> &'a str {
        let row = self.rows.get(row);
        row.and_then(|row| self.text.get(row.span()))
            .unwrap_or_default()
    }

    pub fn span(&self, row: usize) -> Range<usize> {
        let end = self.text.len();
        self.rows.get(row).map_or(end..end, Row::span)
    }

    /// From the first of some rows to the last.
    pub fn spans(&self, rows: Range<usize>) -> Range<usize> {
        self.span(rows.start).start..self.span(rows.end.saturating_sub(1)).end
    }

    /// A number's value; 0 of any other row.
    pub fn value(&self, row: usize) -> i64 {
        self.rows.get(row).map_or(0, |row| row.value)
    }

    /// The text of some rows, if it is short and on one line.
    pub fn quoted(&self, rows: Range<usize>) -> Option<&'a str> {
        let text = self.text.get(self.spans(rows))?;
        (text.len() <= MOST_QUOTED && !text.contains('\n')).then_some(text)
    }

    /// Behind the row in front of the place.
    pub fn behind(&self) -> Range<usize> {
        let end = self.span(self.at.saturating_sub(1)).end;
        end..end
    }

    /// A row as what was found.
    pub fn found(&self, row: usize) -> String {
        let word = self.word(row);
        match self.kind(row) {
            Kind::Eof => "the end of the file".to_string(),
            Kind::StringLiteral if word.len() <= MOST_QUOTED => word.to_string(),
            _ if word.len() <= MOST_QUOTED => format!("'{word}'"),
            kind => kind.to_string(),
        }
    }

    /// Whether nothing stands between a row and the next.
    pub fn touches_next(&self, row: usize) -> bool {
        row + 1 < self.rows.len() && self.span(row).end == self.span(row + 1).start
    }

    /// The rows of the part around the place that touch each other and meet a test; the row at the place is one of them.
    pub fn run(&self, is_part: impl Fn(usize) -> bool) -> Range<usize> {
        let is_more = |row: &usize| is_part(*row) && self.touches_next(*row);
        let before = (self.part.start..self.at).rev().take_while(is_more);
        let goes_on = |row: &usize| is_part(*row) && self.touches_next(*row - 1);
        let behind = (self.at + 1..self.part.end).take_while(goes_on);
        self.at - before.count()..self.at + 1 + behind.count()
    }

    /// Whether the row at the place stands on the line of the one in front of it.
    pub fn is_on_line(&self) -> bool {
        let line = |row: usize| self.rows.get(row).map(|row| row.line);
        self.at > self.part.start
            && line(self.at) == line(self.at - 1)
            && self.kind(self.at) != Kind::Eof
    }

    /// Whether the place is behind the part's last row.
    pub fn is_at_end(&self) -> bool {
        self.at >= self.part.end
    }

    /// The first row of the statement or field that the place is in.
    pub fn statement(&self) -> usize {
        let ends = |row: &usize| {
            matches!(
                self.kind(*row),
                Kind::Semicolon | Kind::LBrace | Kind::RBrace
            )
        };
        let end = self.at.min(self.part.end);
        let last = (self.part.start..end).rev().find(ends);
        last.map_or(self.part.start, |row| row + 1)
    }

    /// The innermost row that opens something which is not closed in front of the place.
    pub fn opened(&self, open: Kind, close: Kind) -> Option<usize> {
        let mut waiting = Vec::new();
        for row in self.part.start..self.at.min(self.part.end) {
            if self.kind(row) == open {
                waiting.push(row);
            } else if self.kind(row) == close {
                waiting.pop();
            }
        }
        waiting.pop()
    }

    /// A refusal with these words, about these bytes.
    pub fn told(&self, span: Range<usize>, message: impl Into<String>) -> Diagnostic {
        Diagnostic::refused(self.reason.number(), span, message.into())
    }

    /// New text for some rows.
    pub fn written(&self, rows: Range<usize>, text: impl Into<String>) -> Edit {
        Edit::new(self.spans(rows), text)
    }

    /// Text that is added behind the row in front of the place.
    pub fn added(&self, text: impl Into<String>) -> Edit {
        Edit::new(self.behind(), text)
    }

    /// A refusal about one row.
    pub fn told_of(&self, row: usize, message: impl Into<String>) -> Diagnostic {
        self.told(self.span(row), message)
    }
}
