//! What stands before a place, and what fits behind it.

use super::{kind_before, row_before};
use crate::comments::{comments, is_line_comment};
use crate::names::{kind, roles, Role};
use spoonharbor::diagnostic::{diagnose, Checks, Declaration, Outline};
use spoonharbor::{section_kind, Document, Kind, KindSet, ProgramKind, Reason, LONGEST_TEXT};

/// A sign that fits nowhere, so that what would have fitted in its place is told.
const MISFIT: &str = " -= ";

/// The text before a place, without the word that is being written there.
pub struct Before {
    outline: Outline,
}

impl Before {
    /// Of the text before the place; nothing where that is inside a comment, a string or a number, or too long to be
    /// read.
    pub fn of(head: &str) -> Option<Before> {
        let is_letter = |letter: char| letter.is_ascii_alphanumeric() || letter == '_';
        let front = head.trim_end_matches(is_letter);
        let word = head.get(front.len()..)?;
        let is_number = word.starts_with(|letter: char| letter.is_ascii_digit());
        if is_number || front.len() > LONGEST_TEXT {
            return None;
        }
        let outline = Outline::of(front.as_bytes());
        let before = Before { outline };
        (!before.is_in_comment(front) && !is_open(front)).then_some(before)
    }

    /// Whether a comment goes on at the text's end.
    fn is_in_comment(&self, front: &str) -> bool {
        let all = comments(&self.outline);
        let last = all.last().filter(|span| span.end == front.len());
        last.is_some_and(|span| is_line_comment(front, span))
    }

    /// The kind of the row so many from the end, 1 for the last; Eof where there is none.
    pub fn kind(&self, count: usize) -> Kind {
        kind_before(&self.outline, count)
    }

    pub fn word(&self, count: usize) -> &str {
        row_before(&self.outline, count).map_or("", |row| self.outline.word(row))
    }

    /// The declaration that the place is in.
    fn around(&self) -> Option<&Declaration> {
        let last = self.outline.declarations().last();
        last.filter(|one| !one.is_closed)
    }

    pub fn is_in_unit(&self) -> bool {
        self.around()
            .is_some_and(|one| one.kind == Kind::KeywordUnit)
    }

    /// The kinds of rows that fit at the place: behind the declaration that it is in, or, where that is refused
    /// further in front, behind the statement or field that it is in.
    pub fn fitting(&self) -> KindSet {
        let text = self.outline.text();
        let Some(around) = self.around() else {
            return self.fitting_outside();
        };
        let own = text.get(around.span.start..).unwrap_or_default();
        fits(own)
            .or_else(|| fits(&self.rest(around)))
            .unwrap_or_default()
    }

    /// Behind all declarations.
    fn fitting_outside(&self) -> KindSet {
        let closed = self.outline.declarations().last();
        let end = closed.map_or(0, |one| one.span.end);
        let rest = self.outline.text().get(end..).unwrap_or_default();
        fits(rest).or_else(|| fits("")).unwrap_or_default()
    }

    /// The head of the declaration, of each body that is open, and the statement or field that the place is in.
    fn rest(&self, around: &Declaration) -> String {
        let mut depth = 0_usize;
        let mut end = around.rows.start;
        for row in around.rows.clone() {
            match kind(&self.outline, row) {
                Kind::LBrace => depth += 1,
                Kind::RBrace => depth = depth.saturating_sub(1),
                Kind::Semicolon => {}
                _ => continue,
            }
            end = row + 1;
        }
        let head = match around.kind {
            Kind::KeywordMap => "map m { ",
            Kind::KeywordEvent => "event e { ",
            _ => "unit u { ",
        };
        let bodies = "if guard (a) { ".repeat(depth.saturating_sub(1));
        let from = end
            .checked_sub(1)
            .and_then(|row| self.outline.rows().get(row));
        let text = self.outline.text();
        let last = from.and_then(|row| text.get(row.end..)).unwrap_or_default();
        format!("{head}{bodies}{last}")
    }

    /// The kind of the unit that the place is in, by its first section, which may stand behind the place in the whole
    /// text.
    pub fn unit_kind(&self, whole: &Outline) -> ProgramKind {
        let start = self.around().map(|one| one.span.start);
        let is_same = |one: &&Declaration| Some(one.span.start) == start;
        let mut rows = match whole.declarations().iter().find(is_same) {
            Some(one) => one.rows.clone(),
            None => return ProgramKind::Unknown,
        };
        let first = rows.find(|&row| kind(whole, row) == Kind::KeywordSection);
        let string = first.map_or("", |row| whole.word(row + 1));
        let inside = string
            .strip_prefix('"')
            .and_then(|rest| rest.strip_suffix('"'));
        section_kind(inside.unwrap_or_default().as_bytes())
    }

    /// The variables that the unit around the place has made its own in front of it.
    pub fn variables(&self) -> Vec<String> {
        let Some(around) = self.around() else {
            return Vec::new();
        };
        let roles = roles(&self.outline);
        let is_own = |row: &usize| roles.get(*row) == Some(&Role::OwnDeclared);
        let rows = around.rows.clone().filter(is_own);
        rows.map(|row| self.outline.word(row).to_string()).collect()
    }
}

/// Whether a comment or a string of the text is open at its end.
fn is_open(front: &str) -> bool {
    let told = diagnose(front.as_bytes(), &Checks::default());
    let last_line = front.rfind(['\n', '\r']).map_or(0, |end| end + 1);
    told.iter().any(|one| {
        let is_string = one.number == Reason::OpenString.number();
        one.number == Reason::OpenComment.number() || is_string && one.span.start >= last_line
    })
}

/// The kinds that fit behind a text; nothing where it is refused further in front.
fn fits(text: &str) -> Option<KindSet> {
    let document = Document::open(format!("{text}{MISFIT}")).ok()?;
    let refusal = document.tree().err()?;
    let is_behind = refusal.place.offset >= text.len();
    refusal.reason.fitting().filter(|_| is_behind)
}
