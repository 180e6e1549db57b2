//! Semantic tokens: what each row is, and comments; whole, or as what has changed since the last answer.

use crate::comments::comments;
use crate::names::{kind, roles, Role};
use crate::open::Open;
use serde_json::{json, Value};
use spoonharbor::diagnostic::Outline;
use spoonharbor::Kind;
use std::collections::BTreeMap;
use std::ops::Range;

/// The types of tokens; a token tells its type's index.
const TYPES: [&str; 13] = [
    "comment",
    "keyword",
    "type",
    "string",
    "number",
    "operator",
    "variable",
    "method",
    "property",
    "function",
    "struct",
    "class",
    "enumMember",
];

/// Words that go with a type, each a bit.
const MODIFIERS: [&str; 1] = ["declaration"];
const DECLARATION: u32 = 1;

/// How many numbers a token has.
const NUMBERS: usize = 5;

/// What a client is told of these names.
pub fn legend() -> Value {
    json!({ "tokenTypes": TYPES, "tokenModifiers": MODIFIERS })
}

/// An answer, to be held against the next.
#[derive(Debug, Clone, Default)]
pub struct Answered {
    number: u64,
    data: Vec<u32>,
}

impl Answered {
    /// All tokens.
    pub fn full(&mut self, open: &Open) -> Value {
        self.number += 1;
        self.data = tokens(open);
        json!({ "resultId": self.number.to_string(), "data": self.data })
    }

    /// What has changed since the answer of this number; all tokens if that was not the last.
    pub fn delta(&mut self, open: &Open, since: &str) -> Value {
        if since != self.number.to_string() {
            return self.full(open);
        }
        let old = std::mem::replace(&mut self.data, tokens(open));
        self.number += 1;
        json!({ "resultId": self.number.to_string(), "edits": edits(&old, &self.data) })
    }
}

/// The one edit that makes the new numbers of the old ones, or none.
fn edits(old: &[u32], new: &[u32]) -> Value {
    let same = |pair: &(&u32, &u32)| pair.0 == pair.1;
    let front = old.iter().zip(new).take_while(same).count();
    let (rest, made) = (
        old.get(front..).unwrap_or_default(),
        new.get(front..).unwrap_or_default(),
    );
    let end = rest.iter().rev().zip(made.iter().rev());
    let end = end.take_while(same).count();
    let made = made.get(..made.len() - end).unwrap_or_default();
    let gone = rest.len() - end;
    match (gone, made) {
        (0, []) => json!([]),
        _ => json!([{ "start": front, "deleteCount": gone, "data": made }]),
    }
}

/// Each token as five numbers: lines and characters since the one before it, its length, type and modifiers.
fn tokens(open: &Open) -> Vec<u32> {
    let outline = open.outline();
    let mut found: Vec<(Range<usize>, &str, u32)> = Vec::new();
    for span in comments(outline) {
        found.extend(by_line(open, span).map(|span| (span, "comment", 0)));
    }
    let declared = declared_words(outline);
    for (row, role) in roles(outline).into_iter().enumerate() {
        if let Some((name, modifiers)) = token(outline, &declared, row, role) {
            let span = outline.rows().get(row).map(|row| row.span());
            found.extend(span.map(|span| (span, name, modifiers)));
        }
    }
    found.sort_by_key(|(span, _, _)| span.start);
    numbered(open, &found)
}

/// A comment's part of each line.
fn by_line(open: &Open, span: Range<usize>) -> impl Iterator<Item = Range<usize>> + '_ {
    let lines = open.lines().line_of(span.start)..=open.lines().line_of(span.end);
    lines
        .map(move |line| open.lines().line(open.text(), line))
        .map(move |line| line.start.max(span.start)..line.end.min(span.end))
        .filter(|part| part.start < part.end)
}

/// What a row is, if it is told.
fn token(
    outline: &Outline,
    declared: &Declared,
    row: usize,
    role: Role,
) -> Option<(&'static str, u32)> {
    Some(match kind(outline, row) {
        Kind::Identifier => return named(outline, declared, row, role),
        Kind::StringLiteral => ("string", 0),
        Kind::Number => ("number", 0),
        Kind::TypeU32 | Kind::TypeU64 | Kind::TypeI32 | Kind::TypeI64 | Kind::KeywordBytes => {
            ("type", 0)
        }
        kind => match kind.spelling()? {
            "{" | "}" | "(" | ")" | "[" | "]" | ":" | "." | "," | ";" => return None,
            word if word.starts_with(|letter: char| letter.is_ascii_alphabetic()) => ("keyword", 0),
            _ => ("operator", 0),
        },
    })
}

/// The names of maps and events, each with the word of the first that has it.
type Declared<'a> = BTreeMap<&'a str, Kind>;

fn declared_words(outline: &Outline) -> Declared<'_> {
    let mut words = BTreeMap::new();
    let all = outline.declarations().iter();
    for one in all.filter(|one| one.kind != Kind::KeywordUnit) {
        if let Some(name) = outline.name(one) {
            words.entry(name).or_insert(one.kind);
        }
    }
    words
}

/// What an identifier is.
fn named(
    outline: &Outline,
    words: &Declared,
    row: usize,
    role: Role,
) -> Option<(&'static str, u32)> {
    let is_called = kind(outline, row + 1) == Kind::LParen;
    Some(match role {
        Role::Declared(word) => (declared(word), DECLARATION),
        Role::Used => {
            let word = words.get(outline.word(row));
            (word.map_or("variable", |word| declared(*word)), 0)
        }
        Role::OwnDeclared => ("variable", DECLARATION),
        Role::Own => ("variable", 0),
        Role::Member if is_called => ("method", 0),
        Role::Member => ("property", 0),
        Role::MapType => ("enumMember", 0),
        Role::Field => ("property", DECLARATION),
        Role::Other => return None,
    })
}

/// What a declaration with this word is.
fn declared(word: Kind) -> &'static str {
    match word {
        Kind::KeywordMap => "class",
        Kind::KeywordEvent => "struct",
        _ => "function",
    }
}

fn numbered(open: &Open, found: &[(Range<usize>, &str, u32)]) -> Vec<u32> {
    let (text, lines) = (open.text(), open.lines());
    let length = |span: Range<usize>| {
        let part = text.get(span).unwrap_or_default();
        number(lines.encoding().length_of(part))
    };
    let mut numbers = Vec::with_capacity(found.len() * NUMBERS);
    let (mut line, mut before) = (0, 0);
    for (span, name, modifiers) in found {
        let at = lines.line_of(span.start);
        if at > line {
            before = lines.line(text, at).start;
        }
        let type_index = TYPES.iter().position(|one| one == name);
        numbers.extend([
            number(at - line),
            length(before..span.start),
            length(span.clone()),
            number(type_index.unwrap_or_default()),
            *modifiers,
        ]);
        (line, before) = (at, span.start);
    }
    numbers
}

fn number(count: usize) -> u32 {
    u32::try_from(count).unwrap_or(u32::MAX)
}

#[cfg(test)]
mod tests {
    use super::*;

    #[test]
    fn one_edit_makes_the_new_numbers() {
        let cases: [(&[u32], &[u32], Value); 5] = [
            (&[1, 2, 3], &[1, 2, 3], json!([])),
            (
                &[1, 2, 3],
                &[1, 9, 3],
                json!([{ "start": 1, "deleteCount": 1, "data": [9] }]),
            ),
            (
                &[],
                &[1],
                json!([{ "start": 0, "deleteCount": 0, "data": [1] }]),
            ),
            (
                &[1, 1],
                &[1],
                json!([{ "start": 1, "deleteCount": 1, "data": [] }]),
            ),
            (
                &[1, 1],
                &[1, 1, 1],
                json!([{ "start": 2, "deleteCount": 0, "data": [1] }]),
            ),
        ];
        for (old, new, wanted) in cases {
            assert_eq!(edits(old, new), wanted);
        }
    }
}
