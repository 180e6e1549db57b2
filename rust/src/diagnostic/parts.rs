//! The parts of a text that are read by themselves: declarations, and what stands between them.

use super::lexical::Reading;
use crate::kind::Kind;
use crate::row::Row;
use std::ops::Range;

/// A declaration, or rows between two of them that begin none.
pub struct Part {
    pub rows: Range<usize>,
    /// The text that the library is asked about: up to the row behind the part.
    pub bytes: Range<usize>,
    /// The bytes whose lexical faults are this part's: of a declaration up to the `}` that closes it.
    pub own: Range<usize>,
    pub is_declaration: bool,
    /// Whether a `}` closes it.
    pub is_closed: bool,
}

/// The parts of a text that is read to its end, in order; every row but Eof is in one.
pub fn split(reading: &Reading) -> Vec<Part> {
    let rows = &reading.rows;
    let count = rows.len().saturating_sub(1);
    let mut parts: Vec<Part> = Vec::new();
    let mut first = 0;
    while first < count {
        let is_declaration = is_declaration_word(rows[first].kind);
        let (end, is_closed) = match is_declaration {
            true => declaration_end(rows, first),
            false => (next_begin(rows, first), false),
        };
        let bytes = rows[first].start..rows[end].start;
        let before = parts.last().map_or(0, |part| part.own.end);
        let own_start = if is_declaration { bytes.start } else { before };
        let own_end = if is_closed {
            rows[end - 1].end
        } else {
            bytes.end
        };
        parts.push(Part {
            rows: first..end,
            bytes,
            own: own_start..own_end,
            is_declaration,
            is_closed,
        });
        first = end;
    }
    parts
}

/// Whether a word begins declarations.
pub fn is_declaration_word(kind: Kind) -> bool {
    matches!(
        kind,
        Kind::KeywordMap | Kind::KeywordEvent | Kind::KeywordUnit
    )
}

/// Where a declaration ends: behind the `}` that closes it, or where the next one begins; and whether it is closed.
fn declaration_end(rows: &[Row], first: usize) -> (usize, bool) {
    let mut depth = 0;
    for at in first + 1..rows.len() - 1 {
        if begins(rows, at, rows[first].column) {
            return (at, false);
        }
        match rows[at].kind {
            Kind::LBrace => depth += 1,
            Kind::RBrace if depth <= 1 => return (at + 1, true),
            Kind::RBrace => depth -= 1,
            _ => {}
        }
    }
    (rows.len() - 1, false)
}

/// The next row that begins a declaration, or Eof.
fn next_begin(rows: &[Row], first: usize) -> usize {
    let last = rows.len() - 1;
    (first + 1..last)
        .find(|&at| begins(rows, at, usize::MAX))
        .unwrap_or(last)
}

/// Whether a row begins a declaration, inside a broken one too. The word stands nowhere else in a program. So it begins one if a name and
/// `{` follow; or, up to this column, if it is the first on its line and has a name on it, or none, and nothing else but `{`.
fn begins(rows: &[Row], at: usize, column: usize) -> bool {
    let kind = |index: usize| rows.get(index).map_or(Kind::Eof, |row| row.kind);
    if !is_declaration_word(kind(at)) {
        return false;
    }
    let is_name = matches!(kind(at + 1), Kind::Identifier | Kind::Number) || is_word(kind(at + 1));
    if is_name && kind(at + 2) == Kind::LBrace {
        return true;
    }
    let is_alone = |index: usize| {
        let next = rows.get(index);
        next.is_none_or(|next| {
            next.line > rows[at].line || matches!(next.kind, Kind::LBrace | Kind::Eof)
        })
    };
    let before = rows[at - 1];
    let is_apart = matches!(before.kind, Kind::RBrace | Kind::Semicolon)
        || before.line < rows[at].line && !wants_name(before.kind);
    is_apart && rows[at].column <= column && is_alone(at + 1 + usize::from(is_name))
}

/// Whether a name stands behind a row of this kind.
fn wants_name(kind: Kind) -> bool {
    is_declaration_word(kind)
        || matches!(
            kind,
            Kind::KeywordReg | Kind::KeywordImm | Kind::KeywordHeap | Kind::Dot
        )
}

/// Whether a kind is a reserved word.
pub fn is_word(kind: Kind) -> bool {
    let spelling = kind.spelling().unwrap_or_default();
    spelling.starts_with(|letter: char| letter.is_ascii_alphabetic())
}

#[cfg(test)]
mod tests {
    use super::*;
    use crate::diagnostic::lexical::read;

    /// The parts' texts without what stands behind them; those that are no declarations in parentheses.
    fn texts(text: &str) -> Vec<String> {
        let reading = read(text.as_bytes(), None);
        let shown = |part: &Part| {
            let text = reading.text[part.bytes.clone()].trim();
            match part.is_declaration {
                true => text.to_string(),
                false => format!("({text})"),
            }
        };
        split(&reading).iter().map(shown).collect()
    }

    #[test]
    fn texts_are_split_into_declarations() {
        let cases: [(&str, &[&str]); 12] = [
            ("", &[]),
            ("// a", &[]),
            ("map m{} unit u{}", &["map m{}", "unit u{}"]),
            ("unit u{ x;\nunit v{}", &["unit u{ x;", "unit v{}"]),
            (
                "unit u{ if guard(a){ } x; } y; map m{}",
                &["unit u{ if guard(a){ } x; }", "(y;)", "map m{}"],
            ),
            ("units u{} unit v{}", &["(units u{})", "unit v{}"]),
            (
                "unit u{ reg map = 1; x = unit; } ",
                &["unit u{ reg map = 1; x = unit; }"],
            ),
            (
                "event e{ unit: u32;\nmap: u32; }",
                &["event e{ unit: u32;\nmap: u32; }"],
            ),
            (
                "unit map{ } event unit{ }",
                &["unit map{ }", "event unit{ }"],
            ),
            ("unit u x; } unit v{}", &["unit u x; }", "unit v{}"]),
            ("unit u{} }", &["unit u{}", "(})"]),
            ("unit u{}\nunit", &["unit u{}", "unit"]),
        ];
        for (text, wanted) in cases {
            assert_eq!(texts(text), wanted, "{text}");
        }
    }
}
