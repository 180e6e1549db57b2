//! A diagnostic for people: its number and words, `--> file:line:column`, the source line with carets below the place,
//! notes and help.

use super::paint::{Colour, Paint};
use super::source::Source;
use spoonharbor::columns::{columns, is_mark, shows};
use spoonharbor::diagnostic::{diagnose_refusal, Diagnostic, Position, Severity};
use spoonharbor::Refusal;
use std::io::{self, Write};
use std::ops::Range;

/// The most cells of a source line that are shown, and how many of them stand before the place in a longer line.
const LINE_SHOWN: usize = 100;
const SHOWN_BEFORE: usize = 60;

/// What stands for the rest of a line, and for what does not show.
const CUT: &str = "...";
const UNSHOWN: &str = "?";

/// Prints a refusal of this source.
pub fn refused(source: &Source, refusal: &Refusal, out: &mut impl Write) -> io::Result<()> {
    let told = diagnose_refusal(&source.bytes, refusal);
    told_of(source, &told, Colour::Auto.paint(), out)
}

/// Prints a diagnostic of this source.
pub fn told_of(
    source: &Source,
    told: &Diagnostic,
    paint: Paint,
    out: &mut impl Write,
) -> io::Result<()> {
    let heading = format!("{}[{}]", told.severity, told.number);
    let message = paint.message(&format!(": {}", told.message));
    writeln!(out, "{}{message}", paint.heading(told.severity, &heading))?;
    let page = Page::new(source, told, paint);
    if told.is_about_the_whole() {
        writeln!(out, "{} {}", paint.gutter(" -->"), source.name)?;
    } else {
        page.line(&told.span, told.severity, out)?;
    }
    for note in told.notes.iter().filter(|note| note.span.is_none()) {
        page.added("note", &note.message, out)?;
    }
    if let Some(help) = &told.help {
        page.added("help", help, out)?;
    }
    if let Some(place) = told.proved {
        let words = format!(
            "the library refuses the text with {} at {}:{}",
            told.number, place.line, place.column
        );
        page.added("proved", &words, out)?;
    }
    for note in &told.notes {
        let Some(span) = &note.span else { continue };
        writeln!(out, "{}: {}", paint.added("note"), note.message)?;
        page.line(span, told.severity, out)?;
    }
    writeln!(out)
}

/// Where source lines are printed, with room for their numbers in front.
struct Page<'a> {
    source: &'a Source,
    paint: Paint,
    width: usize,
}

impl<'a> Page<'a> {
    fn new(source: &'a Source, told: &Diagnostic, paint: Paint) -> Page<'a> {
        let spans = told.notes.iter().filter_map(|note| note.span.as_ref());
        let lines = spans
            .chain([&told.span])
            .map(|span| Position::of(&source.bytes, span.start).line);
        let last = lines.max().unwrap_or(1);
        Page {
            source,
            paint,
            width: last.to_string().len(),
        }
    }

    /// Prints where bytes stand, their line and carets below them.
    fn line(
        &self,
        span: &Range<usize>,
        severity: Severity,
        out: &mut impl Write,
    ) -> io::Result<()> {
        let at = Position::of(&self.source.bytes, span.start);
        let line = SourceLine::around(&self.source.bytes, span);
        let blank = " ".repeat(self.width);
        let paint = self.paint;
        let (arrow, bar) = (
            paint.gutter(&format!("{blank}-->")),
            paint.gutter(&format!("{blank} |")),
        );
        writeln!(
            out,
            "{arrow} {}:{}:{}",
            self.source.name, at.line, at.column
        )?;
        writeln!(out, "{bar}")?;
        let number = paint.gutter(&format!("{:>1$} |", at.line, self.width));
        writeln!(
            out,
            "{}",
            format!("{number} {}", line.shown).trim_end_matches(' ')
        )?;
        writeln!(
            out,
            "{bar} {}{}",
            line.before_caret,
            paint.heading(severity, &line.carets)
        )
    }

    /// Prints what is added to a diagnostic.
    fn added(&self, word: &str, words: &str, out: &mut impl Write) -> io::Result<()> {
        let sign = self.paint.gutter(&format!("{} =", " ".repeat(self.width)));
        writeln!(out, "{sign} {}: {words}", self.paint.added(word))
    }
}

/// A line of the source as it is shown, and what stands below it: before the carets, and the carets.
struct SourceLine {
    shown: String,
    before_caret: String,
    carets: String,
}

impl SourceLine {
    /// The line that some bytes begin on; a part of it if it is long. Bytes on further lines have no carets.
    fn around(text: &[u8], span: &Range<usize>) -> SourceLine {
        let offset = span.start.min(text.len());
        let (begin, end) = line_around(text, offset);
        let cells = cells(&text[begin..end]);
        let at = cells.partition_point(|cell| begin + cell.end <= offset);
        let (from, to) = part_shown(at, cells.len());
        let below = cells[at..to.max(at)].iter().enumerate();
        let below = below.take_while(|(index, cell)| *index == 0 || begin + cell.start < span.end);
        let carets: String = below.map(|(_, cell)| cell.carets()).collect();
        let cut_before = if from > 0 { CUT } else { "" };
        let cut_behind = if to < cells.len() { CUT } else { "" };
        let shown: String = cells[from..to].iter().map(|cell| cell.shown).collect();
        let blanks: String = cells[from..at].iter().map(Cell::blank).collect();
        SourceLine {
            shown: format!("{cut_before}{shown}{cut_behind}"),
            before_caret: format!("{}{blanks}", " ".repeat(cut_before.len())),
            carets: match carets.contains('^') {
                true => carets.trim_end().to_string(),
                false => "^".to_string(),
            },
        }
    }
}

/// Where the line of this offset begins and ends; a carriage return before its newline is left out.
fn line_around(text: &[u8], offset: usize) -> (usize, usize) {
    let begin = text[..offset]
        .iter()
        .rposition(|&byte| byte == b'\n')
        .map_or(0, |newline| newline + 1);
    let end = text[offset..]
        .iter()
        .position(|&byte| byte == b'\n')
        .map_or(text.len(), |length| offset + length);
    let ends_in_return = end > offset && text[end - 1] == b'\r';
    (begin, end - usize::from(ends_in_return))
}

/// The part of a line of so many cells that is shown; the caret, which stands below the cell `at` or behind the last,
/// is in it.
fn part_shown(at: usize, cells: usize) -> (usize, usize) {
    if cells <= LINE_SHOWN {
        return (0, cells);
    }
    let from = at.saturating_sub(SHOWN_BEFORE);
    (from, cells.min(from + LINE_SHOWN))
}

/// What stands in one place of a shown line: a character and the marks that are drawn on it, or a `?` for one that does
/// not show and for each byte that belongs to none. `start` and `end` are where its bytes are in the line.
struct Cell<'a> {
    shown: &'a str,
    start: usize,
    end: usize,
}

impl Cell<'_> {
    /// As wide as the cell: a tab stays a tab.
    fn blank(&self) -> String {
        match self.shown {
            "\t" => "\t".to_string(),
            shown => " ".repeat(shown.chars().map(columns).sum()),
        }
    }

    /// As wide as the cell; a tab stays a tab.
    fn carets(&self) -> String {
        self.blank().replace(' ', "^")
    }
}

/// The cells of a line, whatever its bytes are.
fn cells(line: &[u8]) -> Vec<Cell<'_>> {
    let mut cells = Vec::new();
    let mut end = 0;
    for chunk in line.utf8_chunks() {
        let mut rest = chunk.valid();
        while let Some(length) = cell_length(rest) {
            let (cell, behind) = rest.split_at(length);
            rest = behind;
            let start = end;
            end += length;
            let shown = if cell.starts_with(is_base) {
                cell
            } else {
                UNSHOWN
            };
            cells.push(Cell { shown, start, end });
        }
        for _ in chunk.invalid() {
            end += 1;
            cells.push(Cell {
                shown: UNSHOWN,
                start: end - 1,
                end,
            });
        }
    }
    cells
}

/// How many bytes the first cell of a text has: its first character's, and those of the marks behind it, unless it is a
/// tab, does not show or is a mark itself, on which none is drawn.
fn cell_length(text: &str) -> Option<usize> {
    let mut letters = text.chars();
    let first = letters.next()?;
    let takes_marks = is_base(first) && first != '\t';
    let marks = letters.take_while(|&letter| takes_marks && is_mark(letter));
    Some(first.len_utf8() + marks.map(char::len_utf8).sum::<usize>())
}

/// Whether a character shows by itself.
fn is_base(letter: char) -> bool {
    shows(letter) && !is_mark(letter)
}

#[cfg(test)]
mod tests {
    use super::*;

    /// The line with the caret's line below it.
    fn lines(text: &[u8], offset: usize) -> (String, String) {
        let line = SourceLine::around(text, &(offset..offset));
        assert!(line.carets.starts_with('^'));
        (line.shown, line.before_caret + "^")
    }

    fn around(text: &str, offset: usize) -> SourceLine {
        SourceLine::around(text.as_bytes(), &(offset..offset))
    }

    fn is_below(text: &str, place: &str, shown: &str, caret: &str) {
        let offset = text.find(place).unwrap();
        let wanted = (shown.to_string(), caret.to_string());
        assert_eq!(lines(text.as_bytes(), offset), wanted, "{text:?}");
    }

    #[test]
    fn the_caret_stands_below_the_place() {
        is_below("a\n\tx @ y\nb", "@", "\tx @ y", "\t  ^");
        is_below("", "", "", "^");
        is_below("ab\r\nc", "b", "ab", " ^");
        assert_eq!(lines(b"ab\n", 3), (String::new(), "^".to_string()));
        for offset in [2, 99] {
            let wanted = ("ab".to_string(), "  ^".to_string());
            assert_eq!(lines(b"ab", offset), wanted);
        }
        assert_eq!(lines(b"ab\n", 2), ("ab".to_string(), "  ^".to_string()));
    }

    #[test]
    fn characters_are_counted_and_not_bytes() {
        is_below("/*5°*/@", "@", "/*5°*/@", "      ^");
        is_below("/*αβγ*/ @", "@", "/*αβγ*/ @", "        ^");
        is_below("\"°\"\t\"Ω\"\t@", "@", "\"°\"\t\"Ω\"\t@", "   \t   \t^");
        is_below("// °\nα\n", "α", "α", "^");
    }

    #[test]
    fn wide_characters_take_two_columns_and_marks_none() {
        is_below("/*角度*/ @", "@", "/*角度*/ @", "         ^");
        is_below("/*\t角*/\t@", "@", "/*\t角*/\t@", "  \t    \t^");
        is_below("\"🔭\" @", "@", "\"🔭\" @", "     ^");
        is_below("\"e\u{301}\" @", "@", "\"e\u{301}\" @", "    ^");
        is_below("角", "角", "角", "^");
        is_below("a 😀", "😀", "a 😀", "  ^");
    }

    #[test]
    fn a_mark_is_pointed_at_where_it_is_drawn() {
        is_below("ba\u{301} ", "\u{301}", "ba\u{301} ", " ^");
        is_below("\u{301}a", "\u{301}", "?a", "^");
        is_below("\t\u{301}a", "\u{301}", "\t?a", "\t^");
    }

    #[test]
    fn a_long_line_is_cut_around_the_place() {
        for letter in ["a", "°", "a\u{301}", "😀"] {
            let text = letter.repeat(5000);
            let width = columns(letter.chars().next().unwrap());
            let line = around(&text, 2000 * letter.len());
            assert_eq!(line.shown, format!("...{}...", letter.repeat(LINE_SHOWN)));
            assert_eq!(line.before_caret.len(), SHOWN_BEFORE * width + 3);
            let line = around(&text, 0);
            assert_eq!(line.before_caret, "");
            assert_eq!(line.shown, format!("{}...", letter.repeat(LINE_SHOWN)));
            let line = around(&text, text.len());
            assert_eq!(line.shown, format!("...{}", letter.repeat(SHOWN_BEFORE)));
            assert_eq!(line.before_caret.len(), SHOWN_BEFORE * width + 3);
        }
    }

    #[test]
    fn bytes_that_do_not_show_are_marks() {
        let text = b"a\x00\x1b\xc2\xb0\xb0\t~\xe1\x80";
        assert_eq!(
            lines(text, 5),
            ("a??°?\t~??".to_string(), "    ^".to_string())
        );
        assert_eq!(
            lines(text, 8),
            ("a??°?\t~??".to_string(), "     \t ^".to_string())
        );
    }

    #[test]
    fn carets_are_as_wide_as_what_they_stand_below() {
        let carets =
            |text: &str, span: Range<usize>| SourceLine::around(text.as_bytes(), &span).carets;
        assert_eq!(carets("ab cd", 3..5), "^^");
        assert_eq!(carets("ab cd", 5..5), "^");
        assert_eq!(carets("ab cd", 0..99), "^^^^^");
        assert_eq!(carets("ab\ncd", 1..4), "^");
        assert_eq!(carets("角 a", 0..3), "^^");
        assert_eq!(carets("a\tb c", 0..3), "^\t^");
        assert_eq!(carets("e\u{301}x", 0..3), "^");
        assert_eq!(carets("\u{301}x", 0..2), "^");
        assert_eq!(carets("", 0..0), "^");
        let long = "a".repeat(5000);
        assert_eq!(carets(&long, 0..5000), "^".repeat(LINE_SHOWN));
    }
}
