//! Lexical faults, every one of a text: what the library refuses is told and blanked out, and the rest is read again.

use super::characters::{alike, blank, is_operator, is_quote, named, no_operator};
use super::{Diagnostic, Edit};
use crate::document::Document;
use crate::refusal::{Reason, Refusal};
use crate::row::Row;
use std::ops::Range;

/// The most lexical faults of a text that are told; what stands behind them is left unread.
const MOST_TOLD: usize = 500;

/// A text that is read to its end, as long as it was, with blanks for what was refused and a `?` for each byte that is
/// no UTF-8.
pub struct Reading {
    pub text: String,
    pub rows: Vec<Row>,
    /// The bytes that were refused.
    pub faults: Vec<Range<usize>>,
    pub told: Vec<Diagnostic>,
}

/// A fault: the bytes that its words are about, its words, and the bytes that are not read.
struct Fault {
    span: Range<usize>,
    message: String,
    help: Option<String>,
    edit: Option<Edit>,
    unread: Range<usize>,
}

/// What is told alone, because nothing else that could be said of such a text would help.
pub fn told_alone(text: &[u8], refusal: &Refusal) -> Option<Diagnostic> {
    let told = |span, message: String| {
        Diagnostic::refused(refusal.number(), span, message).proved_at(refusal.place)
    };
    match refusal.reason {
        Reason::TextTooLong => Some(told(0..0, refusal.reason.to_string())),
        Reason::BadByte | Reason::NoRowBegins if looks_like_utf16(text) => {
            let message = "this looks like UTF-16: save it as UTF-8";
            Some(told(0..text.len().min(2), message.to_string()))
        }
        _ => None,
    }
}

/// Whether a text begins with UTF-16's mark, or every other byte at its start is 0.
fn looks_like_utf16(text: &[u8]) -> bool {
    let start = &text[..text.len().min(64)];
    let zeros = |first: usize| {
        start
            .iter()
            .skip(first)
            .step_by(2)
            .filter(|&&byte| byte == 0)
            .count()
    };
    let (even, odd) = (zeros(0), zeros(1));
    let is_marked = start.starts_with(&[0xff, 0xfe]) || start.starts_with(&[0xfe, 0xff]);
    is_marked
        || start.len() >= 4
            && even.max(odd) * 8 >= start.len() * 3
            && even.min(odd) * 8 <= start.len()
}

/// Reads a text to its end, over all faults. `refusal` is the library's of the whole text.
pub fn read(text: &[u8], refusal: Option<Refusal>) -> Reading {
    let (valid, unknown) = made_valid(text);
    let mut reading = Reading {
        text: valid,
        rows: Vec::new(),
        faults: Vec::new(),
        told: Vec::new(),
    };
    if let Some(refusal) = refusal.filter(|refusal| refusal.reason == Reason::BadByte) {
        reading.told.push(no_utf8(text, &refusal, unknown.len()));
    }
    let mut last = None;
    while let Some((begin, found)) = reading.next_fault() {
        let fault = fault(&reading.text, begin, &found);
        if fault.unread.is_empty() {
            break;
        }
        let is_told = unknown.binary_search(&found.place.offset).is_ok()
            || last == Some(begin) && found.reason == Reason::OpenString;
        reading.leave_out(fault.unread.clone());
        if !is_told {
            reading.tell(told(fault, &found, refusal), begin);
        }
        last = Some(begin);
    }
    reading
}

impl Reading {
    /// Reads the text, and gives the refusal that ends the rows and where what is refused begins.
    fn next_fault(&mut self) -> Option<(usize, Refusal)> {
        let document = Document::open(self.text.as_str()).ok()?;
        self.rows = document.rows().collect();
        let end = self.rows.last().map_or(0, |row| row.end);
        let refusal = document.refusal()?;
        Some((gap_end(&self.text, end), refusal))
    }

    /// Puts blanks in the place of some characters; lines stay.
    fn leave_out(&mut self, range: Range<usize>) {
        let blank = |byte: u8| if byte == b'\n' { '\n' } else { ' ' };
        let blanks: String = self.text[range.clone()].bytes().map(blank).collect();
        self.text.replace_range(range.clone(), &blanks);
        self.faults.push(range);
    }

    /// Tells a fault. If it is the last that is told, the text from its begin on is left out.
    fn tell(&mut self, told: Diagnostic, begin: usize) {
        let is_last = self.told.len() + 1 == MOST_TOLD;
        self.told.push(match is_last {
            true => told.note("what stands behind this is not read"),
            false => told,
        });
        if is_last {
            self.leave_out(begin..self.text.len());
        }
    }

    /// Whether something in these bytes was refused.
    pub fn has_fault(&self, bytes: &Range<usize>) -> bool {
        let meets = |fault: &Range<usize>| fault.start < bytes.end && bytes.start < fault.end;
        self.faults.iter().any(meets)
    }
}

/// The text with a `?` for each byte that is no UTF-8, and where these are.
fn made_valid(text: &[u8]) -> (String, Vec<usize>) {
    let mut valid = String::with_capacity(text.len());
    let mut unknown = Vec::new();
    for chunk in text.utf8_chunks() {
        valid.push_str(chunk.valid());
        for _ in chunk.invalid() {
            unknown.push(valid.len());
            valid.push('?');
        }
    }
    (valid, unknown)
}

/// What is said of a text that is no UTF-8, once for all of its bytes.
fn no_utf8(text: &[u8], refusal: &Refusal, bytes: usize) -> Diagnostic {
    let at = refusal.place.offset;
    let byte = text.get(at).copied().unwrap_or_default();
    let message = format!("byte {byte} begins no UTF-8 character here: save the text as UTF-8");
    let told = Diagnostic::refused(refusal.number(), at..at + 1, message).proved_at(refusal.place);
    match bytes {
        0 | 1 => told,
        2 => told.note("one more byte is no UTF-8"),
        _ => told.note(format!("{} more bytes are no UTF-8", bytes - 1)),
    }
}

/// A fault as it is told; it is the proved one if the library's refusal of the whole text is this.
fn told(fault: Fault, found: &Refusal, whole: Option<Refusal>) -> Diagnostic {
    let told = Diagnostic::refused(found.number(), fault.span, fault.message).edit(fault.edit);
    let told = match fault.help {
        Some(help) => told.help(help),
        None => told,
    };
    match whole {
        Some(whole) if whole == *found => told.proved_at(whole.place),
        _ => told,
    }
}

/// Where the gap ends that begins here: behind blanks and closed comments.
fn gap_end(text: &str, from: usize) -> usize {
    let mut at = from;
    loop {
        let rest = &text[at..];
        let is_blank = |letter: char| matches!(letter, '\t'..='\r' | ' ');
        let behind = rest.trim_start_matches(is_blank);
        at = text.len() - behind.len();
        let comment = if behind.starts_with("//") {
            behind.find('\n')
        } else if let Some(inside) = behind.strip_prefix("/*") {
            inside.find("*/").map(|end| end + 4)
        } else {
            None
        };
        match comment {
            Some(length) => at += length,
            None => return at,
        }
    }
}

/// The fault that a refusal is about; what is refused begins at `begin`.
fn fault(text: &str, begin: usize, refusal: &Refusal) -> Fault {
    let at = refusal.place.offset;
    match refusal.reason {
        Reason::NoRowBegins => letter(text, at),
        Reason::LoneSign => operator(text, at),
        Reason::OpenComment => comment(text, begin),
        Reason::OpenString => string(text, begin, at),
        Reason::BadEscape => escape(text, at),
        Reason::NumberTooLarge => large(text, at),
        Reason::NoHexDigit => {
            let end = word_end(text, at);
            Fault::new(begin..end, refusal.reason.to_string())
        }
        _ => Fault::new(at..next(text, at), refusal.reason.to_string()),
    }
}

impl Fault {
    /// A fault of which nothing is read.
    fn new(span: Range<usize>, message: String) -> Fault {
        Fault {
            unread: span.clone(),
            span,
            message,
            help: None,
            edit: None,
        }
    }

    fn unread(mut self, unread: Range<usize>) -> Fault {
        self.unread = unread;
        self
    }

    fn help(mut self, help: impl Into<String>) -> Fault {
        self.help = Some(help.into());
        self
    }

    fn edit(mut self, span: Range<usize>, text: impl Into<String>) -> Fault {
        self.edit = Some(Edit::new(span, text));
        self
    }
}

/// A character that begins nothing.
fn letter(text: &str, at: usize) -> Fault {
    let Some(letter) = text[at..].chars().next() else {
        return Fault::new(at..at, Reason::NoRowBegins.to_string());
    };
    let one = at..at + letter.len_utf8();
    let line = at..line_end(text, at);
    match letter {
        '#' => Fault::new(one.clone(), "comments begin with //".to_string())
            .unread(line)
            .edit(one, "//"),
        _ if is_quote(letter) => quote(text, one),
        _ if blank(letter).is_some() => foreign_blank(text, at, letter),
        _ if is_operator(letter) => operator(text, at),
        _ if letter.is_alphanumeric() => foreign_name(text, one),
        _ => match alike(letter) {
            Some(sign) => {
                let message = format!("'{letter}' looks like '{sign}': write '{sign}'");
                Fault::new(one.clone(), message).edit(one, sign)
            }
            None => {
                let run = at..run(text, at, |other| other == letter);
                Fault::new(one, format!("nothing begins with {}", named(letter))).unread(run)
            }
        },
    }
}

/// A quote that is none here, with what it encloses on its line.
fn quote(text: &str, one: Range<usize>) -> Fault {
    let line = &text[one.end..line_end(text, one.end)];
    match partner(line) {
        Some((length, other)) => {
            let message = format!("write straight quotes: \"{}\"", &line[..length]);
            let quoted = one.start..one.end + length + other.len_utf8();
            Fault::new(one, message)
                .unread(quoted.clone())
                .edit(quoted, format!("\"{}\"", &line[..length]))
        }
        None => Fault::new(one, "write straight quotes".to_string()),
    }
}

/// The quote that closes what one opens that is none here: the first like it, or a straight one if that has no partner itself.
fn partner(line: &str) -> Option<(usize, char)> {
    let is_single = line.matches('"').count() % 2 == 1;
    line.char_indices()
        .find(|(_, letter)| is_quote(*letter) && (is_single || *letter != '"'))
}

/// A blank that is none here, or what does not show; several of them are one fault.
fn foreign_blank(text: &str, at: usize, letter: char) -> Fault {
    let name = blank(letter).unwrap_or_default();
    let (advice, meant) = match letter {
        '\u{feff}' if at == 0 => ("save the text without it", ""),
        '\u{ad}' | '\u{200b}'..='\u{200d}' | '\u{2060}' | '\u{feff}' => ("delete it", ""),
        '\u{85}' | '\u{2028}' | '\u{2029}' => ("type an ordinary newline", "\n"),
        _ => ("type an ordinary blank", " "),
    };
    let end = run(text, at, |other| other == letter);
    Fault::new(at..end, format!("{name}: {advice}")).edit(at..end, meant)
}

/// An operator that other languages have, with the signs of this one that it begins with.
fn operator(text: &str, at: usize) -> Fault {
    let before = text[..at].trim_end_matches(['=', '<', '>']).len();
    let from =
        before - usize::from(text[before..].starts_with('>') && text[..before].ends_with('-'));
    let end = run(text, at, is_operator);
    let sign = &text[from..end];
    let fault = Fault::new(from..end, no_operator(sign));
    match sign {
        "<" | ">" => fault.help(format!("a shift is '{sign}{sign}'")),
        "->" => fault
            .help("a field is written with '.'")
            .edit(from..end, "."),
        _ => fault,
    }
}

/// A letter that names do not have.
fn foreign_name(text: &str, one: Range<usize>) -> Fault {
    let is_letter = |letter: char| letter.is_alphanumeric() || letter == '_';
    let before = text[..one.start].trim_end_matches(is_letter);
    let end = run(text, one.start, is_letter);
    let message = format!(
        "'{}' is no name: names have the letters a to z and A to Z, digits and _",
        &text[before.len()..end]
    );
    Fault::new(one.clone(), message).unread(one.start..end)
}

/// A comment that stays open: reading goes on at a line that begins a declaration.
fn comment(text: &str, begin: usize) -> Fault {
    let message = Reason::OpenComment.to_string();
    Fault::new(begin..begin + 2, message).unread(begin..next_declaration(text, begin))
}

/// A string that stays open. A line behind it that has its end is not read either.
fn string(text: &str, begin: usize, at: usize) -> Fault {
    let inside = &text[begin + 1..at];
    let curly = inside
        .char_indices()
        .find(|(_, letter)| is_quote(*letter) && !letter.is_ascii());
    if let Some((length, letter)) = curly {
        let from = begin + 1 + length;
        let message = format!("write straight quotes: \"{}\"", &inside[..length]);
        let curly = from..from + letter.len_utf8();
        return Fault::new(curly.clone(), message)
            .unread(begin..at)
            .edit(curly, "\"");
    }
    let end = begin + text[begin..at].trim_end().len();
    Fault::new(
        begin..end,
        "this string is not closed: expected '\"'".to_string(),
    )
    .unread(begin..string_rest(text, at))
}

/// Where a string that a newline cuts off ends, if the next line has its quote.
fn string_rest(text: &str, newline: usize) -> usize {
    let from = text.len().min(newline + 1);
    let line = &text[from..line_end(text, from)];
    let begins_anew = ["section", "license"]
        .iter()
        .any(|word| line.trim_start().starts_with(word));
    match line.find('"') {
        Some(quote) if line.matches('"').count() == 1 && !begins_anew => from + quote + 1,
        _ => newline,
    }
}

/// A backslash that begins no escape; the string goes on behind it.
fn escape(text: &str, at: usize) -> Fault {
    let end = next(text, at + 1);
    let help = "a backslash is written '\\\\'";
    Fault::new(at..end, Reason::BadEscape.to_string())
        .unread(at..at + 1)
        .help(help)
}

/// Digits that no number has.
fn large(text: &str, at: usize) -> Fault {
    let digits = at + usize::from(text[at..].starts_with('-'));
    let limit = match digits == at {
        true => "the most is 9223372036854775807",
        false => "the least is -9223372036854775807",
    };
    Fault::new(
        at..word_end(text, digits),
        format!("number too large: {limit}"),
    )
}

/// Where the next line begins that begins a declaration: its word, a name and `{`, or no more; the text's end if there
/// is none.
fn next_declaration(text: &str, from: usize) -> usize {
    let mut at = line_end(text, from);
    while at < text.len() {
        at += 1;
        let end = line_end(text, at);
        if begins_declaration(&text[at..end]) {
            return at;
        }
        at = end;
    }
    at
}

fn begins_declaration(line: &str) -> bool {
    let words = ["map ", "event ", "unit "];
    let line = line.trim();
    let behind = words.iter().find_map(|word| line.strip_prefix(word));
    behind.is_some_and(|behind| {
        let rest = behind
            .trim_start()
            .trim_start_matches(|letter: char| letter.is_ascii_alphanumeric() || letter == '_');
        rest.is_empty() || rest.trim_start().starts_with('{')
    })
}

/// Where characters of a kind end that stand here.
fn run(text: &str, at: usize, is_one: impl Fn(char) -> bool) -> usize {
    text.len() - text[at..].trim_start_matches(is_one).len()
}

/// Where letters, digits and `_` end that stand here.
fn word_end(text: &str, at: usize) -> usize {
    run(text, at, |letter| {
        letter.is_ascii_alphanumeric() || letter == '_'
    })
}

/// Where the line ends that stands here: at its newline, or the text's end.
fn line_end(text: &str, at: usize) -> usize {
    text[at..]
        .find('\n')
        .map_or(text.len(), |length| at + length)
}

/// Behind the character that stands here.
fn next(text: &str, at: usize) -> usize {
    at + text[at..].chars().next().map_or(0, char::len_utf8)
}

#[cfg(test)]
mod tests {
    use super::*;

    #[test]
    fn gaps_end_behind_comments() {
        for (text, wanted) in [
            ("", 0),
            ("  a", 2),
            (" // x\n\t/* y */ b", 15),
            ("//", 0),
            ("/*", 0),
            ("/**//**/@", 8),
        ] {
            assert_eq!(gap_end(text, 0), wanted, "{text:?}");
        }
    }

    #[test]
    fn declarations_are_found_by_line() {
        let lines = [
            ("map m {", true),
            (" unit u{", true),
            ("event e", true),
            ("unit tests are here", false),
            ("maps m {", false),
            ("map", false),
        ];
        for (line, wanted) in lines {
            assert_eq!(begins_declaration(line), wanted, "{line}");
        }
        assert_eq!(next_declaration("/* a\nb\nmap m {", 0), 7);
        assert_eq!(next_declaration("/* a\nb\n", 0), 7);
    }

    #[test]
    fn utf16_is_known() {
        let wide = |text: &str| {
            text.encode_utf16()
                .flat_map(u16::to_le_bytes)
                .collect::<Vec<u8>>()
        };
        assert!(looks_like_utf16(&wide("unit u {}")));
        assert!(looks_like_utf16(&wide("// Ω is wide\nunit u {}")));
        assert!(looks_like_utf16(b"\xfe\xff"));
        assert!(!looks_like_utf16(b"unit u {}"));
        assert!(!looks_like_utf16(&[0; 64]));
        assert!(!looks_like_utf16(b""));
    }
}
