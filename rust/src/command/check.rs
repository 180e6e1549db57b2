//! `spoonharbor check`: every problem of a text, and one line that says how it went.

use super::paint::{Colour, Paint};
use super::source::Source;
use super::{json, message, Outcome};
use spoonharbor::diagnostic::{diagnose, Checks, Diagnostic};
use spoonharbor::{Document, NodeKind, Tree};
use std::ffi::OsString;
use std::io::{self, Write};

/// The number of the warning that `--style` asks for.
const NO_COMMENT: u32 = 108;

/// What was checked of a text that is ok.
const CHECKED: &str = "checked: syntax, sections, methods";

/// How a text is checked and what is printed of it.
#[derive(Debug, Clone, Copy, Default)]
pub struct Checking {
    /// Whether maps without a comment are told, and refused.
    pub with_style: bool,
    /// Whether a warning is as bad as an error.
    pub denies_warnings: bool,
    /// Whether each problem is one line for programs.
    pub as_json: bool,
    pub colour: Colour,
}

impl Checking {
    /// Takes what stands behind `--deny` or `--color`, or says what should.
    pub fn choose(&mut self, option: &str, choice: Option<&OsString>) -> Result<(), &'static str> {
        if option == "--deny" {
            self.denies_warnings = choice.is_some_and(|choice| choice == "warnings");
            return match self.denies_warnings {
                true => Ok(()),
                false => Err("behind --deny the word warnings is wanted"),
            };
        }
        let colour = choice.and_then(|choice| Colour::named(choice));
        self.colour = colour.ok_or("behind --color auto, always or never is wanted")?;
        Ok(())
    }
}

/// Checks one text.
pub fn check(source: &Source, checking: Checking, out: &mut impl Write) -> io::Result<Outcome> {
    let mut checks = Checks::default();
    checks.style = checking.with_style;
    let told = diagnose(&source.bytes, &checks);
    let outcome = outcome(&told, checking);
    if checking.as_json {
        for one in &told {
            json::print(source, one, out)?;
        }
        return Ok(outcome);
    }
    tell(source, &told, outcome, checking.colour.paint(), out)?;
    Ok(outcome)
}

/// Prints every problem of a text that is refused, as `check` does.
pub fn refused(source: &Source, paint: Paint, out: &mut impl Write) -> io::Result<()> {
    let told = diagnose(&source.bytes, &Checks::default());
    tell(source, &told, Outcome::Refused, paint, out)
}

/// Prints every problem of a text, and how it went.
fn tell(
    source: &Source,
    told: &[Diagnostic],
    outcome: Outcome,
    paint: Paint,
    out: &mut impl Write,
) -> io::Result<()> {
    for one in told {
        message::told_of(source, one, paint, out)?;
    }
    writeln!(out, "{}: {}", source.name, summary(source, told, outcome))
}

/// A text is refused for an error, for a map out of style where that was asked for, and for any warning where these are
/// denied.
fn outcome(told: &[Diagnostic], checking: Checking) -> Outcome {
    let is_bad =
        |one: &Diagnostic| one.is_error() || checking.denies_warnings || one.number == NO_COMMENT;
    match told.iter().any(is_bad) {
        true => Outcome::Refused,
        false => Outcome::Fine,
    }
}

/// What is said of the text as a whole.
fn summary(source: &Source, told: &[Diagnostic], outcome: Outcome) -> String {
    let errors = told.iter().filter(|one| one.is_error()).count();
    let counts = [(errors, "error"), (told.len() - errors, "warning")];
    let counts: Vec<String> = counts
        .iter()
        .filter(|(count, _)| *count > 0)
        .map(|&(count, word)| counted(count, word))
        .collect();
    if outcome == Outcome::Refused {
        return format!("refused, {}", counts.join(", "));
    }
    let warned = match counts.as_slice() {
        [] => String::new(),
        counts => format!("; {}", counts.join(", ")),
    };
    format!("ok, {}{warned} ({CHECKED})", declared(source))
}

/// What is in a program: how many of each declaration.
fn declared(source: &Source) -> String {
    if source.bytes.is_empty() {
        return "an empty file".to_string();
    }
    let document = Document::open(source.bytes.as_slice());
    let tree = document
        .as_ref()
        .ok()
        .and_then(|document| document.tree().ok());
    tree.map_or(String::new(), told)
}

fn told(tree: &Tree) -> String {
    let count = |wanted: fn(&NodeKind) -> bool| {
        let found = tree.nodes().iter().filter(|node| wanted(&node.kind));
        found.count()
    };
    [
        (count(|kind| matches!(kind, NodeKind::Map { .. })), "map"),
        (count(|kind| matches!(kind, NodeKind::Event)), "event"),
        (count(|kind| matches!(kind, NodeKind::Unit { .. })), "unit"),
    ]
    .map(|(count, word)| counted(count, word))
    .join(", ")
}

/// `1 map`, `2 maps`.
fn counted(count: usize, word: &str) -> String {
    match count {
        1 => format!("1 {word}"),
        _ => format!("{count} {word}s"),
    }
}
