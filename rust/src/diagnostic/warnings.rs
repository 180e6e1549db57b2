//! Warnings: what a program may have and is probably not meant so. They come from the tree that the library makes of
//! each declaration, its program kinds and its method sets, so an error in one declaration silences none of another.

use super::lexical::Reading;
use super::nearest::nearest;
use super::parts::{is_word, Part};
use super::{Checks, Diagnostic, Edit};
use crate::document::Document;
use crate::kind::Kind;
use crate::sets::{allows, section_kind, Method, ProgramKind};
use crate::tree::{NodeKind, Tree};
use std::collections::BTreeMap;
use std::ops::Range;

/// The numbers of warnings. They stand far behind those of refusals, which the library gives.
pub const SECTION_UNKNOWN: u32 = 101;
pub const NO_SECTION: u32 = 102;
pub const NO_LICENSE: u32 = 103;
pub const METHOD_NOT_ALLOWED: u32 = 104;
pub const NO_METHOD: u32 = 105;
pub const DECLARED_TWICE: u32 = 106;
pub const RETURN_ALONE: u32 = 107;
pub const NO_COMMENT: u32 = 108;

/// What sections begin with, or are, that give a program kind.
const SECTIONS: [&str; 12] = [
    "xdp",
    "tc",
    "classifier",
    "sk_",
    "cgroup/",
    "kprobe/",
    "kretprobe/",
    "tracepoint/",
    "raw_tracepoint/",
    "fentry/",
    "fexit/",
    "lsm/",
];

/// Short names of sections that other tools take.
const OTHER_SECTIONS: [(&str, &str); 4] = [
    ("tp/", "tracepoint/"),
    ("raw_tp/", "raw_tracepoint/"),
    ("kretprobes/", "kretprobe/"),
    ("socket", "sk_"),
];

/// The variable that a unit's context is.
const CONTEXT: &str = "ctx";

/// The warnings of a text's parts, and of the text as a whole.
pub fn warnings(reading: &Reading, parts: &[Part], checks: &Checks) -> Vec<Diagnostic> {
    let mut told = Vec::new();
    let declarations = || parts.iter().filter(|part| part.is_declaration);
    for part in declarations() {
        if checks.style {
            told.extend(no_comment(reading, part));
        }
        if !reading.has_fault(&part.own) {
            told.extend(of_unit(reading, part));
        }
    }
    told.extend(declared_twice(reading, declarations()));
    told.extend(return_alone(&reading.text));
    told
}

/// A map without a comment above it.
fn no_comment(reading: &Reading, part: &Part) -> Option<Diagnostic> {
    let row = reading.rows[part.rows.start];
    if row.kind != Kind::KeywordMap || row.comments > 0 {
        return None;
    }
    let (name, _) = declared(reading, part)?;
    let message = format!("map '{name}' has no comment above it");
    Some(Diagnostic::warned(NO_COMMENT, row.span(), message))
}

/// The name of a declaration and its bytes, if it has one.
fn declared<'a>(reading: &'a Reading, part: &Part) -> Option<(&'a str, Range<usize>)> {
    let row = reading.rows.get(part.rows.start + 1)?;
    let is_name = row.kind == Kind::Identifier || is_word(row.kind);
    is_name.then(|| (&reading.text[row.span()], row.span()))
}

/// Declarations of a name that one in front has.
fn declared_twice<'a>(
    reading: &Reading,
    declarations: impl Iterator<Item = &'a Part>,
) -> Vec<Diagnostic> {
    let mut first: BTreeMap<&str, Range<usize>> = BTreeMap::new();
    let mut told = Vec::new();
    for part in declarations {
        let Some((name, span)) = declared(reading, part) else {
            continue;
        };
        match first.get(name) {
            Some(other) => {
                let message = format!("'{name}' is declared twice");
                let told_twice = Diagnostic::warned(DECLARED_TWICE, span, message);
                told.push(
                    told_twice.note_at(other.clone(), format!("'{name}' is declared here first")),
                );
            }
            None => {
                first.insert(name, span);
            }
        }
    }
    told
}

/// Lines that end in a carriage return alone, which ends no line here.
fn return_alone(text: &str) -> Option<Diagnostic> {
    let bytes = text.as_bytes();
    let is_alone = |at: &usize| bytes[*at] == b'\r' && bytes.get(at + 1) != Some(&b'\n');
    let mut returns = (0..bytes.len()).filter(is_alone);
    let first = returns.next()?;
    let message =
        "a line ends in CR alone here, which ends no line: save the text with LF or CR LF";
    let told = Diagnostic::warned(RETURN_ALONE, first..first + 1, message.to_string());
    Some(match returns.count() {
        0 => told,
        1 => told.note("one more line ends so"),
        more => told.note(format!("{more} more lines end so")),
    })
}

/// The warnings of a unit that the library takes.
fn of_unit(reading: &Reading, part: &Part) -> Vec<Diagnostic> {
    let Ok(document) = Document::open(&reading.text[part.bytes.clone()]) else {
        return Vec::new();
    };
    let Ok(tree) = document.tree() else {
        return Vec::new();
    };
    let nodes = tree.nodes().iter();
    let mut units = nodes.filter_map(|node| match node.kind {
        NodeKind::Unit { kind, license, .. } => Some((kind, license.is_some())),
        _ => None,
    });
    let Some((kind, is_licensed)) = units.next_back() else {
        return Vec::new();
    };
    let unit = Unit {
        reading,
        part,
        tree,
        kind,
    };
    let licensed = (!is_licensed).then(|| unit.no_license());
    let section = unit.section();
    section
        .into_iter()
        .chain(licensed)
        .chain(unit.methods())
        .collect()
}

/// A unit, its tree and its program kind.
struct Unit<'a> {
    reading: &'a Reading,
    part: &'a Part,
    tree: &'a Tree,
    kind: ProgramKind,
}

impl Unit<'_> {
    /// The bytes of one of the unit's rows.
    fn span(&self, row: usize) -> Range<usize> {
        self.reading.rows[self.part.rows.start + row].span()
    }

    fn word(&self, row: usize) -> &str {
        &self.reading.text[self.span(row)]
    }

    /// A warning about the unit's name.
    fn named(&self, number: u32, lack: &str, help: &str) -> Diagnostic {
        let message = format!("unit '{}' has no {lack}", self.word(1));
        Diagnostic::warned(number, self.span(1), message).help(help)
    }

    fn no_license(&self) -> Diagnostic {
        self.named(NO_LICENSE, "license", "add, for example: license \"GPL\";")
    }

    /// The first section gives the kind: it is missing, or gives none.
    fn section(&self) -> Option<Diagnostic> {
        let mut nodes = self.tree.nodes().iter();
        let Some(first) = nodes.find(|node| node.kind == NodeKind::Section) else {
            let help = "add, for example: section \"kprobe/FUNCTION\";";
            return Some(self.named(NO_SECTION, "section", help));
        };
        let word = self.word(first.place);
        let section = word
            .strip_prefix('"')
            .and_then(|rest| rest.strip_suffix('"'))
            .unwrap_or_default();
        let is_known = self.kind != ProgramKind::Unknown;
        (!is_known).then(|| unknown_section(self.span(first.place), section))
    }

    /// Calls of the context that the unit's kind does not allow, or that no kind does.
    fn methods(&self) -> Vec<Diagnostic> {
        let calls = self.tree.nodes().iter().enumerate();
        let calls = calls.filter(|(_, node)| node.kind == NodeKind::Call);
        let of_context = calls.filter(|(index, _)| self.is_context(*index));
        let names = of_context.filter_map(|(_, node)| node.name);
        names.filter_map(|row| self.method(row)).collect()
    }

    /// Whether a call's receiver is the context.
    fn is_context(&self, call: usize) -> bool {
        let receiver = self
            .tree
            .children(call)
            .next()
            .map(|index| self.tree.nodes()[index]);
        let name = receiver
            .filter(|node| node.kind == NodeKind::Variable)
            .and_then(|node| node.name);
        name.is_some_and(|row| self.word(row) == CONTEXT)
    }

    /// The warning about one method's name.
    fn method(&self, row: usize) -> Option<Diagnostic> {
        let name = self.word(row);
        let kind = self.kind;
        let known = Method::ALL.iter().find(|method| method.name() == name);
        match known {
            None => Some(no_method(self.span(row), name)),
            Some(_) if kind == ProgramKind::Unknown => None,
            Some(method) if allows(kind, *method) => None,
            Some(_) => {
                let message = format!("a {} unit does not have the method '{name}'", kind.name());
                let help = format!("it has {}", methods_of(kind).join(", "));
                Some(Diagnostic::warned(METHOD_NOT_ALLOWED, self.span(row), message).help(help))
            }
        }
    }
}

/// The names of the methods that a kind allows.
fn methods_of(kind: ProgramKind) -> Vec<&'static str> {
    let allowed = Method::ALL.iter().filter(|method| allows(kind, **method));
    allowed.map(|method| method.name()).collect()
}

fn no_method(span: Range<usize>, name: &str) -> Diagnostic {
    let names = Method::ALL.iter().map(|method| method.name());
    let message = format!("the context has no method '{name}'");
    let told = Diagnostic::warned(NO_METHOD, span.clone(), message);
    match nearest(name, names) {
        Some(near) => told
            .help(format!("did you mean '{near}'?"))
            .edit(Some(Edit::new(span, near))),
        None => told,
    }
}

/// A section that gives no program kind, with the nearest that does.
fn unknown_section(span: Range<usize>, section: &str) -> Diagnostic {
    let message = format!("the section \"{section}\" gives no program kind");
    let told = Diagnostic::warned(SECTION_UNKNOWN, span, message);
    match meant_section(section) {
        Some(meant) => told.help(format!("did you mean \"{meant}\"?")),
        None => told.help(format!("one of {}", SECTIONS.join(", "))),
    }
}

/// The beginning that was probably meant: that of the part up to the slash.
fn meant_section(section: &str) -> Option<&'static str> {
    let head = match section.split_once('/') {
        Some((head, _)) => format!("{head}/"),
        None => section.trim().to_string(),
    };
    let other = OTHER_SECTIONS.iter().find(|(other, _)| *other == head);
    let whole = || {
        SECTIONS
            .into_iter()
            .find(|known| known.trim_end_matches('/') == head)
    };
    let near = other
        .map(|(_, meant)| *meant)
        .or_else(whole)
        .or_else(|| nearest(&head, SECTIONS));
    near.filter(|meant| section_kind(meant.as_bytes()) != ProgramKind::Unknown)
}
