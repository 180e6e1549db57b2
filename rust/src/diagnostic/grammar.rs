//! Refusals of the grammar, one of each declaration: the library is asked about each by itself, and its refusal is told
//! at the fault.

use super::lexical::Reading;
use super::nearest::nearest;
use super::parts::{is_declaration_word, Part};
use super::scene::Scene;
use super::statements::NO_COMMENT;
use super::{maps, wanted, Diagnostic};
use crate::document::Document;
use crate::kind::Kind;
use crate::kind_set::KindSet;
use crate::refusal::{Place, Reason, Refusal};
use std::ops::Range;

/// The words that begin declarations, and those that begin a map's fields.
const DECLARATIONS: [&str; 3] = ["map", "event", "unit"];
const FIELDS: [&str; 4] = ["type", "key", "value", "max"];

/// The refusals of a text's parts. `whole` is the library's refusal of the whole text.
pub fn refusals(reading: &Reading, parts: &[Part], whole: Option<Refusal>) -> Vec<Diagnostic> {
    let mut whole = whole.filter(|refusal| refusal.number() >= 21);
    let mut told = Vec::new();
    let mut is_read = true;
    let mut unclosed = 0;
    for part in parts {
        let closes = !part.is_declaration && unclosed > 0 && has_end(reading, part);
        let is_rest = closes || !part.is_declaration && !is_read;
        unclosed -= usize::from(closes);
        if is_rest || reading.has_fault(&part.own) {
            is_read = false;
            continue;
        }
        let refusal = refused(reading, part);
        is_read = refusal.is_none();
        if let Some(refusal) = refusal {
            told.push(words(reading, part, refusal, whole.take()));
            unclosed += usize::from(part.is_declaration && !part.is_closed);
        }
    }
    told
}

/// Whether a part has a `}`, which may be that of a declaration in front that is not closed.
fn has_end(reading: &Reading, part: &Part) -> bool {
    let rows = &reading.rows[part.rows.clone()];
    rows.iter().any(|row| row.kind == Kind::RBrace)
}

/// The library's refusal of a part by itself, with its place in the whole text.
fn refused(reading: &Reading, part: &Part) -> Option<Refusal> {
    let text = &reading.text[part.bytes.clone()];
    let mut refusal = Document::open(text)
        .and_then(|document| document.tree().map(|_| ()))
        .err()?;
    refusal.place = Place::before(
        reading.text.as_bytes(),
        part.bytes.start + refusal.place.offset,
    );
    Some(refusal)
}

/// A part's refusal in words; that of the whole text, if it is this one, is the proved one.
fn words(reading: &Reading, part: &Part, own: Refusal, whole: Option<Refusal>) -> Diagnostic {
    let refusal = whole.unwrap_or(own);
    let scene = Scene::new(&reading.text, &reading.rows, part.rows.clone(), &refusal);
    let told = anchored(&scene);
    match whole {
        Some(whole) => told.proved_at(whole.place),
        None => told,
    }
}

/// A refusal in words, where the fault is.
fn anchored(scene: &Scene) -> Diagnostic {
    match scene.reason {
        Reason::Wanted { fitting, found } => wanted::told(scene, fitting, found),
        Reason::NotTopLevel(fitting) => top_level(scene, fitting),
        Reason::NotMapField(fitting) => map_field(scene, fitting),
        Reason::MapTypeUnknown => maps::unknown_type(scene),
        Reason::NotType(_) => maps::no_type(scene),
        Reason::MaxNegative => maps::negative(scene),
        Reason::OutOfRange => maps::out_of_range(scene),
        Reason::ShiftCount => maps::shift_count(scene),
        Reason::MapLacks(field) => maps::lacks(scene, field),
        Reason::NotEventType(fitting) => event_type(scene, fitting),
        Reason::CallOnOther => call_on_other(scene),
        reason => scene.told_of(scene.at, reason.to_string()),
    }
}

/// 22: what stands where a declaration would.
fn top_level(scene: &Scene, fitting: KindSet) -> Diagnostic {
    let kind = scene.kind(scene.at);
    if kind == Kind::Star && scene.kind(scene.at + 1) == Kind::Slash && scene.touches_next(scene.at)
    {
        return scene.told(scene.spans(scene.at..scene.at + 2), NO_COMMENT);
    }
    let message = format!("expected {fitting}, found {}", scene.found(scene.at));
    let told = scene.told_of(scene.at, message);
    match (kind, nearest(scene.word(scene.at), DECLARATIONS)) {
        (Kind::RBrace, _) => told.help("no '{' is open here"),
        (Kind::Semicolon, _) => told
            .help("no ';' stands behind a declaration")
            .edit(scene.written(scene.at..scene.at + 1, "")),
        (_, Some(word)) => told
            .help(format!("did you mean '{word}'?"))
            .edit(scene.written(scene.at..scene.at + 1, word)),
        _ => told,
    }
}

/// 23: what stands where a map's field would.
fn map_field(scene: &Scene, fitting: KindSet) -> Diagnostic {
    if let Some(told) = not_closed(scene) {
        return told;
    }
    let word = scene.word(scene.at);
    let message = format!("expected {fitting}, found {}", scene.found(scene.at));
    let told = scene.told_of(scene.at, message);
    let begins = || FIELDS.into_iter().find(|field| word.starts_with(field));
    match nearest(word, FIELDS).or_else(begins) {
        Some(field) => told
            .help(format!("did you mean '{field}'?"))
            .edit(scene.written(scene.at..scene.at + 1, field)),
        None => told,
    }
}

/// 30: what stands where an event's type would.
fn event_type(scene: &Scene, fitting: KindSet) -> Diagnostic {
    let message = format!("expected {fitting:#}, found {}", scene.found(scene.at));
    let told = scene.told_of(scene.at, message);
    maps::with_meant_type(told, scene, scene.at)
}

/// 31: a method of something else than a variable.
fn call_on_other(scene: &Scene) -> Diagnostic {
    let method = scene.word(scene.at);
    let help = format!("put it into a name first: reg x = ..; and x.{method}()");
    scene
        .told_of(scene.at, "only a variable has methods")
        .help(help)
}

/// A declaration or a body whose `}` is missing, where the part ends.
pub fn not_closed(scene: &Scene) -> Option<Diagnostic> {
    let open = scene.opened(Kind::LBrace, Kind::RBrace)?;
    if !scene.is_at_end() {
        return None;
    }
    let owner = owner(scene, open);
    let told = match is_inside(scene) {
        true => {
            let word = scene.word(scene.at);
            scene.told_of(
                scene.at,
                format!("'{word}' cannot stand inside {owner}: expected '}}' in front of it"),
            )
        }
        false => scene.told(
            end_of(scene),
            format!("{owner} is not closed: expected '}}'"),
        ),
    };
    Some(told.note_at(scene.span(open), "this '{' is open"))
}

/// Whether the declaration at the place is indented, as one that is meant to stand inside.
fn is_inside(scene: &Scene) -> bool {
    let column = |row: usize| scene.rows.get(row).map_or(0, |row| row.column);
    let line = |row: usize| scene.rows.get(row).map_or(0, |row| row.line);
    let (first, last) = (scene.part.start, scene.at.saturating_sub(1));
    is_declaration_word(scene.kind(scene.at))
        && column(scene.at) > column(first)
        && line(scene.at) > line(last)
}

/// What a `{` belongs to.
fn owner(scene: &Scene, open: usize) -> String {
    let first = scene.part.start;
    match scene.kind(open.saturating_sub(1)) {
        Kind::KeywordElse => "the body of 'else'".to_string(),
        Kind::RParen => "the body of 'if'".to_string(),
        _ => format!("{} '{}'", scene.word(first), scene.word(first + 1)),
    }
}

/// Where a part ends: behind its last row, or where the text ends but for blanks.
fn end_of(scene: &Scene) -> Range<usize> {
    let end = match scene.part.end == scene.rows.len() - 1 {
        true => scene.text.trim_end().len(),
        false => scene.span(scene.part.end - 1).end,
    };
    end..end
}
