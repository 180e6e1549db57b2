//! What may be written at a place: the kinds of rows that would fit, as the library tells them, and for a name those
//! that are meant.

mod before;

use crate::failure::Failure;
use crate::names::{kind, roles, Role};
use crate::open::Open;
use before::Before;
use serde_json::{json, Value};
use spoonharbor::diagnostic::Outline;
use spoonharbor::{allows, Kind, KindSet, MapType, Method};
use std::collections::BTreeSet;

/// The protocol's numbers for kinds of items.
const METHOD: u8 = 2;
const FIELD: u8 = 5;
const VARIABLE: u8 = 6;
const CLASS: u8 = 7;
const KEYWORD: u8 = 14;
const ENUM_MEMBER: u8 = 20;
const STRUCT: u8 = 22;
const OPERATOR: u8 = 24;

/// The types of maps.
const MAP_TYPES: [MapType; 5] = [
    MapType::Hash,
    MapType::Array,
    MapType::Ringbuf,
    MapType::LruHash,
    MapType::ProgArray,
];

/// The variable that a unit's context is.
const CONTEXT: &str = "ctx";

/// The items at the place: names, then words, then signs.
pub fn items(open: &Open, params: &Value) -> Result<Value, Failure> {
    let offset = open.offset(params, "position")?;
    let head = open.text().get(..offset).unwrap_or_default();
    let Some(before) = Before::of(head) else {
        return Ok(json!([]));
    };
    let fitting = before.fitting();
    let mut items = Vec::new();
    if fitting.contains(Kind::Identifier) {
        items.extend(named(open.outline(), &before));
    }
    items.extend(spelt(fitting));
    Ok(Value::Array(items))
}

fn item(label: &str, kind: u8, detail: &str, order: char) -> Value {
    json!({ "label": label, "kind": kind, "detail": detail, "sortText": format!("{order}{label}") })
}

/// Words and signs of the language that fit.
fn spelt(fitting: KindSet) -> impl Iterator<Item = Value> {
    fitting.iter().filter_map(|kind| {
        let spelling = kind.spelling()?;
        let is_word = spelling.starts_with(|letter: char| letter.is_ascii_alphabetic());
        Some(match is_word {
            true => item(spelling, KEYWORD, "word", 'b'),
            false => item(spelling, OPERATOR, "sign", 'c'),
        })
    })
}

/// Names that may be meant where one fits: none where a new one is given.
fn named(whole: &Outline, before: &Before) -> Vec<Value> {
    match (before.kind(1), before.kind(2), before.kind(3)) {
        (Kind::Dot, Kind::Colon, Kind::KeywordType) => {
            let types = MAP_TYPES.map(MapType::word);
            types
                .map(|name| item(name, ENUM_MEMBER, "map type", 'a'))
                .into()
        }
        (Kind::Dot, Kind::Identifier, front) if before.word(2) == CONTEXT && front != Kind::Dot => {
            methods(whole, before)
        }
        (Kind::Dot, _, _) => fields(whole),
        (
            Kind::KeywordMap
            | Kind::KeywordEvent
            | Kind::KeywordUnit
            | Kind::KeywordReg
            | Kind::KeywordImm
            | Kind::KeywordHeap,
            _,
            _,
        ) => Vec::new(),
        _ if before.is_in_unit() => variables(whole, before),
        _ => Vec::new(),
    }
}

/// The methods that the kind of the unit around the place allows.
fn methods(whole: &Outline, before: &Before) -> Vec<Value> {
    let kind = before.unit_kind(whole);
    let allowed = Method::ALL.iter().filter(|method| allows(kind, **method));
    let detail = format!("in {kind} units");
    allowed
        .map(|method| item(method.name(), METHOD, &detail, 'a'))
        .collect()
}

/// The fields of all events.
fn fields(whole: &Outline) -> Vec<Value> {
    let roles = roles(whole);
    let rows = roles.iter().enumerate();
    let names: BTreeSet<&str> = rows
        .filter(|(_, role)| **role == Role::Field)
        .map(|(row, _)| whole.word(row))
        .collect();
    names
        .into_iter()
        .map(|name| item(name, FIELD, "field of an event", 'a'))
        .collect()
}

/// The variables in front of the place, the context, maps and events.
fn variables(whole: &Outline, before: &Before) -> Vec<Value> {
    let mut names: BTreeSet<(String, u8, &str)> = BTreeSet::new();
    names.insert((CONTEXT.to_string(), VARIABLE, "context"));
    for name in before.variables() {
        names.insert((name, VARIABLE, "variable"));
    }
    for one in whole.declarations() {
        let (number, detail) = match one.kind {
            Kind::KeywordMap => (CLASS, "map"),
            Kind::KeywordEvent => (STRUCT, "event"),
            _ => continue,
        };
        names.extend(
            whole
                .name(one)
                .map(|name| (name.to_string(), number, detail)),
        );
    }
    names
        .into_iter()
        .map(|(name, number, detail)| item(&name, number, detail, 'a'))
        .collect()
}

/// The row so many from an outline's end, 1 for the last in front of Eof.
fn row_before(outline: &Outline, count: usize) -> Option<usize> {
    let eof = outline.rows().len().checked_sub(1)?;
    eof.checked_sub(count)
}

/// Its kind; Eof where there is none.
fn kind_before(outline: &Outline, count: usize) -> Kind {
    row_before(outline, count).map_or(Kind::Eof, |row| kind(outline, row))
}
