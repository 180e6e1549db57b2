//! What is said of a name or a fault under the pointer.

use crate::client::Client;
use crate::failure::Failure;
use crate::names::{at, kind, roles, row_at, Role};
use crate::open::Open;
use serde_json::{json, Value};
use spoonharbor::diagnostic::{explain, Declaration, Diagnostic, Outline};
use spoonharbor::{allows, FieldType, Kind, MapType, Method, NodeKind, ProgramKind, Type};
use std::ops::Range;

/// What stands between two things that are said.
const BETWEEN: &str = "\n\n";

/// What is known at the place; `null` where nothing is.
pub fn hover(open: &Open, params: &Value, client: Client) -> Result<Value, Failure> {
    let offset = open.offset(params, "position")?;
    let outline = open.outline();
    let row = row_at(outline, offset);
    let mut said = Vec::new();
    said.extend(row.and_then(|row| of_name(outline, row, offset)));
    let holds = |span: &Range<usize>| span.start <= offset && offset <= span.end;
    let told = open.diagnostics().iter().filter(|one| holds(&one.span));
    said.extend(told.map(explained));
    if said.is_empty() {
        return Ok(Value::Null);
    }
    let words = said.join(BETWEEN);
    let contents = match client.takes_markdown {
        true => json!({ "kind": "markdown", "value": words }),
        false => json!({ "kind": "plaintext", "value": words.replace(['`', '*'], "") }),
    };
    let span = row
        .and_then(|row| outline.rows().get(row))
        .map(|row| row.span());
    Ok(match span {
        Some(span) => json!({ "contents": contents, "range": open.range(&span) }),
        None => json!({ "contents": contents }),
    })
}

/// A map, an event or a unit by its name, or a method of the context.
fn of_name(outline: &Outline, row: usize, offset: usize) -> Option<String> {
    if let Some(name) = at(outline, offset) {
        let first = *name.declared.first()?;
        let mut all = outline.declarations().iter();
        return of_declaration(outline, all.find(|one| one.name == Some(first))?);
    }
    match roles(outline).get(row)? {
        Role::Declared(_) => {
            let mut all = outline.declarations().iter();
            of_declaration(outline, all.find(|one| one.name == Some(row))?)
        }
        Role::Member if is_of_context(outline, row) => of_method(outline.word(row)),
        _ => None,
    }
}

/// Whether a row stands behind `ctx.`, which stands behind no other dot.
fn is_of_context(outline: &Outline, row: usize) -> bool {
    let before = row.checked_sub(2);
    before.is_some_and(|row| outline.word(row) == "ctx" && !is_behind_dot(outline, row))
}

fn is_behind_dot(outline: &Outline, row: usize) -> bool {
    let before = row.checked_sub(1);
    before.is_some_and(|row| kind(outline, row) == Kind::Dot)
}

/// What a declaration is; nothing where the library refuses it.
fn of_declaration(outline: &Outline, one: &Declaration) -> Option<String> {
    let document = outline.document(one)?;
    let tree = document.tree().ok()?;
    let name = outline.name(one)?;
    let facts = tree.nodes().iter().rev().find_map(|node| match node.kind {
        NodeKind::Map {
            map_type,
            key,
            value,
            max,
            ..
        } => Some(of_map(map_type, key, value, max)),
        NodeKind::Unit { kind, .. } => Some(of_unit(kind)),
        NodeKind::Event => {
            let fields = tree.nodes().iter().filter_map(|node| match node.kind {
                NodeKind::EventField(field) => Some(field_bytes(field)),
                _ => None,
            });
            Some(of_event(&fields.collect::<Vec<u64>>()))
        }
        _ => None,
    });
    Some(format!(
        "**{} {name}**{BETWEEN}{}",
        outline.word(one.rows.start),
        facts?
    ))
}

/// A map's size: entries and bytes, of a ring buffer bytes alone. What the kernel adds is not counted.
fn of_map(map_type: MapType, key: Option<Type>, value: Option<Type>, max: u32) -> String {
    let max = u64::from(max);
    match (map_type, key, value) {
        (MapType::Ringbuf, _, _) => format!("`ringbuf` of {} bytes", grouped(max)),
        (_, Some(key), Some(value)) => {
            let (key_bytes, value_bytes) = (bytes(key), bytes(value));
            let all = max * (key_bytes + value_bytes);
            format!(
                "`{map_type}`, `{key}` to `{value}`: {} entries of {key_bytes} + {value_bytes} bytes, {} bytes in all",
                grouped(max),
                grouped(all)
            )
        }
        _ => format!("`{map_type}`: {} entries", grouped(max)),
    }
}

/// A unit's kind and the methods that it allows.
fn of_unit(kind: ProgramKind) -> String {
    let methods = Method::ALL.iter().filter(|method| allows(kind, **method));
    let names: Vec<String> = methods.map(|method| format!("`{method}`")).collect();
    match names.as_slice() {
        [] => format!("kind `{kind}`, which allows no method of `ctx`"),
        names => format!("kind `{kind}`, which allows of `ctx`: {}", names.join(", ")),
    }
}

/// How many fields and bytes an event has.
fn of_event(fields: &[u64]) -> String {
    let all: u64 = fields.iter().sum();
    match fields.len() {
        1 => format!("1 field, {} bytes", grouped(all)),
        count => format!("{count} fields, {} bytes together", grouped(all)),
    }
}

/// The kinds that allow a method.
fn of_method(name: &str) -> Option<String> {
    let method = Method::from_name(name)?;
    let kinds = ProgramKind::ALL
        .iter()
        .filter(|kind| allows(**kind, method));
    let names: Vec<String> = kinds.map(|kind| format!("`{kind}`")).collect();
    let words = format!("**ctx.{name}**{BETWEEN}allowed in units of kind");
    Some(format!("{words} {}", names.join(", ")))
}

fn bytes(one: Type) -> u64 {
    match one {
        Type::U32 | Type::I32 => 4,
        Type::U64 | Type::I64 => 8,
    }
}

fn field_bytes(field: FieldType) -> u64 {
    match field {
        FieldType::Plain(one) => bytes(one),
        FieldType::Bytes(length) => u64::from(length),
        FieldType::Array(one, length) => bytes(one) * u64::from(length),
    }
}

/// A number with a comma in front of each three digits.
fn grouped(number: u64) -> String {
    let digits = number.to_string();
    let mut grouped = String::new();
    for (at, digit) in digits.chars().enumerate() {
        if at > 0 && (digits.len() - at).is_multiple_of(3) {
            grouped.push(',');
        }
        grouped.push(digit);
    }
    grouped
}

/// What a diagnostic's number means, and whether it is the proved one.
fn explained(one: &Diagnostic) -> String {
    let mut said = vec![format!("**{one}**")];
    if let Some(meaning) = explain(one.number) {
        said.push(meaning.meaning.to_string());
        said.push(format!(
            "refused: `{}`\nfine: `{}`",
            meaning.refused, meaning.fine
        ));
    }
    if let Some(place) = one.proved {
        let (line, column) = (place.line, place.column);
        said.push(format!(
            "proved: the library refuses the text with {} at {line}:{column}",
            one.number
        ));
    }
    said.join(BETWEEN)
}

#[cfg(test)]
mod tests {
    use super::*;

    #[test]
    fn numbers_are_grouped() {
        for (number, wanted) in [
            (0, "0"),
            (999, "999"),
            (1000, "1,000"),
            (65_536, "65,536"),
            (68_719_476_720, "68,719,476,720"),
        ] {
            assert_eq!(grouped(number), wanted);
        }
    }
}
