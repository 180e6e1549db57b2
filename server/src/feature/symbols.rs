//! A text's symbols: maps, events with their fields, and units with their variables.

use crate::client::Client;
use crate::names::{kind, roles, Role};
use crate::open::Open;
use serde_json::{json, Value};
use spoonharbor::diagnostic::{Declaration, Outline};
use spoonharbor::{Kind, NodeKind};
use std::ops::Range;

/// The protocol's numbers for kinds of symbols.
const FIELD: u8 = 8;
const FUNCTION: u8 = 12;
const VARIABLE: u8 = 13;
const OBJECT: u8 = 19;
const STRUCT: u8 = 23;

struct Symbol {
    name: String,
    detail: String,
    kind: u8,
    span: Range<usize>,
    name_span: Range<usize>,
    children: Vec<Symbol>,
}

/// The symbols, nested where the client takes that.
pub fn symbols(open: &Open, client: Client) -> Value {
    let outline = open.outline();
    let roles = roles(outline);
    let declarations = outline.declarations().iter();
    let symbols: Vec<Symbol> = declarations
        .filter_map(|one| symbol(outline, &roles, one))
        .collect();
    match client.takes_nested_symbols {
        true => symbols.iter().map(|one| nested(open, one)).collect(),
        false => symbols.iter().flat_map(|one| flat(open, one)).collect(),
    }
}

fn symbol(outline: &Outline, roles: &[Role], one: &Declaration) -> Option<Symbol> {
    let row = one.name?;
    let kind = match one.kind {
        Kind::KeywordMap => OBJECT,
        Kind::KeywordEvent => STRUCT,
        _ => FUNCTION,
    };
    let inside = one.rows.clone().filter_map(|row| {
        let kind = match roles.get(row)? {
            Role::Field => FIELD,
            Role::OwnDeclared => VARIABLE,
            _ => return None,
        };
        inner(outline, one, row, kind)
    });
    Some(Symbol {
        name: outline.word(row).to_string(),
        detail: detail(outline, one),
        kind,
        span: one.span.clone(),
        name_span: outline.rows().get(row)?.span(),
        children: inside.collect(),
    })
}

/// A field or a variable: from its word or name to its `;`, or to the declaration's end.
fn inner(outline: &Outline, one: &Declaration, row: usize, symbol: u8) -> Option<Symbol> {
    let rows = outline.rows();
    let first = row - usize::from(symbol == VARIABLE);
    let last = (row..one.rows.end).find(|&row| kind(outline, row) == Kind::Semicolon);
    let last = last.unwrap_or(one.rows.end.saturating_sub(1)).max(row);
    let word = outline.word(first).to_string();
    let of_field = || {
        let typed = rows.get(row + 2)?.start..rows.get(last)?.start;
        outline.text().get(typed)
    };
    Some(Symbol {
        name: outline.word(row).to_string(),
        detail: match symbol {
            VARIABLE => word,
            _ => of_field().unwrap_or_default().trim().to_string(),
        },
        kind: symbol,
        span: rows.get(first)?.start..rows.get(last)?.end,
        name_span: rows.get(row)?.span(),
        children: Vec::new(),
    })
}

/// A map's facts, a unit's kind; nothing where the declaration is refused.
fn detail(outline: &Outline, one: &Declaration) -> String {
    let Some(document) = outline.document(one) else {
        return String::new();
    };
    let Ok(tree) = document.tree() else {
        return String::new();
    };
    let mut nodes = tree.nodes().iter().rev();
    let found = nodes.find_map(|node| match node.kind {
        NodeKind::Map { .. } => Some(node.kind.to_string().replace("map: ", "")),
        NodeKind::Unit { kind, .. } => Some(kind.to_string()),
        _ => None,
    });
    found.unwrap_or_default()
}

fn nested(open: &Open, one: &Symbol) -> Value {
    let children: Vec<Value> = one.children.iter().map(|one| nested(open, one)).collect();
    json!({
        "name": one.name,
        "detail": one.detail,
        "kind": one.kind,
        "range": open.range(&one.span),
        "selectionRange": open.range(&one.name_span),
        "children": children,
    })
}

fn flat(open: &Open, one: &Symbol) -> Vec<Value> {
    let told = |inner: &Symbol, container: Option<&str>| {
        json!({
            "name": inner.name,
            "kind": inner.kind,
            "location": open.location(&inner.span),
            "containerName": container,
        })
    };
    let inside = one.children.iter();
    let inside = inside.map(|inner| told(inner, Some(&one.name)));
    [told(one, None)].into_iter().chain(inside).collect()
}
