//! Maps and events by name: where one is declared, where it is used, and another name for it.

use crate::failure::Failure;
use crate::names::{at, is_name, roles, Name, Role};
use crate::open::Open;
use crate::params;
use serde_json::{json, Value};
use std::ops::Range;

/// Where the map or event is declared whose name stands at the place.
pub fn definition(open: &Open, params: &Value) -> Result<Value, Failure> {
    let declared = found(open, params)?.map(|name| name.declared);
    let rows = declared.unwrap_or_default();
    Ok(spans(open, &rows)
        .map(|span| open.location(&span))
        .collect())
}

/// Where it is used, and where it is declared if that is asked for.
pub fn references(open: &Open, params: &Value) -> Result<Value, Failure> {
    let Some(name) = found(open, params)? else {
        return Ok(json!([]));
    };
    let with_declared = params::is_true(params, "context/includeDeclaration");
    let mut rows = name.used;
    if with_declared {
        rows.extend(name.declared);
    }
    rows.sort_unstable();
    Ok(spans(open, &rows)
        .map(|span| open.location(&span))
        .collect())
}

/// What would be renamed; `null` where nothing can be.
pub fn prepare(open: &Open, params: &Value) -> Result<Value, Failure> {
    let name = found(open, params)?;
    let told = name.and_then(|name| {
        let span = spans(open, &[name.row]).next()?;
        Some(json!({ "range": open.range(&span), "placeholder": name.name }))
    });
    Ok(told.unwrap_or(Value::Null))
}

/// The edits that give it another name everywhere. One that is no name, or that the text uses already, is refused.
pub fn rename(open: &Open, params: &Value) -> Result<Value, Failure> {
    let new = params::text(params, "newName")?;
    let Some(name) = found(open, params)? else {
        return Err(Failure::not_done("only maps and events have another name"));
    };
    if !is_name(new) {
        return Err(Failure::not_done(format!("'{new}' is no name")));
    }
    if new != name.name && is_taken(open, new) {
        return Err(Failure::not_done(format!("'{new}' is a name already")));
    }
    let mut rows = [name.declared, name.used].concat();
    rows.sort_unstable();
    let edits = open.edits(spans(open, &rows).map(|span| (span, new.to_string())));
    Ok(json!({ "changes": { open.uri(): edits } }))
}

fn found(open: &Open, params: &Value) -> Result<Option<Name>, Failure> {
    let offset = open.offset(params, "position")?;
    Ok(at(open.outline(), offset))
}

fn spans<'a>(open: &'a Open, rows: &'a [usize]) -> impl Iterator<Item = Range<usize>> + 'a {
    let row = |row: &usize| open.outline().rows().get(*row);
    rows.iter().filter_map(row).map(|row| row.span())
}

/// Whether something has a name that is not behind a `.`, nor an event's field.
fn is_taken(open: &Open, name: &str) -> bool {
    let outline = open.outline();
    let taken = |role: &Role| {
        matches!(
            role,
            Role::Declared(_) | Role::Used | Role::Own | Role::OwnDeclared
        )
    };
    let roles = roles(outline);
    let mut rows = roles.iter().enumerate();
    rows.any(|(row, role)| taken(role) && outline.word(row) == name)
}
