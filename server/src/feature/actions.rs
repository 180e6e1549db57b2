//! Helps that are edits, to be made by one key.

use super::diagnostics;
use crate::client::Client;
use crate::failure::Failure;
use crate::open::Open;
use crate::params;
use serde_json::{json, Value};
use std::ops::Range;

/// The protocol's name for an edit that mends something.
const KIND: &str = "quickfix";

/// The edits of diagnostics that touch the range that is asked about.
pub fn actions(open: &Open, params: &Value, client: Client) -> Result<Value, Failure> {
    let asked = open.span(params, "range")?;
    if !is_wanted(params) {
        return Ok(json!([]));
    }
    let touches = |span: &Range<usize>| span.start <= asked.end && asked.start <= span.end;
    let told = open.diagnostics().iter().filter(|one| touches(&one.span));
    let actions = told.filter_map(|one| {
        let edit = one.edit.as_ref()?;
        let edits = open.edits([(edit.span.clone(), edit.text.clone())]);
        Some(json!({
            "title": edit.title(),
            "kind": KIND,
            "isPreferred": true,
            "diagnostics": [diagnostics::told(open, one, client)],
            "edit": { "changes": { open.uri(): edits } },
        }))
    });
    Ok(actions.collect())
}

/// Whether edits that mend are among what is asked for.
fn is_wanted(params: &Value) -> bool {
    let Some(only) = params::at(params, "context/only").and_then(Value::as_array) else {
        return true;
    };
    only.iter().any(|kind| kind == KIND || kind == "")
}
