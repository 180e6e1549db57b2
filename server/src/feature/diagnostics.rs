//! What is wrong with a text, as `check` tells it.

use crate::client::Client;
use crate::open::Open;
use serde_json::{json, Value};
use spoonharbor::diagnostic::{Diagnostic, Note, Severity};

/// Who tells it.
const SOURCE: &str = "spoonharbor";

/// All that is wrong, as it is published.
pub fn published(open: &Open, client: Client) -> Value {
    let told: Vec<Value> = open
        .diagnostics()
        .iter()
        .map(|one| told(open, one, client))
        .collect();
    json!({ "uri": open.uri(), "version": open.version(), "diagnostics": told })
}

/// One diagnostic. Notes that have a place are further places, if the client takes such, and else words like the
/// other notes.
pub fn told(open: &Open, one: &Diagnostic, client: Client) -> Value {
    let is_related = |note: &&Note| client.takes_related && note.span.is_some();
    let related: Vec<Value> = one
        .notes
        .iter()
        .filter(is_related)
        .filter_map(|note| {
            let location = open.location(note.span.as_ref()?);
            Some(json!({ "location": location, "message": note.message }))
        })
        .collect();
    let notes = one.notes.iter().filter(|note| !is_related(note));
    let mut told = json!({
        "range": open.range(&one.span),
        "severity": severity(one.severity),
        "code": one.number,
        "source": SOURCE,
        "message": message(one, notes.map(|note| note.message.as_str())),
    });
    if let (false, Some(fields)) = (related.is_empty(), told.as_object_mut()) {
        fields.insert("relatedInformation".to_string(), Value::Array(related));
    }
    told
}

/// Its words, those of its notes and its help, a line for each.
fn message<'a>(one: &'a Diagnostic, notes: impl Iterator<Item = &'a str>) -> String {
    let mut lines = vec![one.message.clone()];
    lines.extend(notes.map(|note| format!("note: {note}")));
    lines.extend(one.help.iter().map(|help| format!("help: {help}")));
    lines.join("\n")
}

/// The protocol's number.
fn severity(severity: Severity) -> u8 {
    match severity {
        Severity::Error => 1,
        Severity::Warning => 2,
    }
}
