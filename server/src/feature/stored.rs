//! `spoonharbor/rows`: the text and the rows that the server has, for whoever doubts that they are the client's.

use crate::open::Open;
use serde_json::{json, Value};

/// The text, its rows as lists of kind, start, end, line, column, value and comments, and the number and offset at
/// which they end early.
pub fn rows(open: &Open) -> Value {
    let document = open.document();
    let rows: Vec<Value> = document
        .rows()
        .map(|row| {
            json!([
                row.kind.number(),
                row.start,
                row.end,
                row.line,
                row.column,
                row.value,
                row.comments
            ])
        })
        .collect();
    let refusal = document
        .refusal()
        .map(|refusal| json!([refusal.number(), refusal.place.offset]));
    json!({ "text": document.text(), "rows": rows, "refusal": refusal })
}
