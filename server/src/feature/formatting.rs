//! The one layout of a program, where nothing of the text is lost by it.

use crate::failure::Failure;
use crate::open::Open;
use serde_json::{json, Value};

/// The edit that lays the text out; none if it is laid out already. Refused are a text that is no program, and one
/// with comments, which a layout does not have.
pub fn edits(open: &Open) -> Result<Value, Failure> {
    let document = open.document();
    if let Err(refusal) = document.tree() {
        return Err(Failure::not_done(format!("not laid out: {refusal}")));
    }
    let comments: usize = document.rows().map(|row| row.comments).sum();
    if comments > 0 {
        let lost = match comments {
            1 => "1 comment".to_string(),
            _ => format!("{comments} comments"),
        };
        let words = format!("not laid out: {lost} would be lost");
        return Err(Failure::not_done(words));
    }
    let laid = document.layout();
    let laid = laid.map_err(|refusal| Failure::not_done(format!("not laid out: {refusal}")))?;
    Ok(changed(open, &laid))
}

/// The smallest edit that makes one text of the other, so that a cursor in front of it or behind it stays.
fn changed(open: &Open, new: &str) -> Value {
    let old = open.text();
    if old == new {
        return json!([]);
    }
    let same = |pair: &(char, char)| pair.0 == pair.1;
    let front: usize = old
        .chars()
        .zip(new.chars())
        .take_while(same)
        .map(|(letter, _)| letter.len_utf8())
        .sum();
    let (gone, made) = (
        old.get(front..).unwrap_or_default(),
        new.get(front..).unwrap_or_default(),
    );
    let end: usize = gone
        .chars()
        .rev()
        .zip(made.chars().rev())
        .take_while(same)
        .map(|(letter, _)| letter.len_utf8())
        .sum();
    let made = made.get(..made.len() - end).unwrap_or_default();
    open.edits([(front..old.len() - end, made.to_string())])
}
