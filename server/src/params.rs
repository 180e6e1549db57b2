//! What a request is about, read from its parameters.

use crate::failure::Failure;
use serde_json::Value;

/// The text at a path of names, `textDocument/uri`.
pub fn text<'a>(params: &'a Value, path: &str) -> Result<&'a str, Failure> {
    let found = at(params, path).and_then(Value::as_str);
    found.ok_or_else(|| Failure::bad_params(format!("{path} is missing or no string")))
}

/// The values of the list at a path.
pub fn list<'a>(params: &'a Value, path: &str) -> Result<&'a [Value], Failure> {
    let found = at(params, path).and_then(Value::as_array);
    found
        .map(Vec::as_slice)
        .ok_or_else(|| Failure::bad_params(format!("{path} is missing or no list")))
}

/// The line and character at a path.
pub fn place(params: &Value, path: &str) -> Result<(usize, usize), Failure> {
    let number = |name: &str| {
        let number = at(params, path)?.get(name)?.as_u64()?;
        Some(usize::try_from(number).unwrap_or(usize::MAX))
    };
    number("line")
        .zip(number("character"))
        .ok_or_else(|| Failure::bad_params(format!("{path} is missing or no place")))
}

/// What stands at a path; nothing for `null`.
pub fn at<'a>(params: &'a Value, path: &str) -> Option<&'a Value> {
    let mut found = params;
    for name in path.split('/') {
        found = found.get(name)?;
    }
    (!found.is_null()).then_some(found)
}

/// Whether `true` stands at a path.
pub fn is_true(params: &Value, path: &str) -> bool {
    at(params, path).and_then(Value::as_bool).unwrap_or(false)
}

/// Whether the list at a path has a word.
pub fn has(params: &Value, path: &str, word: &str) -> bool {
    let list = at(params, path).and_then(Value::as_array);
    list.is_some_and(|list| list.iter().any(|one| one == word))
}
