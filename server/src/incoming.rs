//! What a message is: a request, a notification, a response, or none of these.

use crate::failure::Failure;
use serde_json::Value;

/// A message of the client's.
#[derive(Debug, Clone, PartialEq)]
pub enum Incoming {
    Request {
        id: Value,
        method: String,
        params: Value,
    },
    Notification {
        method: String,
        params: Value,
    },
    /// An answer to a request of ours; none of ours wants one.
    Response,
    /// No message, with what is answered and to which id, `null` where none is known.
    Malformed {
        id: Value,
        failure: Failure,
    },
}

/// Reads the bytes of a message.
pub fn read(bytes: &[u8]) -> Incoming {
    let parsed = serde_json::from_slice(bytes).or_else(|error| {
        // An editor may send half of a character that UTF-16 has two units for.
        serde_json::from_slice(&with_whole_characters(bytes)).map_err(|_| error)
    });
    match parsed {
        Ok(Value::Object(fields)) => of_fields(fields),
        Ok(_) => malformed(Value::Null, Failure::no_request("a message is an object")),
        Err(error) => malformed(Value::Null, Failure::no_json(format!("no JSON: {error}"))),
    }
}

fn malformed(id: Value, failure: Failure) -> Incoming {
    Incoming::Malformed { id, failure }
}

fn of_fields(mut fields: serde_json::Map<String, Value>) -> Incoming {
    let id = fields.remove("id");
    let is_answer = fields.contains_key("result") || fields.contains_key("error");
    let params = fields.remove("params").unwrap_or(Value::Null);
    match (fields.remove("method"), id) {
        (Some(Value::String(method)), None) => Incoming::Notification { method, params },
        (Some(Value::String(method)), Some(id)) if is_id(&id) => {
            Incoming::Request { id, method, params }
        }
        (Some(Value::String(_)), Some(_)) => malformed(
            Value::Null,
            Failure::no_request("an id is a number or a string"),
        ),
        (None, Some(_)) if is_answer => Incoming::Response,
        (_, id) => malformed(
            id.filter(is_id).unwrap_or(Value::Null),
            Failure::no_request("a method is missing or no string"),
        ),
    }
}

/// Whether this may be a request's id.
fn is_id(id: &Value) -> bool {
    id.is_string() || id.is_i64() || id.is_u64()
}

/// The bytes of a JSON text with U+FFFD for each half of a pair of UTF-16's that stands alone: it has one unit too,
/// so places stay.
fn with_whole_characters(bytes: &[u8]) -> Vec<u8> {
    let mut whole = Vec::with_capacity(bytes.len());
    let mut rest = bytes;
    while let Some((&first, behind)) = rest.split_first() {
        let length = match unit(rest) {
            Some(0xd800..=0xdbff) if is_second(rest.get(6..)) => 12,
            Some(0xd800..=0xdfff) => {
                whole.extend_from_slice(b"\\ufffd");
                rest = rest.get(6..).unwrap_or_default();
                continue;
            }
            _ if first == b'\\' && !behind.is_empty() => 2,
            _ => 1,
        };
        let (taken, left) = rest.split_at_checked(length).unwrap_or((rest, &[]));
        whole.extend_from_slice(taken);
        rest = left;
    }
    whole
}

fn is_second(rest: Option<&[u8]>) -> bool {
    matches!(rest.and_then(unit), Some(0xdc00..=0xdfff))
}

/// The unit that `\uXXXX` stands for.
fn unit(rest: &[u8]) -> Option<u16> {
    let digits = rest.strip_prefix(b"\\u")?.get(..4)?;
    u16::from_str_radix(str::from_utf8(digits).ok()?, 16).ok()
}

#[cfg(test)]
#[allow(clippy::indexing_slicing, clippy::panic)]
mod tests {
    use super::*;
    use serde_json::json;

    #[test]
    fn messages_are_told_apart() {
        let request = Incoming::Request {
            id: json!("a"),
            method: "m".to_string(),
            params: json!([1]),
        };
        assert_eq!(
            read(br#"{"jsonrpc":"2.0","id":"a","method":"m","params":[1]}"#),
            request
        );
        let notification = Incoming::Notification {
            method: "m".to_string(),
            params: Value::Null,
        };
        assert_eq!(read(br#"{"method":"m"}"#), notification);
        assert_eq!(read(br#"{"id":1,"result":null}"#), Incoming::Response);
    }

    #[test]
    fn what_is_no_message_has_an_answer() {
        let cases = [
            ("[]", Value::Null, -32600),
            ("1", Value::Null, -32600),
            ("{", Value::Null, -32700),
            ("", Value::Null, -32700),
            (r#"{"id":3}"#, json!(3), -32600),
            (r#"{"id":3,"method":4}"#, json!(3), -32600),
            (r#"{"id":null,"method":"m"}"#, Value::Null, -32600),
            (r#"{"id":1.5,"method":"m"}"#, Value::Null, -32600),
            (r#"{"id":[],"method":"m"}"#, Value::Null, -32600),
        ];
        for (text, wanted, code) in cases {
            let Incoming::Malformed { id, failure } = read(text.as_bytes()) else {
                panic!("{text}");
            };
            assert_eq!((id, &failure.to_json()["code"]), (wanted, &json!(code)));
        }
        let deep = "[".repeat(100_000);
        assert!(matches!(read(deep.as_bytes()), Incoming::Malformed { .. }));
    }

    #[test]
    fn halves_of_characters_stay_one_unit() {
        let cases = [
            (r"\ud83d\ude00", "😀"),
            (r"a\ud83db", "a\u{fffd}b"),
            (r"\ude00\ud83d", "\u{fffd}\u{fffd}"),
            (r"\ud83d\ud83d\ude00", "\u{fffd}😀"),
            (r"\\ud83d\ud800", "\\ud83d\u{fffd}"),
        ];
        for (text, wanted) in cases {
            let message = format!(r#"{{"method":"m","params":["{text}"]}}"#);
            let Incoming::Notification { params, .. } = read(message.as_bytes()) else {
                panic!("{text}");
            };
            assert_eq!(params, json!([wanted]));
        }
    }
}
