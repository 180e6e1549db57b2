//! Why a request is not answered: a code of the protocol's and words.

use serde_json::{json, Value};

/// The code of what cannot be done with a text.
const NOT_DONE: i64 = -32803;

/// What stands in the place of a result.
#[derive(Debug, Clone, PartialEq, Eq)]
pub struct Failure {
    code: i64,
    message: String,
}

impl Failure {
    fn new(code: i64, message: impl Into<String>) -> Failure {
        Failure {
            code,
            message: message.into(),
        }
    }

    /// What came is no JSON.
    pub fn no_json(message: impl Into<String>) -> Failure {
        Failure::new(-32700, message)
    }

    /// What came is JSON and no request, or a request at the wrong time.
    pub fn no_request(message: impl Into<String>) -> Failure {
        Failure::new(-32600, message)
    }

    /// There is no such request.
    pub fn no_method(method: &str) -> Failure {
        Failure::new(-32601, format!("there is no request {method}"))
    }

    /// What the request is about is missing or of another shape.
    pub fn bad_params(message: impl Into<String>) -> Failure {
        Failure::new(-32602, message)
    }

    /// The client has not said initialize.
    pub fn not_initialized() -> Failure {
        Failure::new(-32002, "initialize comes first")
    }

    /// The client does not want the answer any more.
    pub fn cancelled() -> Failure {
        Failure::new(-32800, "cancelled")
    }

    /// What was asked for cannot be done with this text.
    pub fn not_done(message: impl Into<String>) -> Failure {
        Failure::new(NOT_DONE, message)
    }

    /// The words, if what was asked for cannot be done with this text.
    pub fn of_text(&self) -> Option<&str> {
        (self.code == NOT_DONE).then_some(self.message.as_str())
    }

    /// As a response has it.
    pub fn to_json(&self) -> Value {
        json!({ "code": self.code, "message": self.message })
    }
}
