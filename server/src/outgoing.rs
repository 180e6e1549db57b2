//! What is sent to the client.

use crate::failure::Failure;
use crate::frame;
use serde_json::{json, Value};
use std::io::Write;

/// The protocol's numbers for how much a person is to heed something.
const LOGGED_ERROR: u8 = 1;
const SHOWN_WARNING: u8 = 2;

/// The way to the client. A client that is gone is noticed where something is sent.
pub struct Outgoing<W> {
    output: W,
    is_gone: bool,
}

impl<W: Write> Outgoing<W> {
    pub fn to(output: W) -> Outgoing<W> {
        Outgoing {
            output,
            is_gone: false,
        }
    }

    /// Whether something could not be sent.
    pub fn is_gone(&self) -> bool {
        self.is_gone
    }

    /// Answers a request.
    pub fn answer(&mut self, id: &Value, answer: Result<Value, Failure>) {
        self.send(&match answer {
            Ok(result) => json!({ "jsonrpc": "2.0", "id": id, "result": result }),
            Err(failure) => json!({ "jsonrpc": "2.0", "id": id, "error": failure.to_json() }),
        });
    }

    pub fn notify(&mut self, method: &str, params: Value) {
        self.send(&json!({ "jsonrpc": "2.0", "method": method, "params": params }));
    }

    /// Says something to the person.
    pub fn show(&mut self, message: &str) {
        let params = json!({ "type": SHOWN_WARNING, "message": message });
        self.notify("window/showMessage", params);
    }

    /// Says what went wrong, for the client's log.
    pub fn log(&mut self, message: &str) {
        let params = json!({ "type": LOGGED_ERROR, "message": message });
        self.notify("window/logMessage", params);
    }

    fn send(&mut self, message: &Value) {
        let sent = frame::write(&mut self.output, message.to_string().as_bytes());
        self.is_gone |= sent.is_err();
    }
}
