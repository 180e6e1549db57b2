//! A client of the server's, for tests.
#![allow(dead_code)]
#![allow(
    clippy::expect_used,
    clippy::indexing_slicing,
    clippy::panic,
    clippy::string_slice,
    clippy::unwrap_used
)]

use serde_json::{json, Value};
use std::collections::VecDeque;
use std::io::{BufRead, BufReader, Read, Write};
use std::process::{Child, ChildStdin, ChildStdout, Command, Stdio};

/// The name of the text that tests open.
pub const URI: &str = "file:///t.snx";

/// A server that is running, and what it has said besides answers.
pub struct Client {
    child: Child,
    input: Option<ChildStdin>,
    output: BufReader<ChildStdout>,
    id: u64,
    told: VecDeque<Value>,
}

impl Client {
    /// A server to which nothing was said.
    pub fn start() -> Client {
        let mut child = Command::new(env!("CARGO_BIN_EXE_spoonharbor-lsp"))
            .stdin(Stdio::piped())
            .stdout(Stdio::piped())
            .stderr(Stdio::piped())
            .spawn()
            .expect("the server starts");
        Client {
            input: child.stdin.take(),
            output: BufReader::new(child.stdout.take().unwrap()),
            child,
            id: 0,
            told: VecDeque::new(),
        }
    }

    /// A server that is initialized by a client with these capabilities.
    pub fn with(capabilities: Value) -> Client {
        let mut client = Client::start();
        let params = json!({ "processId": null, "rootUri": null, "capabilities": capabilities });
        client.request("initialize", params).unwrap();
        client.notify("initialized", json!({}));
        client
    }

    /// A server with a text open, whose first diagnostics were read.
    pub fn of(text: &str) -> Client {
        let mut client = Client::with(capabilities());
        client.open(text);
        client.published();
        client
    }

    pub fn send_bytes(&mut self, bytes: &[u8]) {
        let input = self.input.as_mut().expect("input is open");
        // A server that has ended reads no more.
        let _ = input.write_all(bytes);
        let _ = input.flush();
    }

    pub fn send_body(&mut self, body: &str) {
        self.send_bytes(format!("Content-Length: {}\r\n\r\n{body}", body.len()).as_bytes());
    }

    pub fn notify(&mut self, method: &str, params: Value) {
        let message = json!({ "jsonrpc": "2.0", "method": method, "params": params });
        self.send_body(&message.to_string());
    }

    /// Sends a request and says its id.
    pub fn ask(&mut self, method: &str, params: Value) -> u64 {
        self.id += 1;
        let message =
            json!({ "jsonrpc": "2.0", "id": self.id, "method": method, "params": params });
        self.send_body(&message.to_string());
        self.id
    }

    /// The answer to a request; what is told meanwhile is kept.
    pub fn request(&mut self, method: &str, params: Value) -> Result<Value, Value> {
        let id = self.ask(method, params);
        loop {
            let message = self.read().expect("an answer");
            if message["id"] == id {
                return match message.get("error") {
                    Some(error) => Err(error.clone()),
                    None => Ok(message["result"].clone()),
                };
            }
            assert!(message.get("method").is_some(), "{message}");
            self.told.push_back(message);
        }
    }

    /// A request about the open text.
    pub fn about(&mut self, method: &str, more: Value) -> Result<Value, Value> {
        let mut params = json!({ "textDocument": { "uri": URI } });
        let fields = params.as_object_mut().unwrap();
        fields.extend(more.as_object().cloned().unwrap_or_default());
        self.request(&format!("textDocument/{method}"), params)
    }

    /// A request about a place of the open text.
    pub fn at(&mut self, method: &str, line: u64, character: u64) -> Value {
        let place = json!({ "position": { "line": line, "character": character } });
        self.about(method, place).unwrap()
    }

    /// The next message; nothing at the output's end.
    pub fn read(&mut self) -> Option<Value> {
        let mut length = 0;
        loop {
            let mut line = String::new();
            if self.output.read_line(&mut line).unwrap() == 0 {
                return None;
            }
            match line.trim_end() {
                "" => break,
                line => length = line.strip_prefix("Content-Length: ")?.parse().unwrap(),
            }
        }
        let mut body = vec![0; length];
        self.output.read_exact(&mut body).unwrap();
        let message: Value = serde_json::from_slice(&body).unwrap();
        assert_eq!(message["jsonrpc"], "2.0");
        Some(message)
    }

    /// The next message that is no answer.
    pub fn told(&mut self) -> Value {
        match self.told.pop_front() {
            Some(told) => told,
            None => self.read().expect("a message"),
        }
    }

    /// What is published next.
    pub fn published(&mut self) -> Value {
        loop {
            let told = self.told();
            if told["method"] == "textDocument/publishDiagnostics" {
                return told["params"].clone();
            }
        }
    }

    pub fn open(&mut self, text: &str) {
        let document = json!({ "uri": URI, "languageId": "solnix", "version": 1, "text": text });
        self.notify("textDocument/didOpen", json!({ "textDocument": document }));
    }

    /// Changes the open text.
    pub fn change(&mut self, version: i64, changes: Value) {
        let document = json!({ "uri": URI, "version": version });
        self.notify(
            "textDocument/didChange",
            json!({ "textDocument": document, "contentChanges": changes }),
        );
    }

    /// Closes the input, and says all that is still told, the exit status, and what was complained of.
    pub fn ended(mut self) -> (Vec<Value>, i32, String) {
        self.input = None;
        let mut told: Vec<Value> = self.told.drain(..).collect();
        while let Some(message) = self.read() {
            told.push(message);
        }
        let status = self.child.wait().unwrap();
        let mut complaints = String::new();
        let errors = self.child.stderr.take();
        errors.unwrap().read_to_string(&mut complaints).unwrap();
        let status = status.code().expect("never ended by a signal");
        (told, status, complaints)
    }

    pub fn close_output(self) -> (Child, ChildStdin) {
        (self.child, self.input.unwrap())
    }
}

/// What a client of today says that it takes.
pub fn capabilities() -> Value {
    json!({
        "textDocument": {
            "documentSymbol": { "hierarchicalDocumentSymbolSupport": true },
            "publishDiagnostics": { "relatedInformation": true },
            "hover": { "contentFormat": ["markdown", "plaintext"] },
        },
    })
}

/// Two places.
pub fn range(line: u64, character: u64, end_line: u64, end_character: u64) -> Value {
    json!({
        "start": { "line": line, "character": character },
        "end": { "line": end_line, "character": end_character },
    })
}
