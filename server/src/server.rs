//! The server: what it has open, and how each message is answered.

use crate::client::Client;
use crate::failure::Failure;
use crate::feature::{
    actions, completion, diagnostics, folding, formatting, hover, naming, selection, stored,
    symbols, tokens,
};
use crate::incoming::Incoming;
use crate::open::Open;
use crate::outgoing::Outgoing;
use crate::params;
use crate::queue::{Event, Queue};
use crate::settings::Settings;
use serde_json::{json, Value};
use std::collections::{BTreeMap, BTreeSet};
use std::io::{Read, Write};
use std::process::ExitCode;
use std::time::{Duration, Instant};

/// How long diagnostics wait while further messages come.
const LONGEST_WAIT: Duration = Duration::from_millis(50);

/// The request that lays a text out.
const FORMATTING: &str = "textDocument/formatting";

/// How far the protocol has come.
#[derive(Debug, Clone, Copy, PartialEq, Eq)]
enum Phase {
    Begun,
    Initialized,
    ShutDown,
}

/// An open text, and the last tokens that were told of it.
struct Entry {
    open: Open,
    tokens: tokens::Answered,
}

struct Server<W> {
    out: Outgoing<W>,
    phase: Phase,
    client: Client,
    settings: Settings,
    entries: BTreeMap<String, Entry>,
    /// Texts whose diagnostics are to be published, and since when.
    unpublished: BTreeSet<String>,
    since: Option<Instant>,
}

/// Serves a client to its end. Status 0 if it said shutdown before, else 1.
pub fn run(input: impl Read + Send + 'static, output: impl Write) -> ExitCode {
    let mut queue = Queue::of(input);
    let mut server = Server {
        out: Outgoing::to(output),
        phase: Phase::Begun,
        client: Client::default(),
        settings: Settings::default(),
        entries: BTreeMap::new(),
        unpublished: BTreeSet::new(),
        since: None,
    };
    loop {
        let is_over = server.take(queue.next());
        if is_over || server.out.is_gone() {
            return match server.phase == Phase::ShutDown && !server.out.is_gone() {
                true => ExitCode::SUCCESS,
                false => ExitCode::FAILURE,
            };
        }
        let has_waited = server
            .since
            .is_some_and(|since| since.elapsed() > LONGEST_WAIT);
        if has_waited || queue.is_empty() {
            server.publish();
        }
    }
}

impl<W: Write> Server<W> {
    /// Takes what came, and says whether it was the end.
    fn take(&mut self, event: Event) -> bool {
        match event {
            Event::Message(Incoming::Request { id, method, params }) => {
                let answer = self.request(&method, &params);
                self.out.answer(&id, answer);
            }
            Event::Message(Incoming::Notification { method, .. }) if method == "exit" => {
                return true;
            }
            Event::Message(Incoming::Notification { method, params }) => {
                if let Err(failure) = self.notification(&method, &params) {
                    let words = format!("{method}: {}", failure.to_json());
                    self.out.log(&words);
                }
            }
            Event::Message(Incoming::Malformed { id, failure }) => {
                self.out.answer(&id, Err(failure));
            }
            Event::Message(Incoming::Response) => {}
            Event::Cancelled(id) => self.out.answer(&id, Err(Failure::cancelled())),
            Event::Ended(trouble) => {
                if let Some(trouble) = trouble {
                    // Nobody may be there to read it.
                    let _ = writeln!(std::io::stderr(), "spoonharbor-lsp: {trouble}");
                }
                return true;
            }
        }
        false
    }

    fn request(&mut self, method: &str, params: &Value) -> Result<Value, Failure> {
        match (self.phase, method) {
            (Phase::Begun, "initialize") => Ok(self.initialize(params)),
            (Phase::Begun, _) => Err(Failure::not_initialized()),
            (Phase::ShutDown, _) => Err(Failure::no_request("the server is shut down")),
            (Phase::Initialized, "initialize") => Err(Failure::no_request("initialize comes once")),
            (Phase::Initialized, "shutdown") => {
                self.phase = Phase::ShutDown;
                Ok(Value::Null)
            }
            (Phase::Initialized, FORMATTING) => self.formatted(params),
            (Phase::Initialized, _) => self.asked(method, params),
        }
    }

    fn initialize(&mut self, params: &Value) -> Value {
        self.phase = Phase::Initialized;
        self.client = Client::of(params);
        let options = params::at(params, "initializationOptions");
        self.settings = Settings::of(options.unwrap_or(&Value::Null));
        json!({
            "capabilities": capabilities(self.client),
            "serverInfo": { "name": "spoonharbor-lsp", "version": env!("CARGO_PKG_VERSION") },
        })
    }

    /// Lays a text out. Some clients keep the words of a request that fails to themselves, so they are shown.
    fn formatted(&mut self, params: &Value) -> Result<Value, Failure> {
        let answer = self.asked(FORMATTING, params);
        let words = answer.as_ref().err().and_then(Failure::of_text);
        let Some(words) = words else {
            return answer;
        };
        self.out.show(words);
        Ok(Value::Null)
    }

    /// Answers a request about an open text.
    fn asked(&mut self, method: &str, params: &Value) -> Result<Value, Failure> {
        let client = self.client;
        let feature = feature(method).ok_or_else(|| Failure::no_method(method))?;
        let uri = params::text(params, "textDocument/uri")?;
        let entry = self.entries.get_mut(uri);
        let entry = entry.ok_or_else(|| Failure::bad_params(format!("{uri} is not open")))?;
        feature(entry, params, client)
    }

    fn notification(&mut self, method: &str, params: &Value) -> Result<(), Failure> {
        if self.phase != Phase::Initialized {
            return Ok(());
        }
        match method {
            "textDocument/didOpen" => {
                let encoding = self.client.encoding;
                let open = Open::new(params, encoding, &self.settings.checks)?;
                let uri = open.uri().to_string();
                let tokens = tokens::Answered::default();
                self.entries.insert(uri.clone(), Entry { open, tokens });
                self.publish_soon(uri);
            }
            "textDocument/didChange" => {
                let uri = params::text(params, "textDocument/uri")?;
                let entry = self.entries.get_mut(uri);
                let entry =
                    entry.ok_or_else(|| Failure::bad_params(format!("{uri} is not open")))?;
                let done = entry.open.change(params);
                self.publish_soon(uri.to_string());
                done?;
            }
            "textDocument/didClose" => self.close(params::text(params, "textDocument/uri")?),
            "workspace/didChangeConfiguration" => {
                let sent = params::at(params, "settings");
                self.settings = Settings::of(sent.unwrap_or(&Value::Null));
                self.check_again();
            }
            _ => {}
        }
        Ok(())
    }

    /// Forgets a text, and takes back what was published of it.
    fn close(&mut self, uri: &str) {
        if self.entries.remove(uri).is_some() {
            self.unpublished.remove(uri);
            let none = json!({ "uri": uri, "diagnostics": [] });
            self.out.notify("textDocument/publishDiagnostics", none);
        }
    }

    fn check_again(&mut self) {
        let uris: Vec<String> = self.entries.keys().cloned().collect();
        for entry in self.entries.values_mut() {
            entry.open.check(&self.settings.checks);
        }
        for uri in uris {
            self.publish_soon(uri);
        }
    }

    fn publish_soon(&mut self, uri: String) {
        self.unpublished.insert(uri);
        self.since.get_or_insert_with(Instant::now);
    }

    fn publish(&mut self) {
        self.since = None;
        for uri in std::mem::take(&mut self.unpublished) {
            if let Some(entry) = self.entries.get(&uri) {
                let told = diagnostics::published(&entry.open, self.client);
                self.out.notify("textDocument/publishDiagnostics", told);
            }
        }
    }
}

/// What answers a request about an open text.
type Feature = fn(&mut Entry, &Value, Client) -> Result<Value, Failure>;

fn feature(method: &str) -> Option<Feature> {
    Some(match method {
        "textDocument/documentSymbol" => {
            |entry, _, client| Ok(symbols::symbols(&entry.open, client))
        }
        "textDocument/foldingRange" => |entry, _, _| Ok(folding::folds(&entry.open)),
        "textDocument/selectionRange" => |entry, params, _| selection::ranges(&entry.open, params),
        "textDocument/semanticTokens/full" => |entry, _, _| Ok(entry.tokens.full(&entry.open)),
        "textDocument/semanticTokens/full/delta" => |entry, params, _| {
            let since = params::text(params, "previousResultId")?;
            Ok(entry.tokens.delta(&entry.open, since))
        },
        "textDocument/hover" => |entry, params, client| hover::hover(&entry.open, params, client),
        "textDocument/completion" => |entry, params, _| completion::items(&entry.open, params),
        "textDocument/definition" => |entry, params, _| naming::definition(&entry.open, params),
        "textDocument/references" => |entry, params, _| naming::references(&entry.open, params),
        "textDocument/prepareRename" => |entry, params, _| naming::prepare(&entry.open, params),
        "textDocument/rename" => |entry, params, _| naming::rename(&entry.open, params),
        "textDocument/codeAction" => {
            |entry, params, client| actions::actions(&entry.open, params, client)
        }
        FORMATTING => |entry, _, _| formatting::edits(&entry.open),
        "spoonharbor/rows" => |entry, _, _| Ok(stored::rows(&entry.open)),
        _ => return None,
    })
}

/// What the server can do.
fn capabilities(client: Client) -> Value {
    json!({
        "positionEncoding": client.encoding.name(),
        "textDocumentSync": { "openClose": true, "change": 2 },
        "documentSymbolProvider": true,
        "foldingRangeProvider": true,
        "selectionRangeProvider": true,
        "semanticTokensProvider": {
            "legend": tokens::legend(),
            "full": { "delta": true },
            "range": false,
        },
        "hoverProvider": true,
        "completionProvider": { "triggerCharacters": [".", ":"] },
        "definitionProvider": true,
        "referencesProvider": true,
        "renameProvider": { "prepareProvider": true },
        "documentFormattingProvider": true,
        "codeActionProvider": { "codeActionKinds": ["quickfix"] },
    })
}
