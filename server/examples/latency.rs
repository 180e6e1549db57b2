//! How long diagnostics take: characters are typed and deleted at random places of 60,000 bytes of probes.
//!
//! `cargo run --release --offline --example latency [CHANGES]`, in `server/`, with the server built. A time goes from
//! before a change is written to after the diagnostics of its version were read and parsed, over pipes, with one
//! change under way at a time.
#![allow(
    clippy::expect_used,
    clippy::indexing_slicing,
    clippy::panic,
    clippy::unwrap_used
)]

use serde_json::{json, Value};
use std::io::{BufRead, BufReader, Read, Write};
use std::process::{Child, ChildStdin, ChildStdout, Command, Stdio};
use std::time::{Duration, Instant};

const BYTES: usize = 60_000;
const URI: &str = "file:///latency.snx";
const TYPED: [&str; 16] = [
    "a", "x", "1", "_", " ", "\n", ";", "{", "}", "(", "\"", "/", "*", "@", "°", "🔭",
];

/// The example probes, one after the other with a number behind each name that is declared, up to the size.
fn probes() -> String {
    let folder = concat!(env!("CARGO_MANIFEST_DIR"), "/../examples");
    let mut texts: Vec<String> = std::fs::read_dir(folder)
        .expect("the examples are there")
        .map(|file| std::fs::read_to_string(file.unwrap().path()).unwrap())
        .collect();
    texts.sort();
    let mut all = String::new();
    for (number, text) in texts.iter().cycle().enumerate() {
        let mut text = text.clone();
        for word in ["map ", "event ", "unit "] {
            text = text.replace(&format!("\n{word}"), &format!("\n{word}n{number}_"));
        }
        if all.len() + text.len() > BYTES {
            break;
        }
        all += &text;
    }
    let filler = BYTES - all.len();
    all + "// " + &"-".repeat(filler.saturating_sub(4)) + "\n"
}

struct Client {
    child: Child,
    input: ChildStdin,
    output: BufReader<ChildStdout>,
}

impl Client {
    fn start() -> Client {
        let mut program = std::env::current_exe().unwrap();
        program.pop();
        program.pop();
        program.push("spoonharbor-lsp");
        let mut child = Command::new(program)
            .stdin(Stdio::piped())
            .stdout(Stdio::piped())
            .spawn()
            .expect("the server is built");
        Client {
            input: child.stdin.take().unwrap(),
            output: BufReader::new(child.stdout.take().unwrap()),
            child,
        }
    }

    fn send(&mut self, message: &Value) {
        let body = message.to_string();
        write!(self.input, "Content-Length: {}\r\n\r\n{body}", body.len()).unwrap();
        self.input.flush().unwrap();
    }

    fn read(&mut self) -> Value {
        let mut length = 0;
        loop {
            let mut line = String::new();
            self.output.read_line(&mut line).unwrap();
            match line.trim_end().strip_prefix("Content-Length: ") {
                Some(number) => length = number.parse().unwrap(),
                None => break,
            }
        }
        let mut body = vec![0; length];
        self.output.read_exact(&mut body).unwrap();
        serde_json::from_slice(&body).unwrap()
    }

    /// Makes a change, and gives the time until its diagnostics are there and how many they are.
    fn changed(&mut self, version: u64, change: &Value) -> (Duration, usize) {
        let message = json!({ "jsonrpc": "2.0", "method": "textDocument/didChange", "params": {
            "textDocument": { "uri": URI, "version": version }, "contentChanges": [change] } });
        let begun = Instant::now();
        self.send(&message);
        loop {
            let told = self.read();
            if told["params"]["version"] == version {
                let took = begun.elapsed();
                return (
                    took,
                    told["params"]["diagnostics"].as_array().unwrap().len(),
                );
            }
        }
    }
}

fn main() {
    let count: usize = std::env::args()
        .nth(1)
        .map_or(5000, |word| word.parse().expect("a number"));
    let text = probes();
    let lines: Vec<&str> = text.split('\n').collect();
    let mut client = Client::start();
    client.send(&json!({ "jsonrpc": "2.0", "id": 1, "method": "initialize", "params": { "capabilities": {} } }));
    client.read();
    client.send(
        &json!({ "jsonrpc": "2.0", "method": "textDocument/didOpen", "params": { "textDocument": {
        "uri": URI, "languageId": "solnix", "version": 0, "text": text } } }),
    );
    let opened = client.read();
    let mut random = 0x9e37_79b9_7f4a_7c15_u64;
    let mut below = |bound: usize| {
        random ^= random << 13;
        random ^= random >> 7;
        random ^= random << 17;
        usize::try_from(random % bound as u64).unwrap()
    };
    let (mut times, mut told) = (Vec::new(), 0);
    for pair in 0..count.div_ceil(2) {
        let line = below(lines.len());
        let letters: Vec<char> = lines[line].chars().collect();
        let character: usize = letters[..below(letters.len() + 1)]
            .iter()
            .map(|one| one.len_utf16())
            .sum();
        let typed = TYPED[below(TYPED.len())];
        let at = json!({ "line": line, "character": character });
        let end = match typed {
            "\n" => json!({ "line": line + 1, "character": 0 }),
            _ => json!({ "line": line, "character": character + typed.encode_utf16().count() }),
        };
        let version = 2 * pair as u64 + 1;
        for (version, change) in [
            (
                version,
                json!({ "range": { "start": at, "end": at }, "text": typed }),
            ),
            (
                version + 1,
                json!({ "range": { "start": at, "end": end }, "text": "" }),
            ),
        ] {
            let (took, diagnostics) = client.changed(version, &change);
            times.push(took);
            told += diagnostics;
        }
    }
    let _ = client.child.kill();
    let _ = client.child.wait();
    times.sort_unstable();
    let at = |part: usize| times[(times.len() * part / 1000).min(times.len() - 1)];
    println!(
        "{} bytes, {} diagnostics when opened",
        text.len(),
        opened["params"]["diagnostics"].as_array().unwrap().len()
    );
    println!("{} changes, {told} diagnostics told", times.len());
    println!(
        "median {:?}, 99th percentile {:?}, longest {:?}",
        at(500),
        at(990),
        at(1000)
    );
}
