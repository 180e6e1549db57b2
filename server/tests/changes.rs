//! Ten thousand random changes in UTF-16, and then in UTF-8: after each, the server's text and rows are those of a
//! fresh reading.
//!
//! The text is held here a second time, by units and without the server's lines, and read afresh by the library.
#![allow(
    clippy::indexing_slicing,
    clippy::panic,
    clippy::string_slice,
    clippy::unwrap_used
)]

mod shared;

use serde_json::{json, Value};
use shared::{Client, URI};
use spoonharbor::Document;

const CHANGES: usize = 10_000;

/// A generator of numbers: Marsaglia's xorshift.
struct Random(u64);

impl Random {
    fn below(&mut self, bound: usize) -> usize {
        self.0 ^= self.0 << 13;
        self.0 ^= self.0 >> 7;
        self.0 ^= self.0 << 17;
        (self.0 % bound as u64) as usize
    }
}

/// What is put in: rows and parts of rows, blanks, ends of lines, and characters of one to four bytes.
const PIECES: [&str; 40] = [
    "unit u {",
    "}",
    "map m { type: .hash; key: u32;",
    " value: u64; max: 1 << 4; }",
    "event e { a: bytes[2]; }",
    "section \"kprobe/°\";",
    "license \"GPL\";",
    "reg x = ctx.load_u64(0);",
    "if guard (x) {",
    "} else {",
    "return 0;",
    "a += 1;",
    "-",
    "1",
    "0x",
    "0xff",
    "\"",
    "\\",
    "/",
    "*",
    "//",
    "/*",
    "*/",
    "<",
    "@",
    "\n",
    "\n",
    "\r\n",
    "\r",
    "\t",
    " ",
    "°",
    "α",
    "é",
    "角",
    "€",
    "\u{feff}",
    "🔭",
    "😀",
    "𝄞",
];

/// A text in units, as a client counts them.
struct Model {
    text: String,
    is_utf8: bool,
}

impl Model {
    /// The lines' texts without their ends, each with the offset at which it begins.
    fn lines(&self) -> Vec<(usize, &str)> {
        let mut lines = Vec::new();
        let mut start = 0;
        let mut letters = self.text.char_indices().peekable();
        while let Some((at, letter)) = letters.next() {
            if letter != '\n' && letter != '\r' {
                continue;
            }
            lines.push((start, &self.text[start..at]));
            start = at + 1;
            if letter == '\r' && letters.peek().is_some_and(|(_, next)| *next == '\n') {
                letters.next();
                start += 1;
            }
        }
        lines.push((start, &self.text[start..]));
        lines
    }

    fn units(&self, text: &str) -> usize {
        match self.is_utf8 {
            true => text.len(),
            false => text.encode_utf16().count(),
        }
    }

    /// A place of the text between two characters and not inside CR LF: its offset, line and unit.
    fn place(&self, random: &mut Random) -> (usize, usize, usize) {
        let lines = self.lines();
        let line = random.below(lines.len());
        let (start, text) = lines[line];
        let edges: Vec<usize> = text
            .char_indices()
            .map(|(at, _)| at)
            .chain([text.len()])
            .collect();
        let edge = edges[random.below(edges.len())];
        (start + edge, line, self.units(&text[..edge]))
    }

    /// Changes the text, and says the change as a client does.
    fn change(&mut self, random: &mut Random) -> Value {
        if random.below(400) == 0 {
            self.text = PIECES[random.below(PIECES.len())].repeat(random.below(4));
            return json!({ "text": self.text });
        }
        let (mut from, mut to) = (self.place(random), self.place(random));
        // Most changes are small, as those of someone who types.
        if random.below(8) != 0 {
            to = from;
            if random.below(3) == 0 && !self.text[from.0..].is_empty() {
                let next = self.text[from.0..].chars().next().unwrap();
                if next != '\r' && next != '\n' {
                    let end = from.0 + next.len_utf8();
                    to = (end, from.1, from.2 + self.units(&self.text[from.0..end]));
                }
            }
        }
        if to.0 < from.0 {
            std::mem::swap(&mut from, &mut to);
        }
        let grows = self.text.len() < 3000;
        let mut new = String::new();
        for _ in 0..random.below(if grows { 4 } else { 2 }) {
            new += PIECES[random.below(PIECES.len())];
        }
        self.text.replace_range(from.0..to.0, &new);
        json!({
            "range": { "start": { "line": from.1, "character": from.2 }, "end": { "line": to.1, "character": to.2 } },
            "text": new,
        })
    }
}

/// What the request `spoonharbor/rows` has to tell of a text.
fn fresh(text: &str) -> Value {
    let document = Document::open(text).unwrap();
    let rows = document.rows().map(|row| {
        json!([
            row.kind.number(),
            row.start,
            row.end,
            row.line,
            row.column,
            row.value,
            row.comments
        ])
    });
    let rows: Vec<Value> = rows.collect();
    let refusal = document
        .refusal()
        .map(|one| json!([one.number(), one.place.offset]));
    json!({ "text": text, "rows": rows, "refusal": refusal })
}

/// Changes, each followed by a request for text and rows; every twentieth time all other requests are made too, and
/// are answered.
fn run(is_utf8: bool, seed: u64) {
    let offers = if is_utf8 {
        json!(["utf-8"])
    } else {
        json!(["utf-16"])
    };
    let mut client = Client::with(json!({ "general": { "positionEncodings": offers } }));
    let mut random = Random(seed);
    let mut model = Model {
        text: String::new(),
        is_utf8,
    };
    client.open("");
    let (mut made, mut refused, mut wide) = (0, 0, 0);
    let mut version = 1;
    while made < CHANGES {
        let changes: Vec<Value> = (0..=random.below(3))
            .map(|_| model.change(&mut random))
            .collect();
        made += changes.len();
        version += 1;
        client.change(version, Value::Array(changes));
        let told = client.request(
            "spoonharbor/rows",
            json!({ "textDocument": { "uri": URI } }),
        );
        let wanted = fresh(&model.text);
        assert_eq!(told.unwrap(), wanted, "after {made} changes");
        refused += usize::from(!wanted["refusal"].is_null());
        wide += usize::from(model.text.chars().any(|letter| letter.len_utf8() == 4));
        if version % 20 == 0 {
            ask_all(&mut client, &model, &mut random);
        }
    }
    assert!(
        refused > 500 && wide > 1000,
        "{refused} texts refused, {wide} with wide characters"
    );
    assert_eq!(
        client.request("shutdown", Value::Null).unwrap(),
        Value::Null
    );
    client.notify("exit", Value::Null);
    let (_, status, complaints) = client.ended();
    assert_eq!((status, complaints.as_str()), (0, ""));
}

fn ask_all(client: &mut Client, model: &Model, random: &mut Random) {
    let (_, line, character) = model.place(random);
    let position = json!({ "line": line, "character": character });
    let span = json!({ "start": position, "end": position });
    let more = json!({ "position": position, "positions": [position], "range": span, "newName": "fresh_name",
        "previousResultId": "1", "context": { "includeDeclaration": true } });
    for method in [
        "documentSymbol",
        "foldingRange",
        "selectionRange",
        "semanticTokens/full",
        "semanticTokens/full/delta",
        "hover",
        "completion",
        "definition",
        "references",
        "prepareRename",
        "codeAction",
        "formatting",
    ] {
        assert!(client.about(method, more.clone()).is_ok(), "{method}");
    }
    // Most places have no name that could be changed.
    if let Err(refused) = client.about("rename", more) {
        assert_eq!(refused["code"], -32803);
    }
}

#[test]
fn changes_in_utf16_give_what_a_fresh_reading_gives() {
    run(false, 0x9e37_79b9_7f4a_7c15);
}

#[test]
fn changes_in_utf8_give_what_a_fresh_reading_gives() {
    run(true, 0x2545_f491_4f6c_dd1d);
}
