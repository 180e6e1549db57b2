//! What is answered of a text, request by request, word for word.
#![allow(clippy::indexing_slicing, clippy::unwrap_used, clippy::panic)]

mod shared;

use serde_json::{json, Value};
use shared::{capabilities, range, Client, URI};

/// A probe with one of everything, and characters of two and four bytes in front of what is asked for.
const PROBE: &str = "\
// The time of each 🔭 read.
// In ns.
map times {
    type: .hash;
    key: u32;
    value: u64;
    max: 1 << 10;
}
event sample {
    at: u64;
    motor: i32[3];
}
/* 0.1°
   steps */
unit on_read {
    section \"kprobe/read\";
    license \"GPL\";
    reg now = /* 🔭 */ ctx.get_pid_tgid();
    if guard (now) {
        times.update(0, now + 1);
    }
    return sample.times;
}
";

fn place(line: u64, character: u64) -> Value {
    json!({ "line": line, "character": character })
}

fn labels(items: &Value) -> Vec<&str> {
    let items = items.as_array().unwrap().iter();
    items.map(|item| item["label"].as_str().unwrap()).collect()
}

#[test]
fn diagnostics_have_places_notes_and_helps() {
    let mut client = Client::with(capabilities());
    client.open(
        "event e { a: u8; }\nevent e { }\nunit u {\n /*°*/ if (a) { }\n section \"xpd\";\n license \"GPL\";\n}\nunit v {\n",
    );
    let first = json!({ "location": { "uri": URI, "range": range(0, 6, 0, 7) },
        "message": "'e' is declared here first" });
    let open = json!({ "location": { "uri": URI, "range": range(7, 7, 7, 8) },
        "message": "this '{' is open" });
    let wanted = json!([
        { "range": range(0, 13, 0, 15), "severity": 1, "code": 30, "source": "spoonharbor",
          "message": "expected 'u32', 'u64', 'i32', 'i64' or 'bytes', found 'u8'\nhelp: did you mean 'u32'?" },
        { "range": range(1, 6, 1, 7), "severity": 2, "code": 106, "source": "spoonharbor",
          "message": "'e' is declared twice", "relatedInformation": [first] },
        { "range": range(3, 10, 3, 11), "severity": 1, "code": 21, "source": "spoonharbor",
          "message": "expected 'guard'; write: if guard (a) {" },
        { "range": range(7, 8, 7, 8), "severity": 1, "code": 21, "source": "spoonharbor",
          "message": "unit 'v' is not closed: expected '}'", "relatedInformation": [open] },
    ]);
    assert_eq!(client.published()["diagnostics"], wanted);
    let mut plain = Client::with(json!({}));
    plain.open("unit u { section \"xpd\"; license \"GPL\"; reg a = b 1; }\nevent u { }\nunit w {");
    let told = plain.published()["diagnostics"].clone();
    assert_eq!(
        told[0]["message"],
        "expected ';' after this\nnote: expected ';', '.' or an operator, found '1'"
    );
    assert_eq!(
        told[1]["message"],
        "'u' is declared twice\nnote: 'u' is declared here first"
    );
    assert_eq!(
        told[2]["message"],
        "unit 'w' is not closed: expected '}'\nnote: this '{' is open"
    );
    assert!(told
        .as_array()
        .unwrap()
        .iter()
        .all(|one| one.get("relatedInformation").is_none()));
}

#[test]
fn symbols_are_nested() {
    let mut client = Client::of(PROBE);
    let field = |name: &str, detail: &str, line: u64, end: u64| {
        json!({ "name": name, "detail": detail, "kind": 8, "range": range(line, 4, line, end),
            "selectionRange": range(line, 4, line, 4 + name.len() as u64), "children": [] })
    };
    let wanted = json!([
        { "name": "times", "detail": "hash, key u32, value u64, max 1024", "kind": 19,
          "range": range(2, 0, 7, 1), "selectionRange": range(2, 4, 2, 9), "children": [] },
        { "name": "sample", "detail": "", "kind": 23, "range": range(8, 0, 11, 1),
          "selectionRange": range(8, 6, 8, 12),
          "children": [field("at", "u64", 9, 12), field("motor", "i32[3]", 10, 18)] },
        { "name": "on_read", "detail": "kprobe", "kind": 12, "range": range(14, 0, 22, 1),
          "selectionRange": range(14, 5, 14, 12), "children": [
            { "name": "now", "detail": "reg", "kind": 13, "range": range(17, 4, 17, 42),
              "selectionRange": range(17, 8, 17, 11), "children": [] }] },
    ]);
    assert_eq!(client.about("documentSymbol", json!({})).unwrap(), wanted);
}

/// Without nesting, and of a text that is broken in every declaration.
#[test]
fn symbols_are_flat_for_older_clients_and_outlast_faults() {
    let mut client = Client::with(json!({}));
    client.open("map m { @\nevent e { a: u3\nunit { }\nunit u { reg a");
    let symbol = |name: &str, kind: u8, span: Value, container: Option<&str>| {
        json!({ "name": name, "kind": kind, "location": { "uri": URI, "range": span },
            "containerName": container })
    };
    let wanted = json!([
        symbol("m", 19, range(0, 0, 0, 7), None),
        symbol("e", 23, range(1, 0, 1, 15), None),
        symbol("a", 8, range(1, 10, 1, 15), Some("e")),
        symbol("u", 12, range(3, 0, 3, 14), None),
        symbol("a", 13, range(3, 9, 3, 14), Some("u")),
    ]);
    assert_eq!(client.about("documentSymbol", json!({})).unwrap(), wanted);
}

#[test]
fn braces_and_comments_fold() {
    let mut client = Client::of(PROBE);
    let fold = |first: u64, last: u64| json!({ "startLine": first, "endLine": last });
    let comment =
        |first: u64, last: u64| json!({ "startLine": first, "endLine": last, "kind": "comment" });
    let wanted = json!([
        comment(0, 1),
        fold(2, 6),
        fold(8, 10),
        comment(12, 13),
        fold(14, 21),
        fold(18, 19),
    ]);
    assert_eq!(client.about("foldingRange", json!({})).unwrap(), wanted);
}

#[test]
fn selections_grow_from_row_to_text() {
    let mut client = Client::of(PROBE);
    let positions = json!({ "positions": [place(19, 27), place(0, 3)] });
    let told = client.about("selectionRange", positions).unwrap();
    let mut spans = Vec::new();
    let mut one = &told[0];
    while one.is_object() {
        spans.push(one["range"].clone());
        one = &one["parent"];
    }
    let wanted = [
        range(19, 24, 19, 27), // now
        range(19, 24, 19, 31), // now + 1
        range(19, 8, 19, 32),  // the call
        range(19, 8, 19, 33),  // the statement
        range(18, 19, 20, 5),  // the body
        range(18, 4, 20, 5),   // the if
        range(14, 0, 22, 1),   // the unit
        range(0, 0, 23, 0),
    ];
    assert_eq!(spans, wanted);
    assert_eq!(told[1], json!({ "range": range(0, 0, 23, 0) }));
}

/// The tokens of an answer: line, character, length, type and modifiers of each.
fn tokens(data: &Value) -> Vec<[u64; 5]> {
    let numbers: Vec<u64> = data
        .as_array()
        .unwrap()
        .iter()
        .map(|one| one.as_u64().unwrap())
        .collect();
    let (mut line, mut character) = (0, 0);
    let mut tokens = Vec::new();
    for one in numbers.as_chunks::<5>().0 {
        character = if one[0] == 0 {
            character + one[1]
        } else {
            one[1]
        };
        line += one[0];
        tokens.push([line, character, one[2], one[3], one[4]]);
    }
    tokens
}

#[test]
fn tokens_are_told_whole_and_by_what_changed() {
    let text = "/* 🔭\n ° */ map m { type: .hash; max: 8; }\nevent e { a: bytes[2]; }\nunit u { imm x = m.get(e.a) + -1; section \"°\"; }";
    let mut client = Client::of(text);
    let full = client.about("semanticTokens/full", json!({})).unwrap();
    let wanted = [
        [0, 0, 5, 0, 0],
        [1, 0, 5, 0, 0],
        [1, 6, 3, 1, 0],
        [1, 10, 1, 11, 1],
        [1, 14, 4, 1, 0],
        [1, 21, 4, 12, 0],
        [1, 27, 3, 1, 0],
        [1, 32, 1, 4, 0],
        [2, 0, 5, 1, 0],
        [2, 6, 1, 10, 1],
        [2, 10, 1, 8, 1],
        [2, 13, 5, 2, 0],
        [2, 19, 1, 4, 0],
        [3, 0, 4, 1, 0],
        [3, 5, 1, 9, 1],
        [3, 9, 3, 1, 0],
        [3, 13, 1, 6, 1],
        [3, 15, 1, 5, 0],
        [3, 17, 1, 11, 0],
        [3, 19, 3, 7, 0],
        [3, 23, 1, 10, 0],
        [3, 25, 1, 8, 0],
        [3, 28, 1, 5, 0],
        [3, 30, 2, 4, 0],
        [3, 34, 7, 1, 0],
        [3, 42, 3, 3, 0],
    ];
    assert_eq!(tokens(&full["data"]), wanted);
    assert_eq!(full["resultId"], "1");
    // A name that is written longer, and the token behind it that moves.
    client.change(2, json!([{ "range": range(2, 10, 2, 11), "text": "abc" }]));
    let since = json!({ "previousResultId": "1" });
    let delta = client.about("semanticTokens/full/delta", since).unwrap();
    assert_eq!(
        delta,
        json!({ "resultId": "2",
        "edits": [{ "start": 52, "deleteCount": 5, "data": [3, 8, 1, 0, 5] }] })
    );
    let since = json!({ "previousResultId": "2" });
    let none = client.about("semanticTokens/full/delta", since).unwrap();
    assert_eq!(none, json!({ "resultId": "3", "edits": [] }));
    let since = json!({ "previousResultId": "1" });
    let all = client.about("semanticTokens/full/delta", since).unwrap();
    let full = client.about("semanticTokens/full", json!({})).unwrap();
    assert_eq!(
        (&all["data"], &all["resultId"]),
        (&full["data"], &json!("4"))
    );
}

#[test]
fn hovers_say_sizes_kinds_and_meanings() {
    let mut client = Client::of(PROBE);
    let said = |client: &mut Client, line: u64, character: u64| {
        let told = client.at("hover", line, character);
        (
            told["contents"]["value"].as_str().map(str::to_string),
            told["range"].clone(),
        )
    };
    let times = "**map times**\n\n`hash`, `u32` to `u64`: 1,024 entries of 4 + 8 bytes, 12,288 bytes in all";
    assert_eq!(
        said(&mut client, 2, 4),
        (Some(times.to_string()), range(2, 4, 2, 9))
    );
    assert_eq!(
        said(&mut client, 19, 13),
        (Some(times.to_string()), range(19, 8, 19, 13))
    );
    let sample = "**event sample**\n\n2 fields, 20 bytes together";
    assert_eq!(said(&mut client, 21, 11).0.unwrap(), sample);
    let unit = "**unit on_read**\n\nkind `kprobe`, which allows of `ctx`: `load_u64`, `get_pid_tgid`, `get_uid_gid`, \
        `probe_read_user_str`, `probe_read_kernel_str`";
    assert_eq!(said(&mut client, 14, 6).0.unwrap(), unit);
    let method = "**ctx.get_pid_tgid**\n\nallowed in units of kind `kprobe`, `tracepoint`";
    assert_eq!(said(&mut client, 17, 30).0.unwrap(), method);
    for (line, character) in [(0, 3), (21, 18), (22, 1), (99, 0)] {
        assert_eq!(client.at("hover", line, character), Value::Null);
    }
    let mut client = Client::with(json!({}));
    client.open("map r { type: .ringbuf; max: 1 << 12; }\nunit u { x = 0x; }");
    let told = client.at("hover", 0, 4);
    assert_eq!(
        told["contents"],
        json!({ "kind": "plaintext", "value": "map r\n\nringbuf of 4,096 bytes" })
    );
    let told = client.at("hover", 1, 14);
    let wanted = "error[17]: expected a hex digit behind '0x'\n\nA hex number is 0x and at least one of 0 to 9, a to f, A to F.\n\n\
        refused: unit u { x = 0x; }\nfine: unit u { x = 0x0; }\n\nproved: the library refuses the text with 17 at 2:16";
    assert_eq!(told["contents"]["value"], wanted);
}

#[test]
fn what_fits_is_completed() {
    let head =
        "map times { type: .hash; key: u32; value: u64; max: 8; }\nevent sample { at: u64; }\n";
    let cases: [(&str, &[&str]); 19] = [
        ("", &["unit", "map", "event"]),
        ("ma", &["unit", "map", "event"]),
        ("junk ", &["unit", "map", "event"]),
        ("map m { ", &["type", "key", "value", "max", "}"]),
        (
            "map m { type: .",
            &["hash", "array", "ringbuf", "lru_hash", "prog_array"],
        ),
        (
            "map m { type: .hash; max 5; key: ",
            &["u32", "u64", "i32", "i64"],
        ),
        ("event e { a: u", &["u32", "u64", "i32", "i64", "bytes"]),
        ("event e { ", &["}"]),
        ("unit ", &[]),
        ("unit u { section ", &[]),
        ("unit u { if ", &["guard"]),
        (
            "unit u { reg now = 1; if guard (",
            &["ctx", "now", "sample", "times"],
        ),
        (
            "unit u { reg a = 1; x = a",
            &["a", "ctx", "sample", "times", "(", "*"],
        ),
        (
            "unit u { x = a ",
            &[".", ";", "+", "-", "*", "/", "%", ">>", "<<"],
        ),
        (
            "unit u { x @ 1; y = ( ",
            &["ctx", "sample", "times", "(", "*"],
        ),
        ("unit u { x = ctx.", &[]),
        ("unit u { x = times.", &["at"]),
        ("unit u { // x = ", &[]),
        ("unit u { x = 0x1", &[]),
    ];
    for (text, wanted) in cases {
        let mut client = Client::of(&format!("{head}{text}"));
        let told = client.at("completion", 2, 99);
        let mut found = labels(&told);
        let mut wanted = wanted.to_vec();
        if text.ends_with("x = a ") {
            found.sort_unstable();
            wanted.sort_unstable();
        }
        assert_eq!(found, wanted, "{text}");
    }
}

#[test]
fn statements_and_methods_are_completed() {
    let mut client = Client::of(
        "unit u { section \"xdp\"; y = ctx.lo }\nunit v { if guard (a) { } }\nunit w { /* ° ",
    );
    let told = client.at("completion", 0, 34);
    let methods = [
        "load_u8", "load_u16", "load_u32", "load_u64", "load_i8", "load_i16", "load_i32",
        "load_i64",
    ];
    assert_eq!(labels(&told), methods);
    assert_eq!(
        told[0],
        json!({ "label": "load_u8", "kind": 2, "detail": "in xdp units", "sortText": "aload_u8" })
    );
    let told = client.at("completion", 1, 24);
    assert_eq!(
        labels(&told),
        ["ctx", "return", "reg", "imm", "if", "heap", "}", "(", "*"]
    );
    let told = client.at("completion", 1, 26);
    let behind = [
        "ctx", "section", "license", "return", "reg", "imm", "if", "else", "heap", "}", "(", "*",
    ];
    assert_eq!(labels(&told), behind);
    assert_eq!(client.at("completion", 2, 12), json!([]));
}

#[test]
fn maps_and_events_are_found_by_name() {
    let mut client = Client::of(PROBE);
    let at =
        |line, character, end| json!({ "uri": URI, "range": range(line, character, line, end) });
    let (declared, used) = (at(2, 4, 9), at(19, 8, 13));
    for (line, character) in [(19, 8), (19, 13), (2, 6)] {
        assert_eq!(client.at("definition", line, character), json!([declared]));
    }
    assert_eq!(client.at("definition", 21, 12), json!([at(8, 6, 12)]));
    for (line, character) in [(21, 20), (17, 8), (14, 6), (0, 0), (19, 24)] {
        assert_eq!(
            client.at("definition", line, character),
            json!([]),
            "{line}:{character}"
        );
    }
    let asked =
        |with: bool| json!({ "position": place(2, 4), "context": { "includeDeclaration": with } });
    assert_eq!(
        client.about("references", asked(true)).unwrap(),
        json!([declared, used])
    );
    assert_eq!(
        client.about("references", asked(false)).unwrap(),
        json!([used])
    );
}

#[test]
fn a_map_is_renamed_everywhere() {
    let mut client = Client::of(PROBE);
    let told = client.at("prepareRename", 19, 9);
    assert_eq!(
        told,
        json!({ "range": range(19, 8, 19, 13), "placeholder": "times" })
    );
    assert_eq!(client.at("prepareRename", 17, 8), Value::Null);
    let asked = |name: &str| json!({ "position": place(19, 9), "newName": name });
    let edit = |line, character, end| json!({ "range": range(line, character, line, end), "newText": "read_times" });
    let told = client.about("rename", asked("read_times")).unwrap();
    assert_eq!(
        told,
        json!({ "changes": { URI: [edit(2, 4, 9), edit(19, 8, 13)] } })
    );
    for (name, words) in [
        ("map", "'map' is no name"),
        ("2nd", "'2nd' is no name"),
        ("zeit°", "'zeit°' is no name"),
        ("sample", "'sample' is a name already"),
        ("now", "'now' is a name already"),
    ] {
        let refused = client.about("rename", asked(name)).unwrap_err();
        assert_eq!(refused, json!({ "code": -32803, "message": words }));
    }
    let own = json!({ "position": place(17, 8), "newName": "a" });
    assert_eq!(client.about("rename", own).unwrap_err()["code"], -32803);
}

/// Each help that is an edit, made: the text is then the one that stands behind it, and the fault is gone.
#[test]
fn helps_that_are_edits_are_made() {
    let cases = [
        (
            "unit u { if (a) { } }",
            "write if guard (a)",
            "unit u { if guard (a) { } }",
        ),
        (
            "unit u { if guard a { } }",
            "write if guard (a)",
            "unit u { if guard (a) { } }",
        ),
        (
            "unit u { section \u{201c}xdp\u{201d}; }",
            "write \"xdp\"",
            "unit u { section \"xdp\"; }",
        ),
        (
            "unit u { section \"xdp\u{201d}; }",
            "write \"",
            "unit u { section \"xdp\"; }",
        ),
        (
            "unit u { a -= 1; }",
            "write a = a - 1",
            "unit u { a = a - 1; }",
        ),
        (
            "unit u { a.b *= c + 1; }",
            "write a.b = a.b * (c + 1)",
            "unit u { a.b = a.b * (c + 1); }",
        ),
        (
            "unit u { a--; }",
            "write a = a - 1",
            "unit u { a = a - 1; }",
        ),
        ("unit u { a++; }", "write a += 1", "unit u { a += 1; }"),
        (
            "unit u { /*🔭*/ x = 1 }",
            "add ';'",
            "unit u { /*🔭*/ x = 1; }",
        ),
        (
            "unit u { let x = 1; }",
            "write reg",
            "unit u { reg x = 1; }",
        ),
        ("unit u { x = a −1; }", "write -", "unit u { x = a -1; }"),
        ("unit u { x = a -1; }", "write - 1", "unit u { x = a - 1; }"),
        ("event e { a: int; }", "write i32", "event e { a: i32; }"),
        (
            "unit u { x =\u{a0}1; }",
            "write an ordinary blank",
            "unit u { x = 1; }",
        ),
        ("unit u { x = (a)); }", "delete this", "unit u { x = (a); }"),
        (
            "unit u { x = load_u64(0); }",
            "write ctx.load_u64",
            "unit u { x = ctx.load_u64(0); }",
        ),
    ];
    for (text, title, wanted) in cases {
        let mut client = Client::of(text);
        let all = json!({ "range": range(0, 0, 0, 99), "context": { "diagnostics": [] } });
        let told = client.about("codeAction", all).unwrap();
        assert_eq!(
            (&told[0]["title"], &told[0]["kind"]),
            (&json!(title), &json!("quickfix")),
            "{text}"
        );
        let fault = told[0]["diagnostics"][0].clone();
        let edit = told[0]["edit"]["changes"][URI][0].clone();
        client.change(
            2,
            json!([{ "range": edit["range"], "text": edit["newText"] }]),
        );
        let rows = client.request(
            "spoonharbor/rows",
            json!({ "textDocument": { "uri": URI } }),
        );
        assert_eq!(rows.unwrap()["text"], wanted);
        let left = client.published()["diagnostics"].clone();
        let is_left = |one: &Value| one["message"] == fault["message"];
        assert!(
            !left.as_array().unwrap().iter().any(is_left),
            "{text}: {left}"
        );
    }
}

#[test]
fn edits_are_told_where_they_are_asked_for() {
    let mut client = Client::of("unit u {\n a -= 1;\n}\nunit v {\n b -= 1;\n}");
    let mut titles = |span: Value, only: Value| {
        let asked = json!({ "range": span, "context": { "diagnostics": [], "only": only } });
        let told = client.about("codeAction", asked).unwrap();
        let all = told.as_array().unwrap().iter();
        all.map(|one| one["title"].as_str().unwrap().to_string())
            .collect::<Vec<String>>()
    };
    assert_eq!(titles(range(1, 3, 1, 3), Value::Null), ["write a = a - 1"]);
    assert_eq!(
        titles(range(4, 4, 4, 4), json!(["quickfix"])),
        ["write b = b - 1"]
    );
    assert_eq!(titles(range(0, 0, 9, 0), Value::Null).len(), 2);
    assert_eq!(titles(range(1, 0, 1, 1), Value::Null), [""; 0]);
    assert_eq!(titles(range(0, 0, 9, 0), json!(["refactor"])), [""; 0]);
}

/// The one layout, where no comment would be lost; else the reason is shown and nothing is changed.
#[test]
fn a_program_is_laid_out_unless_a_comment_would_be_lost() {
    let mut client = Client::of("unit u{x=(1)+0x10;section \"°\";\n\n}");
    let options = json!({ "options": { "tabSize": 4, "insertSpaces": true } });
    let told = client.about("formatting", options.clone()).unwrap();
    let laid = "unit u {\nx = 1 + 16 ;\nsection \"°\" ;\n}\n";
    let edit = told[0].clone();
    assert_eq!(told.as_array().unwrap().len(), 1);
    client.change(
        2,
        json!([{ "range": edit["range"], "text": edit["newText"] }]),
    );
    let rows = client.request(
        "spoonharbor/rows",
        json!({ "textDocument": { "uri": URI } }),
    );
    assert_eq!(rows.unwrap()["text"], laid);
    assert_eq!(
        client.about("formatting", options.clone()).unwrap(),
        json!([])
    );
    for (text, words) in [
        ("// °\nunit u {}", "not laid out: 1 comment would be lost"),
        ("/**//**/unit u {} //", "not laid out: 3 comments would be lost"),
        ("unit u {", "not laid out: 1:9: expected a statement, 'section', 'license' or '}', found end of file"),
        ("@", "not laid out: 1:1: nothing can begin here"),
    ] {
        let mut client = Client::of(text);
        assert_eq!(client.about("formatting", options.clone()).unwrap(), Value::Null);
        let shown = client.told();
        assert_eq!(shown["method"], "window/showMessage");
        assert_eq!(shown["params"], json!({ "type": 2, "message": words }));
    }
}
