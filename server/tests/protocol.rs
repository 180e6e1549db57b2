//! The protocol's own rules: beginnings and ends, ids, what is malformed, what is cancelled, and clients that go.
#![allow(clippy::indexing_slicing, clippy::unwrap_used, clippy::panic)]

mod shared;

use serde_json::{json, Value};
use shared::{capabilities, range, Client, URI};
use std::io::Write;

#[test]
fn a_server_begins_and_ends_in_order() {
    let mut client = Client::start();
    let early = client.request("textDocument/hover", json!({})).unwrap_err();
    assert_eq!(
        early,
        json!({ "code": -32002, "message": "initialize comes first" })
    );
    client.open("@");
    let params = json!({ "capabilities": capabilities() });
    let begun = client.request("initialize", params.clone()).unwrap();
    assert_eq!(begun["serverInfo"]["name"], "spoonharbor-lsp");
    let number = spoonharbor::VERSION;
    let version = format!("{}.{}.{}", number >> 16, number >> 8 & 255, number & 255);
    assert_eq!(begun["serverInfo"]["version"], version);
    let can = &begun["capabilities"];
    assert_eq!(can["positionEncoding"], "utf-16");
    assert_eq!(
        can["textDocumentSync"],
        json!({ "openClose": true, "change": 2 })
    );
    let again = client.request("initialize", params).unwrap_err();
    assert_eq!(again["code"], -32600);
    let unopened = client.about("hover", json!({})).unwrap_err();
    assert_eq!(
        unopened,
        json!({ "code": -32602, "message": "file:///t.snx is not open" })
    );
    let unknown = client.request("workspace/symbol", json!({})).unwrap_err();
    assert_eq!(
        unknown,
        json!({ "code": -32601, "message": "there is no request workspace/symbol" })
    );
    assert_eq!(
        client.request("shutdown", Value::Null).unwrap(),
        Value::Null
    );
    let late = client.about("hover", json!({})).unwrap_err();
    assert_eq!(
        late,
        json!({ "code": -32600, "message": "the server is shut down" })
    );
    client.notify("exit", Value::Null);
    assert_eq!(client.ended(), (vec![], 0, String::new()));
}

#[test]
fn the_status_says_whether_the_end_was_announced() {
    let mut client = Client::with(capabilities());
    client.notify("exit", Value::Null);
    assert_eq!(client.ended().1, 1);
    let client = Client::with(capabilities());
    assert_eq!(client.ended(), (vec![], 1, String::new()));
    let mut client = Client::with(capabilities());
    client.request("shutdown", Value::Null).unwrap();
    assert_eq!(client.ended().1, 0);
    let mut client = Client::start();
    client.notify("exit", Value::Null);
    assert_eq!(client.ended().1, 1);
}

/// Each malformed message has its answer, and the next request is answered.
#[test]
fn what_is_malformed_is_answered() {
    let mut client = Client::of("unit u { }");
    let cases = [
        ("{\"id\":", Value::Null, -32700),
        ("", Value::Null, -32700),
        ("[]", Value::Null, -32600),
        ("\"hover\"", Value::Null, -32600),
        ("{\"id\":7}", json!(7), -32600),
        ("{\"id\":\"x\",\"method\":1}", json!("x"), -32600),
        ("{\"id\":{},\"method\":\"m\"}", Value::Null, -32600),
        ("{\"id\":9,\"method\":\"m\"}", json!(9), -32601),
        (
            "{\"id\":-3,\"method\":\"textDocument/hover\"}",
            json!(-3),
            -32602,
        ),
        (
            "{\"id\":\"\",\"method\":\"textDocument/hover\",\"params\":[1,2]}",
            json!(""),
            -32602,
        ),
    ];
    for (body, id, code) in cases {
        client.send_body(body);
        let answer = client.read().unwrap();
        assert_eq!(
            (&answer["id"], &answer["error"]["code"]),
            (&id, &json!(code)),
            "{body}"
        );
        assert!(answer["error"]["message"].is_string());
    }
    client.send_body("{\"id\":1,\"result\":null}");
    client.notify("$/unknown", json!({}));
    client.notify("textDocument/unknown", json!({}));
    assert!(client.at("hover", 0, 5)["contents"].is_object());
}

/// Parameters of every shape to every request: an answer each time.
#[test]
fn parameters_of_any_shape_are_answered() {
    let mut client = Client::of("map m { type: .ringbuf; max: 8; }\nunit u { m.a(); }");
    let document = json!({ "uri": URI });
    let shapes = [
        Value::Null,
        json!([]),
        json!({}),
        json!({ "textDocument": 3 }),
        json!({ "textDocument": document }),
        json!({ "textDocument": document, "position": {}, "range": {}, "positions": {}, "newName": 3 }),
        json!({ "textDocument": document, "position": { "line": -1, "character": 0 } }),
        json!({ "textDocument": document, "position": { "line": 1.5, "character": "a" } }),
        json!({ "textDocument": document, "position": { "line": u64::MAX, "character": u64::MAX },
            "positions": [{ "line": u64::MAX, "character": 0 }], "newName": "\u{0}",
            "range": range(u64::MAX, 0, 0, u64::MAX), "previousResultId": "", "context": 1 }),
    ];
    let methods = [
        "documentSymbol",
        "foldingRange",
        "selectionRange",
        "semanticTokens/full",
        "semanticTokens/full/delta",
        "hover",
        "completion",
        "definition",
        "references",
        "prepareRename",
        "rename",
        "codeAction",
        "formatting",
    ];
    for method in methods {
        for shape in &shapes {
            let method = format!("textDocument/{method}");
            let id = client.ask(&method, shape.clone());
            let answer = client.read().unwrap();
            assert_eq!(answer["id"], id);
            let code = &answer["error"]["code"];
            assert!(
                code.is_null() || code == -32602 || code == -32803,
                "{method} {shape}: {answer}"
            );
        }
    }
    for shape in shapes {
        for method in ["didOpen", "didChange", "didClose"] {
            client.notify(&format!("textDocument/{method}"), shape.clone());
        }
    }
    assert_eq!(
        client.request("shutdown", Value::Null).unwrap(),
        Value::Null
    );
}

/// A change that cannot be made leaves the text as it was and is logged.
#[test]
fn a_change_that_cannot_be_made_is_logged() {
    let mut client = Client::of("unit u { }");
    client.change(2, json!([{ "range": range(0, 5, 0, 2), "text": "x" }]));
    let none = json!({ "textDocument": { "uri": "file:///none" } });
    client.notify("textDocument/didChange", none);
    let rows = client.request(
        "spoonharbor/rows",
        json!({ "textDocument": { "uri": URI } }),
    );
    assert_eq!(rows.unwrap()["text"], "unit u { }");
    client.request("shutdown", Value::Null).unwrap();
    let told = client.ended().0;
    let logged: Vec<&str> = told
        .iter()
        .filter(|one| one["method"] == "window/logMessage" && one["params"]["type"] == 1)
        .map(|one| one["params"]["message"].as_str().unwrap())
        .collect();
    let words = |words: &str| {
        format!("textDocument/didChange: {{\"code\":-32602,\"message\":\"{words}\"}}")
    };
    assert_eq!(
        logged,
        [
            words("a change is not made: 1:1: the edit does not fit the text"),
            words("file:///none is not open")
        ]
    );
}

#[test]
fn a_stream_that_is_no_stream_ends_the_server() {
    for (bytes, complaint) in [
        ("GET / HTTP/1.1\r\n\r\n", "a header's line has no ':'"),
        ("Content-Length: x\r\n\r\n", "a Content-Length is no number"),
        (
            "Content-Length: 99999999999999\r\n\r\n",
            "a message is longer than 64 MiB",
        ),
        (
            "Content-Length: 50\r\n\r\n{\"id\":1,",
            "the input ends inside a message",
        ),
        ("Content-Le", "a header's line does not end"),
    ] {
        let mut client = Client::with(capabilities());
        client.send_bytes(bytes.as_bytes());
        let (told, status, complaints) = client.ended();
        assert_eq!((told, status), (vec![], 1));
        assert_eq!(complaints, format!("spoonharbor-lsp: {complaint}\n"));
    }
}

/// A client that reads no more: the server ends by itself, though its input is open.
#[test]
fn a_client_that_reads_no_more_ends_the_server() {
    let (mut child, mut input) = Client::of("unit u { }").close_output();
    let body = json!({ "id": 1, "method": "textDocument/foldingRange",
        "params": { "textDocument": { "uri": URI } } });
    let body = body.to_string();
    let message = format!("Content-Length: {}\r\n\r\n{body}", body.len());
    while child.try_wait().unwrap().is_none() {
        let _ = input.write_all(message.as_bytes());
    }
    assert_eq!(child.wait().unwrap().code(), Some(1));
}

/// Requests that are cancelled before their turn are answered so, and no other is. All come in one write.
#[test]
fn requests_are_cancelled_before_their_turn() {
    let mut client = Client::with(capabilities());
    let text = "unit u { x = 1; }\n".repeat(3000);
    let framed = |message: Value| {
        let body = message.to_string();
        format!("Content-Length: {}\r\n\r\n{body}", body.len())
    };
    let mut bytes = framed(json!({ "method": "textDocument/didOpen", "params": {
        "textDocument": { "uri": URI, "version": 1, "languageId": "solnix", "text": text } } }));
    let params = json!({ "textDocument": { "uri": URI } });
    for id in 100..110 {
        bytes += &framed(
            json!({ "id": id, "method": "textDocument/semanticTokens/full", "params": params }),
        );
    }
    for id in [105, 107, 4000] {
        bytes += &framed(json!({ "method": "$/cancelRequest", "params": { "id": id } }));
    }
    client.send_bytes(bytes.as_bytes());
    // The first answer does not fit its pipe, so the server waits there until it is read; by then all has come.
    std::thread::sleep(std::time::Duration::from_millis(500));
    let mut answers = Vec::new();
    while answers.len() < 10 {
        let message = client.read().unwrap();
        if message.get("id").is_some() {
            answers.push((
                message["id"].as_u64().unwrap(),
                message["error"]["code"].as_i64(),
            ));
        }
    }
    let wanted: Vec<(u64, Option<i64>)> = (100..110)
        .map(|id| (id, [105, 107].contains(&id).then_some(-32800)))
        .collect();
    assert_eq!(answers, wanted);
}

#[test]
fn bytes_are_counted_where_the_client_offers_it() {
    for (offers, encoding, end) in [
        (json!(["utf-16", "utf-8"]), "utf-8", 13),
        (json!(["utf-16"]), "utf-16", 10),
        (json!(["utf-32"]), "utf-16", 10),
    ] {
        let mut client = Client::start();
        let params = json!({ "capabilities": { "general": { "positionEncodings": offers } } });
        let begun = client.request("initialize", params).unwrap();
        assert_eq!(begun["capabilities"]["positionEncoding"], encoding);
        client.open("/* 🔭° */ @");
        let told = client.published();
        assert_eq!(told["diagnostics"][0]["range"], range(0, end, 0, end + 1));
        client.change(
            2,
            json!([{ "range": range(0, end, 0, end + 1), "text": "" }]),
        );
        assert_eq!(
            client.published(),
            json!({ "uri": URI, "version": 2, "diagnostics": [] })
        );
    }
}

#[test]
fn a_text_that_is_too_long_is_told_and_read_once_it_is_shorter() {
    let mut client = Client::with(capabilities());
    let long = "// 0123456789\n".repeat(5000);
    client.open(&long);
    let told = client.published();
    let wanted = json!([{ "range": range(0, 0, 0, 0), "severity": 1, "code": 1,
        "source": "spoonharbor", "message": "the text is longer than 65,536 bytes" }]);
    assert_eq!(told["diagnostics"], wanted);
    for method in ["documentSymbol", "foldingRange"] {
        assert_eq!(client.about(method, json!({})).unwrap(), json!([]));
    }
    assert_eq!(client.at("hover", 9, 0), Value::Null);
    assert_eq!(client.at("completion", 4999, 0), json!([]));
    client.change(
        2,
        json!([{ "range": range(1, 0, 4999, 0), "text": "unit u {" }]),
    );
    let told = client.published();
    assert_eq!(told["diagnostics"][0]["code"], 21);
    assert_eq!(
        told["diagnostics"][0]["message"],
        "unit 'u' is not closed: expected '}'"
    );
}

#[test]
fn texts_are_opened_closed_and_opened_again() {
    let mut client = Client::of("@");
    client.notify(
        "textDocument/didClose",
        json!({ "textDocument": { "uri": URI } }),
    );
    assert_eq!(client.published(), json!({ "uri": URI, "diagnostics": [] }));
    assert_eq!(
        client.about("hover", json!({})).unwrap_err()["code"],
        -32602
    );
    client.open("");
    assert_eq!(client.published()["diagnostics"], json!([]));
    client.change(
        5,
        json!([{ "text": "unit u { }" }, { "range": range(0, 5, 0, 6), "text": "°" }]),
    );
    let told = client.published();
    assert_eq!(
        (&told["version"], &told["diagnostics"][0]["code"]),
        (&json!(5), &json!(11))
    );
}

#[test]
fn settings_are_heard() {
    let text = "map m { type: .ringbuf; max: 8; }";
    let mut client = Client::start();
    let params = json!({ "capabilities": {}, "initializationOptions": { "style": true } });
    client.request("initialize", params).unwrap();
    client.open(text);
    let told = client.published()["diagnostics"].clone();
    assert_eq!(told[0]["message"], "map 'm' has no comment above it");
    assert_eq!(
        (&told[0]["code"], &told[0]["severity"]),
        (&json!(108), &json!(2))
    );
    let settings = json!({ "settings": { "spoonharbor": { "style": false } } });
    client.notify("workspace/didChangeConfiguration", settings);
    assert_eq!(client.published()["diagnostics"], json!([]));
}

/// Texts that are as deep, as wide or as full of names as a text can be: each request is answered.
#[test]
fn texts_at_their_limits_are_answered() {
    let sum = format!("unit u {{ x = a{}; }}", "+a".repeat(32_000));
    let stars = format!("unit u {{ x = {}a; }}", "*".repeat(60_000));
    let groups = format!("unit u {{ x = {}", "(".repeat(60_000));
    let braces = "{".repeat(60_000);
    let names = "event e {} unit u { e; }".repeat(2_700);
    let signs = "@ ".repeat(30_000);
    let wide = format!("/*{}*/ unit u {{ x = 1; }}", "🔭".repeat(16_000));
    for text in [sum, stars, groups, braces, names, signs, wide] {
        let mut client = Client::of(&text);
        let end = text.encode_utf16().count() as u64;
        for character in [0, end / 2, end] {
            let position = json!({ "line": 0, "character": character });
            let more = json!({ "position": position, "positions": [position], "newName": "b",
                "range": { "start": position, "end": position }, "previousResultId": "0",
                "context": { "includeDeclaration": true } });
            for method in [
                "documentSymbol",
                "foldingRange",
                "selectionRange",
                "semanticTokens/full",
                "semanticTokens/full/delta",
                "hover",
                "completion",
                "definition",
                "references",
                "prepareRename",
                "codeAction",
                "formatting",
            ] {
                assert!(client.about(method, more.clone()).is_ok(), "{method}");
            }
            if let Err(refused) = client.about("rename", more) {
                assert_eq!(refused["code"], -32803);
            }
        }
        assert_eq!(
            client.request("shutdown", Value::Null).unwrap(),
            Value::Null
        );
    }
}
