//! What people are told of each fault, word for word: `messages.txt` has texts with all that `check` prints of them.

mod shared;

use shared::Folder;

/// The cases: a line `=== name`, a text, a line `---`, and what is printed.
const CASES: &str = include_str!("messages.txt");

/// A text with its characters for each `\u{..}`, which stands for one that would not show.
fn unescaped(text: &str) -> String {
    let mut parts = text.split("\\u{");
    let mut whole = parts.next().unwrap_or_default().to_string();
    for part in parts {
        let (digits, rest) = part.split_once('}').expect("escapes are closed");
        let number = u32::from_str_radix(digits, 16).expect("escapes are hex");
        whole.extend(char::from_u32(number));
        whole += rest;
    }
    whole
}

#[test]
fn each_fault_has_its_words() {
    let folder = Folder::new("messages");
    let mut cases = 0;
    for case in CASES.split("=== ").skip(1) {
        let (name, case) = case.split_once('\n').unwrap();
        let (text, wanted) = case.split_once("\n---\n").unwrap();
        folder.file("t.snx", unescaped(text) + "\n");
        let ran = folder.run(&["check", "t.snx"]);
        assert_eq!(ran.out, unescaped(wanted), "{name}");
        let is_refused = ran.out.contains("error[");
        assert_eq!(
            (ran.complaints.as_str(), ran.status),
            ("", is_refused.into()),
            "{name}"
        );
        cases += 1;
    }
    assert_eq!(cases, 110);
}

/// UTF-16 with its mark is 2, without it 11, and both are told at the start.
#[test]
fn utf16_is_told() {
    let folder = Folder::new("utf16");
    let wide = |text: &str| {
        text.encode_utf16()
            .flat_map(u16::to_le_bytes)
            .collect::<Vec<u8>>()
    };
    folder.file("t", wide("\u{feff}unit u {}\n"));
    let ran = folder.run(&["check", "t"]);
    let wanted = "\
error[2]: this looks like UTF-16: save it as UTF-8
 --> t:1:1
  |
1 | ??u?n?i?t? ?u? ?{?}?
  | ^^
  = proved: the library refuses the text with 2 at 1:1

t: refused, 1 error
";
    assert_eq!((ran.out.as_str(), ran.status), (wanted, 1));
    folder.file("t", wide("unit u {}\n"));
    let ran = folder.run(&["check", "t"]);
    let wanted = "\
error[11]: this looks like UTF-16: save it as UTF-8
 --> t:1:1
  |
1 | u?n?i?t? ?u? ?{?}?
  | ^^
  = proved: the library refuses the text with 11 at 1:2

t: refused, 1 error
";
    assert_eq!((ran.out.as_str(), ran.status), (wanted, 1));
}

/// Bytes that are no UTF-8 are told once, and what else is wrong is told too.
#[test]
fn bytes_that_are_no_utf8_are_told_once() {
    let folder = Folder::new("bytes");
    folder.file("t", b"// 5\xb0 to 9\xb0\nevent e {\n    a: u32\n}\n");
    let ran = folder.run(&["check", "t"]);
    let wanted = "\
error[2]: byte 176 begins no UTF-8 character here: save the text as UTF-8
 --> t:1:5
  |
1 | // 5? to 9?
  |     ^
  = note: one more byte is no UTF-8
  = proved: the library refuses the text with 2 at 1:5

error[21]: expected ';' after this
 --> t:3:11
  |
3 |     a: u32
  |           ^

t: refused, 2 errors
";
    assert_eq!((ran.out.as_str(), ran.status), (wanted, 1));
}

#[test]
fn lines_that_end_in_cr_alone_are_told() {
    let folder = Folder::new("cr");
    folder.file("t", "// samples\revent e {\r    a: u32;\r}\r");
    let ran = folder.run(&["check", "t"]);
    let wanted = "\
warning[107]: a line ends in CR alone here, which ends no line: save the text with LF or CR LF
 --> t:1:11
  |
1 | // samples?event e {?    a: u32;?}
  |           ^
  = note: 3 more lines end so

t: ok, 0 maps, 0 events, 0 units; 1 warning (checked: syntax, sections, methods)
";
    assert_eq!((ran.out.as_str(), ran.status), (wanted, 0));
}

#[test]
fn style_is_told_where_it_is_asked_for() {
    let folder = Folder::new("style");
    folder.file(
        "t",
        "// samples\nmap a {type:.ringbuf;max:8;}\nmap b {type:.ringbuf;max:8;}\n",
    );
    let ran = folder.run(&["check", "t"]);
    let ok = "t: ok, 2 maps, 0 events, 0 units (checked: syntax, sections, methods)\n";
    assert_eq!((ran.out.as_str(), ran.status), (ok, 0));
    let ran = folder.run(&["check", "--style", "t"]);
    let wanted = "\
warning[108]: map 'b' has no comment above it
 --> t:3:1
  |
3 | map b {type:.ringbuf;max:8;}
  | ^^^

t: refused, 1 warning
";
    assert_eq!((ran.out.as_str(), ran.status), (wanted, 1));
}

/// Words in colour: the same words, with what a terminal takes for colour around them.
#[test]
fn colour_is_written_where_it_is_wanted() {
    let folder = Folder::new("colour");
    folder.file("t", "event e {\n    a: u8;\n}\n");
    let plain = folder.run(&["check", "t"]).out;
    let ran = folder.run(&["check", "--color", "always", "t"]);
    let wanted = "\
\x1b[1;31merror[30]\x1b[0m\x1b[1m: expected 'u32', 'u64', 'i32', 'i64' or 'bytes', found 'u8'\x1b[0m
\x1b[1;34m -->\x1b[0m t:2:8
\x1b[1;34m  |\x1b[0m
\x1b[1;34m2 |\x1b[0m     a: u8;
\x1b[1;34m  |\x1b[0m        \x1b[1;31m^^\x1b[0m
\x1b[1;34m  =\x1b[0m \x1b[1;36mhelp\x1b[0m: did you mean 'u32'?
\x1b[1;34m  =\x1b[0m \x1b[1;36mproved\x1b[0m: the library refuses the text with 30 at 2:8

t: refused, 1 error
";
    assert_eq!(ran.out, wanted);
    let ran = folder.run(&["check", "--color=always", "t"]);
    assert_eq!(ran.out, wanted);
    for choice in ["auto", "never"] {
        assert_eq!(folder.run(&["check", "--color", choice, "t"]).out, plain);
    }
    let mut command = folder.spoonharbor(&["check", "--color", "always", "t"]);
    let ran = shared::run(command.env("NO_COLOR", "1"), b"");
    assert_eq!(ran.out, wanted, "what is asked for by name counts more");
    let ran = folder.run(&["check", "--color", "sometimes", "t"]);
    assert!(ran
        .complaints
        .starts_with("spoonharbor: check: behind --color auto, always or never is wanted\n"));
    assert_eq!(ran.status, 2);
}

/// On a terminal, which `script` is where it is installed, there is colour, and with `NO_COLOR` none.
#[test]
fn a_terminal_has_colour() {
    let folder = Folder::new("terminal");
    folder.file("t", "event e {\n    a: u8;\n}\n");
    let on_terminal = |no_color: &str| {
        let mut command = folder.program("script");
        let call = format!("{} check t", env!("CARGO_BIN_EXE_spoonharbor"));
        command
            .args(["-qec", &call, "/dev/null"])
            .env("TERM", "xterm")
            .env("NO_COLOR", no_color);
        command
            .output()
            .ok()
            .map(|output| String::from_utf8_lossy(&output.stdout).into_owned())
    };
    let Some(coloured) = on_terminal("") else {
        return;
    };
    assert!(
        coloured.starts_with("\x1b[1;31merror[30]\x1b[0m"),
        "{coloured:?}"
    );
    let plain = on_terminal("1").unwrap();
    assert!(plain.starts_with("error[30]: expected"), "{plain:?}");
}

#[test]
fn problems_are_printed_for_programs() {
    let folder = Folder::new("json");
    folder.file("a.snx", "// Ω😀\nunit u {\n    x = \"Ω😀\" 1\n");
    folder.file("b.snx", "event e {\n    a: u32;\n}\n");
    let ran = folder.run(&["check", "--json", "a.snx", "b.snx"]);
    let wanted = "\
{\"file\":\"a.snx\",\"number\":21,\"severity\":\"error\",\"proved\":true,\"place\":{\"byte\":27,\"line\":3,\"column\":9},\
\"start\":{\"byte\":27,\"line\":3,\"column\":9,\"utf16\":9},\"end\":{\"byte\":35,\"line\":3,\"column\":17,\"utf16\":14},\
\"message\":\"expected an expression, found \\\"Ω😀\\\"\",\"help\":null,\"notes\":[]}
";
    assert_eq!(
        (ran.out.as_str(), ran.complaints.as_str(), ran.status),
        (wanted, "", 1)
    );
    folder.file(
        "a.snx",
        "unit a {\n    license \"GPL\";\n    section \"tp/x\";\n",
    );
    let ran = folder.run(&["check", "--json", "a.snx"]);
    let wanted = "\
{\"file\":\"a.snx\",\"number\":21,\"severity\":\"error\",\"proved\":true,\"place\":{\"byte\":48,\"line\":4,\"column\":1},\
\"start\":{\"byte\":47,\"line\":3,\"column\":20,\"utf16\":20},\"end\":{\"byte\":47,\"line\":3,\"column\":20,\"utf16\":20},\
\"message\":\"unit 'a' is not closed: expected '}'\",\"help\":null,\"notes\":[{\"message\":\"this '{' is open\",\
\"start\":{\"byte\":7,\"line\":1,\"column\":8,\"utf16\":8},\"end\":{\"byte\":8,\"line\":1,\"column\":9,\"utf16\":9}}]}
";
    assert_eq!((ran.out.as_str(), ran.status), (wanted, 1));
}

#[test]
fn warnings_may_be_denied() {
    let folder = Folder::new("denied");
    folder.file("t", "unit u {\n    section \"xdp\";\n}\n");
    assert_eq!(folder.run(&["check", "t"]).status, 0);
    let ran = folder.run(&["check", "--deny", "warnings", "t"]);
    assert!(
        ran.out.ends_with("\n\nt: refused, 1 warning\n"),
        "{}",
        ran.out
    );
    assert_eq!(ran.status, 1);
    assert_eq!(folder.run(&["check", "t", "--deny=warnings"]).status, 1);
    let ran = folder.run(&["check", "--deny", "all", "t"]);
    assert!(ran
        .complaints
        .starts_with("spoonharbor: check: behind --deny the word warnings is wanted\n"));
    assert_eq!(ran.status, 2);
}

/// A folder stands for the probes in it and below, in the order of their names.
#[test]
fn folders_are_read_whole() {
    let folder = Folder::new("folders");
    std::fs::create_dir_all(folder.0.join("probes/deep")).unwrap();
    std::fs::create_dir_all(folder.0.join("empty")).unwrap();
    for name in [
        "probes/b.snx",
        "probes/a.snx",
        "probes/deep/c.snx",
        "probes/notes.txt",
    ] {
        folder.file(name, "");
    }
    let ran = folder.run(&["check", "probes"]);
    let ok = "ok, an empty file (checked: syntax, sections, methods)\n";
    let wanted =
        ["probes/a.snx", "probes/b.snx", "probes/deep/c.snx"].map(|name| format!("{name}: {ok}"));
    assert_eq!((ran.out, ran.status), (wanted.concat(), 0));
    let ran = folder.run(&["check", "empty"]);
    assert_eq!(
        ran.complaints,
        "spoonharbor: empty: no *.snx file is in this folder\n"
    );
    assert_eq!((ran.out.as_str(), ran.status), ("", 2));
}

#[test]
fn numbers_are_explained() {
    let folder = Folder::new("explain");
    let ran = folder.run(&["explain", "27"]);
    let wanted = "\
27: a max or a length is out of range

A max, and the length of an event's field, is 0 to 4294967295, which is 2^32 - 1.

refused:
    map m { type: .ringbuf; max: 1 << 32; }

fine:
    map m { type: .ringbuf; max: 4294967295; }

";
    assert_eq!(
        (ran.out.as_str(), ran.complaints.as_str(), ran.status),
        (wanted, "", 0)
    );
    let numbers = (1..=7)
        .chain(11..=17)
        .chain(21..=32)
        .chain(40..=45)
        .chain([70])
        .chain(101..=108);
    for number in numbers {
        let number = number.to_string();
        let ran = folder.run(&["explain", &number]);
        assert!(ran.out.starts_with(&format!("{number}: ")));
        assert!(ran.out.contains("\nfine:\n    "));
        assert_eq!((ran.complaints.as_str(), ran.status), ("", 0));
    }
    let ran = folder.run(&["explain"]);
    assert_eq!((ran.out.lines().count(), ran.status), (41, 0));
    let ran = folder.run(&["explain", "8"]);
    let complaint = "spoonharbor: explain: there is no number 8\n";
    assert_eq!(
        (ran.out.as_str(), ran.complaints.as_str(), ran.status),
        ("", complaint, 2)
    );
}
