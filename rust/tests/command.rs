//! The command, run as a person runs it: what it prints and its exit status.

mod shared;

use shared::Folder;
use std::fs::{self, File};
use std::process::Stdio;

const PROBE: &str = "map m{type:.hash;key:u32;value:u64;max:8;}\n\
                     unit u{section \"xdp\";license \"GPL\";\n x+=-1;\n}\n";

/// What is said of it.
const OK: &str = "ok, 1 map, 0 events, 1 unit (checked: syntax, sections, methods)";

#[test]
fn a_program_is_one_line() {
    let folder = Folder::new("program");
    folder.file("probe.snx", PROBE);
    let ran = folder.run(&["check", "probe.snx"]);
    assert_eq!(ran.out, format!("probe.snx: {OK}\n"));
    assert_eq!((ran.complaints.as_str(), ran.status), ("", 0));
}

#[test]
fn a_refusal_shows_its_line() {
    let folder = Folder::new("refusal");
    folder.file("probe.snx", "unit u{\n\treg a = b 1;\n}\n");
    let ran = folder.run(&["check", "probe.snx"]);
    let wanted = "\
error[21]: expected ';' after this
 --> probe.snx:2:11
  |
2 | \treg a = b 1;
  | \t         ^
  = note: expected ';', '.' or an operator, found '1'
  = proved: the library refuses the text with 21 at 2:12

probe.snx: refused, 1 error
";
    assert_eq!(ran.out, wanted);
    assert_eq!((ran.complaints.as_str(), ran.status), ("", 1));
}

#[test]
fn a_line_is_shown_without_its_carriage_return() {
    let folder = Folder::new("carriage-return");
    folder.file("probe.snx", "unit u{\r\n reg a = @;\r\n}\r\n");
    let ran = folder.run(&["check", "probe.snx"]);
    assert!(ran.out.contains("\n2 |  reg a = @;\n  |          ^\n"));
    assert_eq!(ran.status, 1);
}

/// The caret stands below the character, whatever stands before it: columns count bytes, and the caret's line what is seen.
#[test]
fn the_caret_stands_below_the_character() {
    let nothing = |named: &str| format!("nothing begins with '{named}'");
    let cases = [
        ("/* 5° */ @", "1:11", nothing("@"), "         ^"),
        ("\t/* αβ */\t@", "1:13", nothing("@"), "\t        \t^"),
        ("\"角度\" @", "1:10", nothing("@"), "       ^"),
        ("\"🔭\";@", "1:8", nothing("@"), "     ^"),
        ("\"e\u{301}\" @", "1:7", nothing("@"), "    ^"),
        ("unit ° u{}", "1:6", nothing("°"), "     ^"),
        ("/*角*/ ☃", "1:9", nothing("☃"), "       ^"),
        ("a\u{301}b", "1:2", nothing("\\u{301}"), "^"),
        (
            "a\u{a0}b",
            "1:2",
            "a no-break space: type an ordinary blank".to_string(),
            " ^",
        ),
    ];
    let folder = Folder::new("characters");
    for (text, place, message, caret) in cases {
        folder.file("t", text);
        let ran = folder.run(&["check", "t"]);
        let wanted = format!(
            "error[11]: {message}\n --> t:{place}\n  |\n1 | {text}\n  | {caret}\n  \
             = proved: the library refuses the text with 11 at {place}\n\nt: refused, 1 error\n"
        );
        assert_eq!((ran.out, ran.status), (wanted, 1), "{text:?}");
    }
}

#[test]
fn characters_are_printed() {
    let folder = Folder::new("printed");
    folder.file("t", "unit u{ // 0.1°\n section \"Ω \u{202e}角\"; }");
    let ran = folder.run(&["rows", "t"]);
    assert!(ran.out.contains("string \"Ω ?角\"\n"), "{}", ran.out);
    let ran = folder.run(&["tree", "t"]);
    assert!(ran.out.contains("section \"Ω ?角\"  2:10\n"), "{}", ran.out);
    assert_eq!(folder.run(&["check", "t"]).status, 0);
}

/// Texts, the number and words of their refusals, and the places that the library tells.
#[rustfmt::skip]
const REFUSALS: [(&str, u32, &str, &str); 23] = [
    ("@", 11, "nothing begins with '@'", "1:1"),
    ("a \u{1}", 11, "nothing begins with '\\x01'", "1:3"),
    ("a<b", 16, "Solnix has no comparisons: '<' is not an operator", "1:2"),
    ("a >= b", 16, "Solnix has no comparisons: '>=' is not an operator", "1:3"),
    ("-0xg", 17, "expected a hex digit behind '0x'", "1:4"),
    ("0x", 17, "expected a hex digit behind '0x'", "1:3"),
    ("a0x@", 11, "nothing begins with '@'", "1:4"),
    ("a /* b", 12, "this comment is not closed: expected '*/'", "1:5"),
    ("\"a\nb", 13, "this string is not closed: expected '\"'", "1:3"),
    ("\"a\\t\"", 14, "unknown escape: expected '\\\"', '\\\\' or '\\n'", "1:3"),
    ("99999999999999999999", 15, "number too large: the most is 9223372036854775807", "1:1"),
    ("unit u{\n", 21, "unit 'u' is not closed: expected '}'", "2:1"),
    ("event e{}\nunits", 22, "expected 'unit', 'map', 'event' or end of file, found 'units'", "2:1"),
    ("map m{type}", 21, "expected ':' after this", "1:11"),
    ("map m{type:.tree;", 24, "unknown map type 'tree'; one of .hash .array .ringbuf .lru_hash .prog_array", "1:17"),
    ("map m{key:u8;", 25, "'u8' is no type: u32, u64, i32 or i64", "1:13"),
    ("map m{max:1<<63;", 26, "max is -9223372036854775808; it cannot be negative", "1:16"),
    ("map m{max:4294967296;", 27, "max is 4294967296; the most is 4294967295", "1:11"),
    ("map m{max:1<<64;", 28, "the shift count is 64; the most is 63", "1:14"),
    ("map m{type:.ringbuf;}\n\nevent e{}", 29, "map 'm' has no 'max'", "3:1"),
    ("event e{a:u8;", 30, "expected 'u32', 'u64', 'i32', 'i64' or 'bytes', found 'u8'", "1:11"),
    ("unit u{a.b.c();}", 31, "only a variable has methods", "1:12"),
    ("unit u{a-=1;}", 21, "only '=' and '+=' assign: write a = a - 1", "1:9"),
];

fn is_refused(folder: &Folder, text: &str, number: u32, message: &str, place: &str) {
    folder.file("t", text);
    let ran = folder.run(&["check", "t"]);
    let first = ran.out.lines().next().unwrap_or_default();
    assert_eq!(first, format!("error[{number}]: {message}"), "{text:?}");
    let proved = format!("proved: the library refuses the text with {number} at {place}\n");
    assert!(ran.out.contains(&proved), "{text:?}");
    assert_eq!((ran.complaints.as_str(), ran.status), ("", 1), "{text:?}");
    assert!(ran.out.ends_with("\nt: refused, 1 error\n"), "{text:?}");
}

#[test]
fn each_refusal_has_its_words() {
    let folder = Folder::new("words");
    for (text, number, message, place) in REFUSALS {
        is_refused(&folder, text, number, message, place);
    }
    let deep = format!("unit u{{{}1;}}", "(".repeat(65));
    let message = "nested too deeply: at most 64 may be open";
    is_refused(&folder, &deep, 32, message, "1:72");
}

#[test]
fn several_files_are_all_checked() {
    let folder = Folder::new("several");
    folder.file("good", PROBE);
    folder.file("bad", "unit");
    let ran = folder.run(&["check", "good", "bad", "good"]);
    let wanted = format!(
        "good: {OK}\nerror[21]: expected an identifier after this, found the end of the file\n --> bad:1:5\n  |\n1 | unit\n  |     ^\n  \
         = proved: the library refuses the text with 21 at 1:5\n\nbad: refused, 1 error\ngood: {OK}\n"
    );
    assert_eq!((ran.out, ran.status), (wanted, 1));
    let ran = folder.run(&["check", "bad", "missing", "good"]);
    assert_eq!(ran.status, 2);
    assert!(ran.out.ends_with(&format!("good: {OK}\n")));
    assert!(ran.complaints.starts_with("spoonharbor: missing: "));
}

#[test]
fn files_that_cannot_be_read_are_trouble() {
    let folder = Folder::new("trouble");
    fs::create_dir(folder.0.join("folder")).unwrap();
    for verb in ["check", "rows", "tree"] {
        let ran = folder.run(&[verb, "missing"]);
        assert_eq!(
            (ran.out.as_str(), ran.complaints.as_str(), ran.status),
            (
                "",
                "spoonharbor: missing: No such file or directory (os error 2)\n",
                2
            )
        );
        let complaint = match verb {
            "check" => "spoonharbor: folder: no *.snx file is in this folder\n",
            _ => "spoonharbor: folder: it is a directory\n",
        };
        let ran = folder.run(&[verb, "folder"]);
        assert_eq!(
            (ran.out.as_str(), ran.complaints.as_str(), ran.status),
            ("", complaint, 2)
        );
    }
}

#[test]
fn texts_that_are_no_texts_are_refused() {
    let folder = Folder::new("texts");
    folder.file("long", vec![b'\n'; 65_537]);
    folder.file("longest", vec![b'\n'; 65_536]);
    folder.file("degrees", b"event e{} // \xc2\xb0 5\xb0\n");
    folder.file(
        "bytes",
        [255].into_iter().chain(0..=255u8).collect::<Vec<u8>>(),
    );
    folder.file("empty", "");
    for verb in ["check", "rows", "tree"] {
        let ran = folder.run(&[verb, "long"]);
        let long = "error[1]: the text is longer than 65,536 bytes\n --> long\n  = proved: the library refuses the text with 1 at 1:1\n";
        assert!(ran.out.starts_with(long), "{}", ran.out);
        assert_eq!((ran.complaints.as_str(), ran.status), ("", 1));
        let ran = folder.run(&[verb, "degrees"]);
        let degrees = "error[2]: byte 176 begins no UTF-8 character here: save the text as UTF-8\n --> degrees:1:18\n  |\n\
                       1 | event e{} // ° 5?\n  |                 ^\n";
        assert!(ran.out.starts_with(degrees), "{}", ran.out);
        assert_eq!(ran.status, 1);
        let ran = folder.run(&[verb, "bytes"]);
        assert!(ran
            .out
            .starts_with("error[2]: byte 255 begins no UTF-8 character"));
        assert_eq!(ran.status, 1);
        assert_eq!(folder.run(&[verb, "longest"]).status, 0);
        assert_eq!(folder.run(&[verb, "/dev/zero"]).status, 1);
    }
    let ran = folder.run(&["check", "empty"]);
    assert_eq!(
        (ran.out.as_str(), ran.status),
        (
            "empty: ok, an empty file (checked: syntax, sections, methods)\n",
            0
        )
    );
    let ran = folder.run(&["rows", "empty"]);
    assert_eq!(ran.out, "    0  1:1       0..0          end of file\n");
    let ran = folder.run(&["tree", "empty"]);
    assert_eq!((ran.out.as_str(), ran.status), ("program  1:1\n", 0));
}

#[test]
fn rows_are_printed() {
    let folder = Folder::new("rows");
    folder.file("t", "unit u{\n x+=-0x1f; \"a\"@");
    let ran = folder.run(&["rows", "t"]);
    let lines: Vec<&str> = ran.out.lines().collect();
    assert_eq!(
        lines,
        [
            "    0  1:1       0..4          'unit'",
            "    1  1:6       5..6          identifier u",
            "    2  1:7       6..7          '{'",
            "    3  2:2       9..10         identifier x",
            "    4  2:3       10..12        '+='",
            "    5  2:5       12..17        number -0x1f = -31",
            "    6  2:10      17..18        ';'",
            "    7  2:12      19..22        string \"a\"",
            "error[11]: nothing begins with '@'",
            " --> t:2:15",
            "  |",
            "2 |  x+=-0x1f; \"a\"@",
            "  |               ^",
            "  = proved: the library refuses the text with 11 at 2:15",
            "",
        ]
    );
    assert_eq!(ran.status, 1);
}

#[test]
fn trees_are_printed() {
    let folder = Folder::new("tree");
    let text = "map m{type:.ringbuf;max:1<<12;}\nevent e{a:u32;b:bytes[8];c:i64[2];}\n\
                unit u{section \"xdp\";license \"GPL\";\nreg r=*ctx.load_u8(14)+1;\n\
                if guard(r){m.out=r.f;}else{return -1;}}";
    folder.file("t", text);
    let ran = folder.run(&["tree", "t"]);
    let lines: Vec<&str> = ran.out.lines().collect();
    assert_eq!(
        lines,
        [
            "program  5:41",
            "  map m: ringbuf, key none, value none, max 4096  1:5",
            "  event e  2:7",
            "    a: u32  2:9",
            "    b: bytes[8]  2:15",
            "    c: i64[2]  2:26",
            "  unit u: kind xdp, license \"GPL\"  3:1",
            "    section \"xdp\"  3:16",
            "    license \"GPL\"  3:30",
            "    reg r  4:5",
            "      operator +  4:8",
            "        dereference *  4:8",
            "          call .load_u8()  4:8",
            "            variable ctx  4:8",
            "            number 14  4:20",
            "        number 1  4:24",
            "    if guard  5:4",
            "      variable r  5:10",
            "      then  5:12",
            "        assign =  5:15",
            "          field .out  5:15",
            "            variable m  5:13",
            "          field .f  5:21",
            "            variable r  5:19",
            "      else  5:28",
            "        return  5:36",
            "          number -1  5:36",
        ]
    );
    assert_eq!(ran.status, 0);
    folder.file("t", "unit u{a b;}");
    let ran = folder.run(&["tree", "t"]);
    assert_eq!(
        ran.out,
        "error[21]: expected ';' after this\n --> t:1:9\n  |\n1 | unit u{a b;}\n  |         ^\n  \
         = note: expected ';', '.', an operator, '=' or '+=', found 'b'\n  \
         = proved: the library refuses the text with 21 at 1:10\n\n"
    );
    assert_eq!(ran.status, 1);
}

/// A tree as deep as a text allows: operators that group left.
#[test]
fn the_deepest_tree_is_printed() {
    let folder = Folder::new("deepest");
    let chain = format!("unit u{{a{};}}", "+a".repeat(32_000));
    folder.file("t", chain);
    let ran = folder.run(&["tree", "t"]);
    assert_eq!(ran.status, 0);
    assert_eq!(ran.out.lines().count(), 64_004);
    assert!(ran.out.contains("[32003] variable a  1:8\n"));
}

#[test]
fn standard_input_is_a_file() {
    let folder = Folder::new("input");
    let ran = folder.run_with_input(&["check", "-"], PROBE.as_bytes());
    assert_eq!(ran.out, format!("standard input: {OK}\n"));
    let ran = folder.run_with_input(&["check", "-"], b"unit");
    assert!(ran.out.contains("\n --> standard input:1:5\n"));
    assert_eq!(ran.status, 1);
}

#[test]
fn a_wrong_call_is_trouble() {
    let folder = Folder::new("call");
    folder.file("t", PROBE);
    let calls: [(&[&str], &str); 7] = [
        (&[], "spoonharbor: a verb is missing\n"),
        (&["check"], "spoonharbor: check: a file is missing\n"),
        (&["rows"], "spoonharbor: rows: one file is wanted\n"),
        (
            &["rows", "t", "t"],
            "spoonharbor: rows: one file is wanted\n",
        ),
        (&["tree"], "spoonharbor: tree: one file is wanted\n"),
        (&["chek", "t"], "spoonharbor: unknown verb chek\n"),
        (&[""], "spoonharbor: unknown verb \n"),
    ];
    for (arguments, complaint) in calls {
        let ran = folder.run(arguments);
        assert!(ran.complaints.starts_with(complaint), "{}", ran.complaints);
        assert!(ran.complaints.contains("usage: spoonharbor check FILE.."));
        assert_eq!((ran.out.as_str(), ran.status), ("", 2));
    }
    let ran = folder.run(&["--help"]);
    assert!(ran.out.starts_with("usage: "));
    assert_eq!(ran.status, 0);
}

#[test]
fn the_version_is_the_crates() {
    let folder = Folder::new("version");
    let version = format!("spoonharbor {}\n", env!("CARGO_PKG_VERSION"));
    for arguments in [["--version"].as_slice(), &["-V"], &["check", "--version"]] {
        let ran = folder.run(arguments);
        assert_eq!(
            (ran.out, ran.complaints.as_str(), ran.status),
            (version.clone(), "", 0)
        );
    }
}

#[test]
fn each_verb_has_help() {
    let folder = Folder::new("help");
    for verb in ["check", "explain", "rows", "tree", "store", "load"] {
        let asked = folder.run(&[verb, "--help"]);
        assert!(asked
            .out
            .starts_with(&format!("usage: spoonharbor {verb} [--")));
        assert_eq!((asked.complaints.as_str(), asked.status), ("", 0));
        for arguments in [[verb, "-h"], ["help", verb], ["--help", verb]] {
            assert_eq!(folder.run(&arguments).out, asked.out);
        }
        let ran = folder.run(&[verb, "missing", "--help"]);
        assert_eq!((ran.out, ran.status), (asked.out, 0));
    }
    assert_eq!(folder.run(&["help"]).out, folder.run(&["--help"]).out);
}

#[test]
fn two_dashes_end_the_options() {
    let folder = Folder::new("dashes");
    for name in ["--help", "-", "--", "-x"] {
        folder.file(name, PROBE);
    }
    let ran = folder.run(&["check", "--", "--help", "-x", "--"]);
    assert_eq!(ran.out, format!("--help: {OK}\n-x: {OK}\n--: {OK}\n"));
    assert_eq!((ran.complaints.as_str(), ran.status), ("", 0));
    let ran = folder.run_with_input(&["check", "--", "-"], b"");
    assert!(ran.out.starts_with("standard input: ok, an empty file"));
    assert_eq!(folder.run(&["rows", "--", "-x"]).status, 0);
    for arguments in [["check", "-x"].as_slice(), &["rows", "--x", "t"], &["--x"]] {
        let ran = folder.run(arguments);
        assert!(ran.complaints.starts_with("spoonharbor: unknown option -"));
        assert_eq!((ran.out.as_str(), ran.status), ("", 2));
    }
    assert_eq!(folder.run(&["check", "--"]).status, 2);
}

/// Results and complaints, written to one place, stand in the order of the files.
#[test]
fn what_is_said_stays_in_order() {
    let folder = Folder::new("order");
    folder.file("good", PROBE);
    folder.file("bad", "unit");
    let both = File::create(folder.0.join("both")).unwrap();
    let status = folder
        .spoonharbor(&["check", "good", "missing", "bad", "gone", "good"])
        .stdout(both.try_clone().unwrap())
        .stderr(both)
        .status()
        .unwrap();
    assert_eq!(status.code(), Some(2));
    let said = fs::read_to_string(folder.0.join("both")).unwrap();
    let begins: Vec<&str> = said
        .lines()
        .map(|line| line.split(": ").next().unwrap())
        .collect();
    let wanted = [
        "good",
        "spoonharbor",
        "error[21]",
        " --> bad:1:5",
        "  |",
        "1 | unit",
        "  |     ^",
        "  = proved",
        "",
        "bad",
        "spoonharbor",
        "good",
    ];
    assert_eq!(begins, wanted, "{said}");
}

/// Output that nobody reads to its end does not change the exit status.
#[test]
fn a_reader_may_go() {
    let folder = Folder::new("reader");
    folder.file("good", vec![b'\n'; 60_000]);
    folder.file("rows", vec![b';'; 60_000]);
    folder.file("bad", format!("{}@", ";".repeat(60_000)));
    let calls: [(&[&str], i32); 7] = [
        (&["rows", "rows"], 0),
        (&["rows", "bad"], 1),
        (&["check", "good"], 0),
        (&["check", "bad", "good"], 1),
        (&["check", "good", "missing"], 2),
        (&["tree", "bad"], 1),
        (&["--help"], 0),
    ];
    for (arguments, status) in calls {
        let mut child = folder
            .spoonharbor(arguments)
            .stdout(Stdio::piped())
            .stderr(Stdio::piped())
            .spawn()
            .unwrap();
        drop(child.stdout.take());
        let output = child.wait_with_output().unwrap();
        assert_eq!(output.status.code(), Some(status), "{arguments:?}");
        assert_eq!(output.stderr.is_empty(), status != 2, "{arguments:?}");
    }
}

#[test]
fn output_that_cannot_be_written_is_trouble() {
    let folder = Folder::new("full");
    folder.file("t", PROBE);
    let output = folder
        .spoonharbor(&["check", "t"])
        .stdout(File::options().write(true).open("/dev/full").unwrap())
        .output()
        .unwrap();
    assert_eq!(output.status.code(), Some(2));
    assert!(output.stderr.starts_with(b"spoonharbor: standard output: "));
}
