//! The server in neovim, which is run without a screen by `editor/neovim.lua`: what the editor knows after each thing
//! typed. And what it makes of a probe by the files in `editors/`.
#![allow(clippy::indexing_slicing, clippy::panic, clippy::unwrap_used)]

use serde_json::{json, Value};
use std::fs;
use std::path::Path;
use std::process::{Command, Stdio};

/// The probe that is opened. A line that is added has the blanks of the one in front of it.
const PROBE: &str = "\
// Samples of the encoder, in steps of 0.1°.
map samples {
    type: .ringbuf;
    max: 1 << 16;
}

unit on_sample {
    section \"kprobe/encoder_read\";
    license \"GPL\";
    heap room = samples.reserve(24);
    samples.submit(room);
    return 0;
}
";

/// What it is at the end: with another name for the map, two statements more, and laid out without its comment.
const LAID: &str = "\
map readings {
type : . ringbuf ;
max : 65536 ;
}
unit on_sample {
section \"kprobe/encoder_read\" ;
license \"GPL\" ;
heap room = readings . reserve ( 24 ) ;
readings . submit ( room ) ;
return 0 ;
reg y = ctx . load_u64 ( 0 ) ;
y = y - 1 ;
}
";

/// What neovim writes down by a script, with these words of its own and files in its folder.
fn answers(script: &str, words: &[String], files: &[(&str, &str)]) -> Value {
    let name = format!("spoonharbor-{script}-{}", std::process::id());
    let folder = std::env::temp_dir().join(name);
    fs::create_dir_all(&folder).unwrap();
    for (name, text) in files {
        fs::write(folder.join(name), text).unwrap();
    }
    let answers = folder.join("answers.json");
    let server = Path::new(env!("CARGO_BIN_EXE_spoonharbor-lsp"));
    let mut paths = vec![server.parent().unwrap().to_path_buf()];
    paths.extend(std::env::split_paths(&std::env::var_os("PATH").unwrap()));
    let mut command = Command::new("nvim");
    command
        .args(["--headless", "-i", "NONE", "-n"])
        .args(words)
        .arg("-c")
        .arg(format!(
            "luafile {}/tests/editor/{script}.lua",
            env!("CARGO_MANIFEST_DIR")
        ))
        .env("PATH", std::env::join_paths(paths).unwrap())
        .env("SERVER", server)
        .env("PROBE", folder.join("probe.snx"))
        .env("CHECKED", folder.join("checked.txt"))
        .env("ANSWERS", &answers)
        .stdin(Stdio::null());
    for place in ["STATE", "CACHE", "DATA", "CONFIG"] {
        command.env(format!("XDG_{place}_HOME"), &folder);
    }
    let ran = command.output().unwrap();
    let said = String::from_utf8_lossy(&ran.stderr).into_owned();
    let written = fs::read_to_string(&answers).unwrap_or_else(|error| panic!("{error}: {said}"));
    fs::remove_dir_all(&folder).unwrap();
    let answers: Value = serde_json::from_str(&written).unwrap();
    assert_eq!(answers["trouble"], Value::Null, "{answers:#}");
    answers
}

#[test]
fn neovim_knows_what_the_server_tells() {
    let words = ["-u", "NONE"].map(str::to_string);
    let answers = answers("neovim", &words, &[("probe.snx", PROBE)]);
    assert_eq!(answers["encoding"], "utf-16");
    assert_eq!(answers["opened"], json!([]));
    let line = "    x = 1; /* 0.1° 🔭 */ y = 2 @ 3;";
    assert_eq!(answers["fault_at"], json!([13, line]));
    // Neovim counts bytes: the characters of two and four bytes before the fault were one and two units on the way.
    let at = line.find('@').unwrap();
    let fault = |at: usize| format!("12:{at}-12:{} error[11] nothing begins with '@'", at + 1);
    assert_eq!(answers["faulty"], json!([fault(at)]));
    let degree = "12:0-12:2 error[11] nothing begins with '°'";
    assert_eq!(answers["degree"], json!([degree, fault(at + 2)]));
    assert_eq!(answers["without"], json!([fault(at)]));
    assert_eq!(answers["mended"], json!([]));

    let missing = "12:17-12:17 error[21] expected ';' after this";
    assert_eq!(answers["part"], json!([missing]));
    let methods = [
        "load_u64",
        "get_pid_tgid",
        "get_uid_gid",
        "probe_read_user_str",
        "probe_read_kernel_str",
    ];
    assert_eq!(answers["completed"], json!(methods));
    assert_eq!(answers["whole"], json!([]));
    let symbols = [
        "samples (ringbuf, key none, value none, max 65536): ",
        "on_sample (kprobe): room, y",
    ];
    assert_eq!(answers["symbols"], json!(symbols));

    assert_eq!(answers["action"], "write y = y - 1");
    assert_eq!(
        (&answers["acted"], &answers["renamed"]),
        (&json!([]), &json!([]))
    );
    assert_eq!(
        answers["hover"],
        "**map readings**\n\n`ringbuf` of 65,536 bytes"
    );
    assert_eq!(answers["shown"], "not laid out: 1 comment would be lost");
    let kept = [
        "// Samples of the encoder, in steps of 0.1°.",
        "map readings {",
        "    type: .ringbuf;",
    ];
    assert_eq!(answers["unlaid"], json!(kept));
    assert_eq!(
        (&answers["laid"], &answers["text"]),
        (&json!([]), &json!(LAID))
    );
    assert_eq!(answers["is_same"], true);
    assert_eq!(answers["is_stopped"], true);
}

/// A probe with one thing on each line that has a colour of its own.
const COLOURED: &str = "\
// steps of 0.1°
map m { type: .hash; key: u32; value: u32; max: -1 << 4; }
unit u { section \"kprobe/a\\n\";
  reg a = ctx.load_u64(0x1f) < ° guard
  /* a comment
  still */ return 0;
}
";

/// What `spoonharbor check` prints of two faults.
const CHECKED: &str = "\
error[21]: expected ';' after this
  --> probe.snx:11:30
   |
11 |     reg now = ctx.load_u64(0)
   |                              ^
   = proved: the library refuses the text with 21 at 12:5

warning[103]: unit 'u' has no license
 --> probe.snx:3:6
  |
3 | unit u {
  |      ^
  = help: add, for example: license \"GPL\";

probe.snx: refused, 1 error, 1 warning
";

#[test]
fn neovim_starts_the_server_and_colours_a_probe() {
    let editors = format!("{}/../editors", env!("CARGO_MANIFEST_DIR"));
    let words = [
        "--cmd".to_string(),
        format!("set runtimepath^={editors}/vim,{editors}/nvim"),
    ];
    let files = [("probe.snx", COLOURED), ("checked.txt", CHECKED)];
    let answers = answers("files", &words, &files);
    assert_eq!(
        (&answers["filetype"], &answers["syntax"]),
        (&json!("solnix"), &json!("solnix"))
    );
    assert_eq!(answers["clients"], json!(["spoonharbor"]));
    assert_eq!(answers["told"][0], "max is -16; it cannot be negative");
    let colours = [
        "// solnixComment",
        "0.1 solnixComment",
        "map solnixDeclaration",
        "m solnixDeclaration",
        "type solnixField",
        "hash solnixMapType",
        "u32 solnixType",
        "-1 solnixNumber",
        "<< solnixShift",
        "unit solnixDeclaration",
        "\"kprobe solnixString",
        "\\n solnixEscape",
        "reg solnixVariable",
        "ctx solnixContext",
        "load_u64 solnixMethod",
        "0x1f solnixNumber",
        "< solnixRefused",
        "° solnixRefused",
        "guard solnixConditional",
        "comment solnixComment",
        "still solnixComment",
        "return solnixStatement",
    ];
    assert_eq!(answers["colours"], json!(colours));
    let list = [
        "probe.snx:11:30 e21 expected ';' after this",
        "probe.snx:3:6 w103 unit 'u' has no license",
    ];
    assert_eq!(answers["list"], json!(list));
}
