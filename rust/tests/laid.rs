//! The verb `layout`, run as a person runs it: what it prints, what it writes, what stays, and its exit status.

mod shared;

use shared::{run, Folder, Ran};
use std::fs::{self, Permissions};
use std::os::unix::fs::{symlink, MetadataExt, PermissionsExt};
use std::os::unix::process::CommandExt;
use std::process::Command;

/// The number of the user and the group that own nothing.
const NOBODY: u32 = 65_534;

/// A program, its layout, and what changes.
const PROBE: &str = "unit u{\n  x+=(0x10);\n}\nevent e {\n}\n";
const LAYOUT: &str = "unit u {\nx += 16 ;\n}\nevent e {\n}\n";
const DIFF: &str = "\
--- probe.snx
+++ probe.snx
@@ -1,5 +1,5 @@
-unit u{
-  x+=(0x10);
+unit u {
+x += 16 ;
 }
 event e {
 }
";

/// A program with comments.
const COMMENTED: &str = "// one\nunit u{ /* two */ x; }\n";

/// A text that is no program, and what is said of it.
const BAD: &str = "unit u{x}\n";
const SAID: &str = "\
error[21]: expected ';' after this
 --> bad.snx:1:9
  |
1 | unit u{x}
  |         ^
  = proved: the library refuses the text with 21 at 1:9

bad.snx: refused, 1 error
";

fn folder(name: &str) -> Folder {
    let folder = Folder::new(name);
    folder.file("probe.snx", PROBE);
    folder.file("laid.snx", LAYOUT);
    folder.file("commented.snx", COMMENTED);
    folder.file("bad.snx", BAD);
    folder
}

fn text(folder: &Folder, name: &str) -> String {
    fs::read_to_string(folder.0.join(name)).unwrap()
}

/// The names of what the folder holds.
fn names(folder: &Folder) -> Vec<String> {
    let entries = fs::read_dir(&folder.0).unwrap();
    let mut names: Vec<String> = entries
        .map(|entry| entry.unwrap().file_name().into_string().unwrap())
        .collect();
    names.sort();
    names
}

fn assert_ran(ran: &Ran, out: &str, complaints: &str, status: i32) {
    assert_eq!(
        (ran.out.as_str(), ran.complaints.as_str()),
        (out, complaints)
    );
    assert_eq!(ran.status, status);
}

// ---- what is printed

#[test]
fn a_layout_is_printed() {
    let folder = folder("layout-printed");
    assert_ran(&folder.run(&["layout", "probe.snx"]), LAYOUT, "", 0);
    assert_ran(&folder.run(&["layout", "laid.snx"]), LAYOUT, "", 0);
    let ran = folder.run(&["layout", "commented.snx"]);
    assert_ran(&ran, "unit u {\nx ;\n}\n", "", 0);
    let ran = folder.run_with_input(&["layout", "-"], PROBE.as_bytes());
    assert_ran(&ran, LAYOUT, "", 0);
    assert_ran(&folder.run_with_input(&["layout", "-"], b""), "", "", 0);
    assert_eq!(text(&folder, "probe.snx"), PROBE);
}

/// Standard output has layouts alone, one after the other, whatever else is wrong.
#[test]
fn several_layouts_follow_each_other() {
    let folder = folder("layout-several");
    let ran = folder.run(&["layout", "probe.snx", "bad.snx", "commented.snx"]);
    assert_ran(&ran, &format!("{LAYOUT}unit u {{\nx ;\n}}\n"), SAID, 1);
    let ran = folder.run(&["layout", "bad.snx", "missing", "laid.snx"]);
    assert_eq!((ran.out.as_str(), ran.status), (LAYOUT, 2));
    let complaint = "spoonharbor: missing: No such file or directory (os error 2)\n";
    assert_eq!(ran.complaints, format!("{SAID}{complaint}"));
}

/// A refused text is told as `check` tells it.
#[test]
fn a_refused_text_is_told() {
    let folder = folder("layout-refused");
    assert_ran(&folder.run(&["check", "bad.snx"]), SAID, "", 1);
    for options in [
        &[][..],
        &["--check"],
        &["--diff"],
        &["--write"],
        &["--write", "--drop-comments", "--force"],
    ] {
        let ran = folder.run(&[&["layout", "bad.snx"], options].concat());
        assert_ran(&ran, "", SAID, 1);
    }
    assert_eq!(text(&folder, "bad.snx"), BAD);
    let long = format!("unit uuu{{{}}}", "x;".repeat(16_381));
    folder.file("long.snx", &long);
    let said = "spoonharbor: long.snx: the layout is longer than 65,536 bytes\n";
    for option in ["--check", "--diff", "--write"] {
        assert_ran(&folder.run(&["layout", option, "long.snx"]), "", said, 1);
    }
    assert_eq!(text(&folder, "long.snx"), long);
    for bytes in [b"\xff".to_vec(), vec![b' '; 65_537]] {
        folder.file("t", &bytes);
        let checked = folder.run(&["check", "t"]);
        assert_ran(&folder.run(&["layout", "t"]), "", &checked.out, 1);
    }
}

// ---- what is held against it

#[test]
fn check_names_the_files_that_are_not_in_it() {
    let folder = folder("layout-check");
    let call = [
        "layout",
        "--check",
        "laid.snx",
        "probe.snx",
        "commented.snx",
    ];
    assert_ran(&folder.run(&call), "probe.snx\ncommented.snx\n", "", 1);
    assert_ran(&folder.run(&["layout", "--check", "laid.snx"]), "", "", 0);
    let ran = folder.run_with_input(&["layout", "--check", "-"], PROBE.as_bytes());
    assert_ran(&ran, "standard input\n", "", 1);
    folder.file("empty", "");
    assert_ran(&folder.run(&["layout", "--check", "empty"]), "", "", 0);
    folder.file("cut", LAYOUT.trim_end());
    assert_ran(&folder.run(&["layout", "--check", "cut"]), "cut\n", "", 1);
    assert_eq!(text(&folder, "probe.snx"), PROBE);
}

#[test]
fn a_diff_is_shown() {
    let folder = folder("layout-diff");
    assert_ran(&folder.run(&["layout", "--diff", "probe.snx"]), DIFF, "", 0);
    assert_ran(&folder.run(&["layout", "--diff", "laid.snx"]), "", "", 0);
    let ran = folder.run(&["layout", "--diff", "laid.snx", "bad.snx", "probe.snx"]);
    assert_ran(&ran, DIFF, SAID, 1);
    folder.file("cut", "event e {}");
    let wanted = "--- cut\n+++ cut\n@@ -1,1 +1,2 @@\n-event e {}\n\\ No newline at end of file\n+event e {\n+}\n";
    assert_ran(&folder.run(&["layout", "--diff", "cut"]), wanted, "", 0);
    assert_eq!(text(&folder, "probe.snx"), PROBE);
}

/// `patch` makes each file its layout, also under names with blanks, quotes and tabs.
#[test]
fn patch_takes_a_diff() {
    let folder = Folder::new("layout-patch");
    let probes = [
        PROBE,
        COMMENTED,
        "event e {}",
        "\n\n\n",
        "unit u{\r\n x;\r\n}\r\n",
        LAYOUT,
    ];
    let files = ["a.snx", "a b.snx", "a\"b.snx", "a\tb.snx", "°.snx", "c.snx"];
    for (file, probe) in files.iter().zip(probes) {
        folder.file(file, probe);
    }
    let diff = folder.run(&[&["layout", "--diff"], &files[..]].concat());
    assert_eq!((diff.complaints.as_str(), diff.status), ("", 0));
    let wanted: Vec<String> = files
        .iter()
        .map(|file| folder.run(&["layout", file]).out)
        .collect();
    let mut patch = folder.program("patch");
    let patched = run(patch.args(["-p0", "--binary"]), diff.out.as_bytes());
    assert_eq!(patched.status, 0, "{}{}", patched.out, patched.complaints);
    for (file, wanted) in files.iter().zip(wanted) {
        assert_eq!(text(&folder, file), wanted, "{file}");
    }
}

// ---- what is written

#[test]
fn files_are_written_in_it() {
    let folder = folder("layout-write");
    let before = names(&folder);
    let ran = folder.run(&["layout", "--write", "probe.snx", "laid.snx"]);
    let said = "probe.snx: laid out\nlaid.snx: in the layout already\n";
    assert_ran(&ran, said, "", 0);
    assert_eq!(text(&folder, "probe.snx"), LAYOUT);
    let ran = folder.run(&["layout", "--write", "probe.snx"]);
    assert_ran(&ran, "probe.snx: in the layout already\n", "", 0);
    assert_eq!(names(&folder), before);
}

/// What is in the layout keeps its inode and its time.
#[test]
fn what_is_in_it_is_left_alone() {
    let folder = folder("layout-alone");
    let known = |name: &str| {
        let file = fs::metadata(folder.0.join(name)).unwrap();
        (file.ino(), file.mtime(), file.mtime_nsec())
    };
    let before = known("laid.snx");
    assert_eq!(folder.run(&["layout", "--write", "laid.snx"]).status, 0);
    assert_eq!(known("laid.snx"), before);
}

#[test]
fn comments_are_not_lost_unasked() {
    let folder = folder("layout-comments");
    let ran = folder.run(&["layout", "--write", "commented.snx", "probe.snx"]);
    let said = "spoonharbor: commented.snx: it has 2 comments, which no layout has, and stays; --drop-comments writes it without\n";
    assert_ran(&ran, "probe.snx: laid out\n", said, 1);
    assert_eq!(text(&folder, "commented.snx"), COMMENTED);
    folder.file("one.snx", "unit u{} // one\n");
    let ran = folder.run(&["layout", "--write", "--force", "one.snx"]);
    let said = "spoonharbor: one.snx: it has 1 comment, which no layout has, and stays; --drop-comments writes it without\n";
    assert_ran(&ran, "", said, 1);
    let ran = folder.run(&[
        "layout",
        "--write",
        "--drop-comments",
        "commented.snx",
        "one.snx",
        "laid.snx",
    ]);
    let said = "commented.snx: laid out, without its 2 comments\none.snx: laid out, without its 1 comment\n\
                laid.snx: in the layout already\n";
    assert_ran(&ran, said, "", 0);
    assert_eq!(text(&folder, "commented.snx"), "unit u {\nx ;\n}\n");
}

/// A link is followed and stays; a file with two names stays unless it is forced.
#[test]
fn links_are_followed() {
    let folder = folder("layout-links");
    symlink("probe.snx", folder.0.join("link")).unwrap();
    let ran = folder.run(&["layout", "--write", "link"]);
    assert_ran(&ran, "link: laid out\n", "", 0);
    assert_eq!(text(&folder, "probe.snx"), LAYOUT);
    let link = fs::symlink_metadata(folder.0.join("link")).unwrap();
    assert!(link.is_symlink());
    folder.file("probe.snx", PROBE);
    fs::hard_link(folder.0.join("probe.snx"), folder.0.join("second")).unwrap();
    let ran = folder.run(&["layout", "--write", "probe.snx"]);
    let said = "spoonharbor: probe.snx: it has 2 names, and under the others would stay as it is; --force writes it under this one\n";
    assert_ran(&ran, "", said, 2);
    assert_eq!(text(&folder, "probe.snx"), PROBE);
    let ran = folder.run(&["layout", "--write", "--force", "probe.snx"]);
    assert_ran(&ran, "probe.snx: laid out\n", "", 0);
    assert_eq!(text(&folder, "probe.snx"), LAYOUT);
    assert_eq!(text(&folder, "second"), PROBE);
}

/// It is written as every file is: mode and owner stay, and what cannot be written stays whole.
#[test]
fn a_file_that_cannot_be_written_stays() {
    let folder = folder("layout-stays");
    let file = folder.0.join("probe.snx");
    fs::set_permissions(&file, Permissions::from_mode(0o640)).unwrap();
    assert_eq!(folder.run(&["layout", "--write", "probe.snx"]).status, 0);
    assert_eq!(fs::metadata(&file).unwrap().mode() & 0o7777, 0o640);
    folder.file("probe.snx", PROBE);
    // A full disk: no file may have more than no bytes, which the shell's limit says.
    let mut limited = limited(
        &folder,
        "ulimit -f 0; trap '' XFSZ; exec \"$0\" layout --write probe.snx",
    );
    let ran = run(&mut limited, b"");
    assert_eq!(ran.status, 2);
    assert!(
        ran.complaints.contains("probe.snx: File too large"),
        "{}",
        ran.complaints
    );
    assert_eq!(text(&folder, "probe.snx"), PROBE);
    assert_eq!(
        names(&folder),
        ["bad.snx", "commented.snx", "laid.snx", "probe.snx"]
    );
    // A folder in which nothing may be put; the root may anywhere.
    fs::set_permissions(&folder.0, Permissions::from_mode(0o555)).unwrap();
    let mut command = folder.spoonharbor(&["layout", "--write", "probe.snx"]);
    if fs::metadata(&file).unwrap().uid() == 0 {
        fs::set_permissions(&file, Permissions::from_mode(0o666)).unwrap();
        command.uid(NOBODY).gid(NOBODY);
    }
    let ran = run(&mut command, b"");
    fs::set_permissions(&folder.0, Permissions::from_mode(0o755)).unwrap();
    assert_eq!(ran.status, 2);
    assert!(
        ran.complaints.contains("Permission denied"),
        "{}",
        ran.complaints
    );
    assert_eq!(text(&folder, "probe.snx"), PROBE);
}

/// The command, run by a shell in the folder.
fn limited(folder: &Folder, script: &str) -> Command {
    let mut command = folder.program("sh");
    command.args(["-c", script, env!("CARGO_BIN_EXE_spoonharbor")]);
    command
}

/// A pipe has a layout, but is no file that could be written.
#[test]
fn a_pipe_is_not_written() {
    let folder = folder("layout-pipe");
    let mut command = limited(&folder, "cat probe.snx | \"$0\" layout --write /dev/stdin");
    let ran = run(&mut command, b"");
    assert_ran(
        &ran,
        "",
        "spoonharbor: /dev/stdin: it is a pipe or a device\n",
        2,
    );
}

// ---- folders and options

/// A folder stands for its probes, and those below it, in every use.
#[test]
fn folders_are_read_whole() {
    let folder = Folder::new("layout-folders");
    fs::create_dir_all(folder.0.join("site/below")).unwrap();
    folder.file("site/b.snx", PROBE);
    folder.file("site/a.snx", LAYOUT);
    folder.file("site/below/c.snx", "event c{}");
    folder.file("site/notes.txt", "no probe");
    let ran = folder.run(&["layout", "site"]);
    assert_ran(&ran, &format!("{LAYOUT}{LAYOUT}event c {{\n}}\n"), "", 0);
    let ran = folder.run(&["layout", "--check", "site"]);
    assert_ran(&ran, "site/b.snx\nsite/below/c.snx\n", "", 1);
    let ran = folder.run(&["layout", "--write", "site"]);
    let said =
        "site/a.snx: in the layout already\nsite/b.snx: laid out\nsite/below/c.snx: laid out\n";
    assert_ran(&ran, said, "", 0);
    assert_ran(&folder.run(&["layout", "--check", "site"]), "", "", 0);
    fs::create_dir(folder.0.join("none")).unwrap();
    let ran = folder.run(&["layout", "none"]);
    assert_ran(
        &ran,
        "",
        "spoonharbor: none: no *.snx file is in this folder\n",
        2,
    );
}

#[test]
fn wrong_calls_are_trouble() {
    let folder = folder("layout-calls");
    let calls: [(&[&str], &str); 7] = [
        (&["layout"], "layout: a file is missing"),
        (
            &["layout", "--check", "--write", "probe.snx"],
            "layout: one of --check, --diff and --write is wanted",
        ),
        (
            &["layout", "--diff", "--check", "probe.snx"],
            "layout: one of --check, --diff and --write is wanted",
        ),
        (
            &["layout", "--write", "-"],
            "layout: with --write the path of a file is wanted",
        ),
        (
            &["layout", "--drop-comments", "probe.snx"],
            "layout: --drop-comments goes with --write",
        ),
        (
            &["layout", "--force", "--diff", "probe.snx"],
            "layout: --force goes with --write",
        ),
        (
            &["check", "--write", "probe.snx"],
            "unknown option --write; a file whose name begins with - stands behind --",
        ),
    ];
    for (call, complaint) in calls {
        let ran = folder.run(call);
        let first = ran.complaints.lines().next().unwrap_or_default();
        assert_eq!(first, format!("spoonharbor: {complaint}"));
        assert_eq!((ran.out.as_str(), ran.status), ("", 2));
    }
    assert_eq!(text(&folder, "probe.snx"), PROBE);
    let help = folder.run(&["layout", "--help"]);
    assert!(help.out.starts_with("usage: spoonharbor layout "));
    assert_eq!(help.status, 0);
}
