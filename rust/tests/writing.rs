//! No probe is ever lost: what `store`, `move` and `mend` write over, what stays, and what is there if they fail.

mod shared;

use shared::{Folder, Ran};
use spoonharbor::{move_file, Document, Form};
use std::fs::{self, File, Permissions};
use std::os::unix::fs::{chown, symlink, FileTypeExt, MetadataExt, PermissionsExt};
use std::os::unix::process::{CommandExt, ExitStatusExt};
use std::path::Path;
use std::process::{Command, Stdio};
use std::thread;
use std::time::Instant;

const BLOCK: usize = 512;

/// The number of the user and the group that own nothing.
const NOBODY: u32 = 65_534;

/// A text whose table has four blocks in each form.
const PROBE: &str = ";;;;;;;;;;;;;;;;;;;;;;\n;;;;;;;;;;;;;;;;;;;;;";

/// Another one.
const OTHER: &str = "unit other{\n reg r = 1;\n}\n";

const NO_TABLE: &str =
    "it has not one right block of a stored table, and stays; --force writes over it";

fn table(text: &str) -> Vec<u8> {
    Document::open(text).unwrap().table().store().unwrap()
}

fn short(text: &str) -> Vec<u8> {
    move_file(text.as_bytes(), &table(text), Form::Short).unwrap()
}

/// A folder with two probes, the table of the first, and a copy of that with a damaged block.
fn folder(name: &str) -> Folder {
    let folder = Folder::new(name);
    folder.file("v.snx", PROBE);
    folder.file("other.snx", OTHER);
    folder.file("t.tab", table(PROBE));
    folder.file("bad.tab", damaged());
    folder
}

fn damaged() -> Vec<u8> {
    let mut file = table(PROBE);
    file[BLOCK + 77] ^= 1;
    file
}

fn bytes(folder: &Folder, name: &str) -> Vec<u8> {
    fs::read(folder.0.join(name)).unwrap()
}

/// The names of what the folder holds.
fn names(folder: &Folder) -> Vec<String> {
    let entries = fs::read_dir(&folder.0).unwrap();
    let mut names: Vec<String> = entries
        .map(|entry| entry.unwrap().file_name().into_string().unwrap())
        .collect();
    names.sort();
    names
}

fn is_link(folder: &Folder, name: &str) -> bool {
    fs::symlink_metadata(folder.0.join(name))
        .unwrap()
        .is_symlink()
}

/// That a run was trouble with one complaint, and printed nothing.
fn assert_trouble(ran: Ran, complaint: &str) {
    assert_eq!(ran.complaints, format!("spoonharbor: {complaint}\n"));
    assert_eq!((ran.out.as_str(), ran.status), ("", 2));
}

/// That a run printed this and ended so, without a complaint.
fn assert_told(ran: Ran, out: &str, status: i32) {
    assert_eq!((ran.out.as_str(), ran.complaints.as_str()), (out, ""));
    assert_eq!(ran.status, status);
}

// ---- what stays

/// Whatever name the text has there, a link's or a second one of its own, and whether it is forced or not.
#[test]
fn a_text_is_never_written_over() {
    let folder = folder("text");
    symlink("v.snx", folder.0.join("link")).unwrap();
    symlink("link", folder.0.join("links")).unwrap();
    fs::hard_link(folder.0.join("v.snx"), folder.0.join("second")).unwrap();
    let before = names(&folder);
    for name in ["v.snx", "./v.snx", "link", "links", "second"] {
        let calls = [
            vec!["mend", name, "--text", "v.snx"],
            vec!["mend", "--check", name, "--text", "v.snx"],
            vec!["mend", "v.snx", "--text", name],
            vec!["store", "v.snx", "-o", name],
            vec!["store", name, "-o", "v.snx"],
            vec![
                "move", "t.tab", "--form", "2", "--text", "v.snx", "-o", name,
            ],
            vec![
                "move", "t.tab", "--form", "2", "--text", name, "-o", "v.snx",
            ],
        ];
        for mut call in calls {
            let output = match call[0] {
                "mend" => call[call.len() - 3],
                _ => call[call.len() - 1],
            };
            let complaint = format!("{output}: it is the text itself, and stays");
            assert_trouble(folder.run(&call), &complaint);
            call.push("--force");
            assert_trouble(folder.run(&call), &complaint);
        }
    }
    assert_eq!(bytes(&folder, "v.snx"), PROBE.as_bytes());
    assert!(is_link(&folder, "link") && is_link(&folder, "links"));
    assert_eq!(names(&folder), before);
}

/// The text may be standard input, and that a file.
#[test]
fn a_text_on_standard_input_is_never_written_over() {
    let folder = folder("input");
    for force in [&[][..], &["--force"]] {
        let mut command = folder.spoonharbor(&["store", "-", "-o", "v.snx"]);
        let input = File::open(folder.0.join("v.snx")).unwrap();
        let output = command.args(force).stdin(input).output().unwrap();
        let complaints = String::from_utf8(output.stderr).unwrap();
        assert_eq!(
            complaints,
            "spoonharbor: v.snx: it is the text itself, and stays\n"
        );
        assert_eq!(output.status.code(), Some(2));
    }
    assert_eq!(bytes(&folder, "v.snx"), PROBE.as_bytes());
}

/// The calls that wrote a table where a probe was, and one through a link.
#[test]
fn another_file_stays_unless_it_is_forced() {
    let calls: [(&[&str], &str); 5] = [
        (&["mend", "v.snx", "--text", "other.snx"], "v.snx"),
        (
            &["mend", "--check", "v.snx", "--text", "other.snx"],
            "v.snx",
        ),
        (&["store", "other.snx", "-o", "v.snx"], "v.snx"),
        (&["store", "other.snx", "-o", "link"], "link"),
        (
            &[
                "move",
                "o.tab",
                "--form",
                "1",
                "--text",
                "other.snx",
                "-o",
                "v.snx",
            ],
            "v.snx",
        ),
    ];
    for (number, (call, name)) in calls.into_iter().enumerate() {
        let folder = folder(&format!("stays-{number}"));
        folder.file("o.tab", table(OTHER));
        symlink("v.snx", folder.0.join("link")).unwrap();
        assert_trouble(folder.run(call), &format!("{name}: {NO_TABLE}"));
        assert_eq!(bytes(&folder, "v.snx"), PROBE.as_bytes());
        let ran = folder.run(&[call, &["--force"]].concat());
        assert_eq!(ran.complaints, "");
        match call.contains(&"--check") {
            true => assert_eq!(ran.status, 1),
            false => {
                assert_eq!(ran.status, 0);
                assert_eq!(bytes(&folder, "v.snx"), table(OTHER));
            }
        }
        assert!(is_link(&folder, "link"));
        let left = ["bad.tab", "link", "o.tab", "other.snx", "t.tab", "v.snx"];
        assert_eq!(names(&folder), left);
    }
}

/// Zeros, a part of a block, and blocks that do not stand where they should.
#[test]
fn what_is_no_table_stays() {
    let folder = folder("none");
    let file = table(PROBE);
    let none = [
        vec![0; 4 * BLOCK],
        b" ".to_vec(),
        file[..BLOCK - 1].to_vec(),
        file[BLOCK..].to_vec(),
        file[1..].to_vec(),
    ];
    for bad in none {
        folder.file("out", &bad);
        assert_trouble(
            folder.run(&["store", "v.snx", "-o", "out"]),
            &format!("out: {NO_TABLE}"),
        );
        assert_trouble(
            folder.run(&["mend", "out", "--text", "v.snx"]),
            &format!("out: {NO_TABLE}"),
        );
        assert_eq!(bytes(&folder, "out"), bad);
    }
}

/// What is nothing, an empty file, or a table of which one block is right, in either form.
#[test]
fn a_table_is_written_over() {
    let folder = folder("over");
    let told = "v.snx: 44 rows stored in out\n";
    let mut one_right = table(OTHER);
    one_right.iter_mut().take(BLOCK).for_each(|byte| *byte = 7);
    let before = [
        vec![],
        one_right,
        table(OTHER)[..BLOCK].to_vec(),
        short(OTHER),
        [&short(OTHER)[..], b"more"].concat(),
    ];
    assert_told(folder.run(&["store", "v.snx", "-o", "out"]), told, 0);
    for file in before {
        folder.file("out", &file);
        assert_told(folder.run(&["store", "v.snx", "-o", "out"]), told, 0);
        assert_eq!(bytes(&folder, "out"), table(PROBE));
        folder.file("out", &file);
        let call = [
            "move", "t.tab", "--form", "2", "--text", "v.snx", "-o", "out",
        ];
        let told = "t.tab: form 2 of 2048 bytes in out (2048 before)\n";
        assert_told(folder.run(&call), told, 0);
        assert_eq!(bytes(&folder, "out"), short(PROBE));
    }
    let left = ["bad.tab", "other.snx", "out", "t.tab", "v.snx"];
    assert_eq!(names(&folder), left);
}

// ---- links

/// The file behind links is mended, and the links stay.
#[test]
fn links_are_followed() {
    let folder = folder("links");
    fs::create_dir(folder.0.join("deep")).unwrap();
    symlink("../bad.tab", folder.0.join("deep/link")).unwrap();
    symlink("deep/link", folder.0.join("links")).unwrap();
    let told = "links: block 1 is damaged (bytes 512 to 1023)\nlinks: 1 block mended, form 1 of 2048 bytes\n";
    assert_told(folder.run(&["mend", "links", "--text", "v.snx"]), told, 0);
    assert_eq!(bytes(&folder, "bad.tab"), table(PROBE));
    let told = "other.snx: 10 rows stored in links\n";
    assert_told(folder.run(&["store", "other.snx", "-o", "links"]), told, 0);
    assert_eq!(bytes(&folder, "bad.tab"), table(OTHER));
    let call = [
        "move",
        "bad.tab",
        "--form",
        "2",
        "--text",
        "other.snx",
        "-o",
        "links",
    ];
    assert_eq!(folder.run(&call).status, 0);
    assert_eq!(bytes(&folder, "bad.tab"), short(OTHER));
    assert!(is_link(&folder, "links") && is_link(&folder, "deep/link"));
    let inside = fs::read_dir(folder.0.join("deep")).unwrap();
    assert_eq!(inside.count(), 1);
}

#[test]
fn a_link_that_leads_nowhere_is_trouble() {
    let folder = folder("nowhere");
    symlink("missing", folder.0.join("dangling")).unwrap();
    symlink("loop", folder.0.join("loop")).unwrap();
    for force in [&[][..], &["--force"]] {
        let store = |to| folder.run(&[&["store", "v.snx", "-o", to], force].concat());
        let mend = |name| folder.run(&[&["mend", name, "--text", "v.snx"], force].concat());
        assert_trouble(
            store("dangling"),
            "dangling: it is a link to a file that is not there",
        );
        assert_trouble(
            mend("dangling"),
            "dangling: No such file or directory (os error 2)",
        );
        let turns = "loop: Too many levels of symbolic links (os error 40)";
        assert_trouble(store("loop"), turns);
        assert_trouble(mend("loop"), turns);
    }
    assert!(!folder.0.join("missing").exists());
    assert!(is_link(&folder, "dangling") && is_link(&folder, "loop"));
}

/// Under its other names a file would stay as it was, so one with several is written only if it is forced.
#[test]
fn a_file_with_several_names_stays_unless_it_is_forced() {
    let folder = folder("names");
    fs::hard_link(folder.0.join("bad.tab"), folder.0.join("second")).unwrap();
    let told = "second: block 1 is damaged (bytes 512 to 1023)\n";
    let ran = folder.run(&["mend", "second", "--text", "v.snx"]);
    assert_eq!(
        ran.complaints,
        "spoonharbor: second: it has 2 names, and under the others would stay as it is; --force writes it under this one\n"
    );
    assert_eq!((ran.out.as_str(), ran.status), (told, 2));
    assert_eq!(bytes(&folder, "second"), damaged());
    let ran = folder.run(&["mend", "second", "--text", "v.snx", "--force"]);
    let told = format!("{told}second: 1 block mended, form 1 of 2048 bytes\n");
    assert_told(ran, &told, 0);
    assert_eq!(bytes(&folder, "second"), table(PROBE));
    assert_eq!(bytes(&folder, "bad.tab"), damaged());
    fs::hard_link(folder.0.join("t.tab"), folder.0.join("right")).unwrap();
    let told = "right: right, form 1 of 2048 bytes\n";
    assert_told(folder.run(&["mend", "right", "--text", "v.snx"]), told, 0);
}

// ---- what mend tells apart

const ASKING: &str =
    "f: it stays; --text names its own text, or --force writes over it what v.snx has\n";

/// A sound table of another text stays: of one of another length, and of one with another line, in both forms.
#[test]
fn a_table_of_another_text_stays_unless_it_is_forced() {
    let folder = folder("another");
    let moved = PROBE.replacen("\n;", ";\n", 1);
    let named = PROBE.replacen(";\n;;", ";\na;", 1);
    let ended = PROBE.replacen(";\n;;", ";\n;@", 1);
    let longer = "that one has 26 bytes, and v.snx has 44";
    let cases = [
        (table(OTHER), 1, longer),
        (short(OTHER), 2, longer),
        (table(&moved), 1, "in line 1 it differs from v.snx"),
        (table(&named), 1, "in line 2 it differs from v.snx"),
        (short(&named), 2, "in line 2 it differs from v.snx"),
        (table(&ended), 1, "in line 2 it differs from v.snx"),
        (short(&ended), 2, "in line 2 it differs from v.snx"),
    ];
    for (file, form, how) in cases {
        folder.file("f", &file);
        let told = format!("f: sound, but of another text: {how}\n");
        let ran = folder.run(&["mend", "--check", "f", "--text", "v.snx"]);
        assert_told(ran, &told, 1);
        let ran = folder.run(&["mend", "f", "--text", "v.snx"]);
        assert_told(ran, &format!("{told}{ASKING}"), 1);
        assert_eq!(bytes(&folder, "f"), file);
        let ran = folder.run(&["mend", "f", "--text", "v.snx", "--force"]);
        let done = format!("{told}f: written anew, form {form} of 2048 bytes\n");
        assert_told(ran, &done, 0);
        let right = if form == 1 {
            table(PROBE)
        } else {
            short(PROBE)
        };
        assert_eq!(bytes(&folder, "f"), right);
        let ran = folder.run(&["mend", "f", "--text", "v.snx"]);
        assert_told(ran, &format!("f: right, form {form} of 2048 bytes\n"), 0);
    }
}

/// A damaged one of which block 0 still tells that it is another text's is not mended by this one.
#[test]
fn a_damaged_table_of_another_text_stays_unless_it_is_forced() {
    let folder = folder("both");
    let mut file = table(OTHER);
    file[600] ^= 1;
    folder.file("f", &file);
    let told = "f: damaged, and of another text: that one has 26 bytes, and v.snx has 44\n";
    let ran = folder.run(&["mend", "f", "--text", "v.snx"]);
    assert_told(ran, &format!("{told}{ASKING}"), 1);
    assert_eq!(bytes(&folder, "f"), file);
    let ran = folder.run(&["mend", "f", "--text", "v.snx", "--force"]);
    assert_told(
        ran,
        &format!("{told}f: written anew, form 1 of 2048 bytes\n"),
        0,
    );
    folder.file("f", &file);
    let ran = folder.run(&["mend", "f", "--text", "other.snx"]);
    let told =
        "f: block 1 is damaged (bytes 512 to 1023)\nf: 1 block mended, form 1 of 1024 bytes\n";
    assert_told(ran, told, 0);
}

/// A damaged one is mended at once, an empty one written whole.
#[test]
fn a_damaged_table_is_mended_unasked() {
    let folder = folder("unasked");
    let told = "bad.tab: block 1 is damaged (bytes 512 to 1023)\nbad.tab: 1 block mended, form 1 of 2048 bytes\n";
    assert_told(folder.run(&["mend", "bad.tab", "--text", "v.snx"]), told, 0);
    folder.file("bad.tab", "");
    let missing: String = (0..4)
        .map(|block| format!("bad.tab: block {block} is missing\n"))
        .collect();
    assert_told(
        folder.run(&["mend", "bad.tab", "--text", "v.snx", "--form", "2"]),
        &format!("{missing}bad.tab: 4 blocks mended, form 2 of 2048 bytes\n"),
        0,
    );
    assert_eq!(bytes(&folder, "bad.tab"), short(PROBE));
}

/// A right file in the other form than the one asked for is told as that, and moved.
#[test]
fn a_table_in_the_other_form_is_moved() {
    let folder = folder("form");
    let call = ["mend", "t.tab", "--form", "2", "--text", "v.snx"];
    let ran = folder.run(&[&call[..], &["--check"]].concat());
    assert_told(ran, "t.tab: right, but in form 1\n", 1);
    let told = "t.tab: right, but in form 1\nt.tab: moved, form 2 of 2048 bytes\n";
    assert_told(folder.run(&call), told, 0);
    assert_eq!(bytes(&folder, "t.tab"), short(PROBE));
}

// ---- how it is written

fn mode(folder: &Folder, name: &str) -> u32 {
    fs::metadata(folder.0.join(name)).unwrap().mode() & 0o7777
}

fn set_mode(folder: &Folder, name: &str, mode: u32) {
    fs::set_permissions(folder.0.join(name), Permissions::from_mode(mode)).unwrap();
}

fn owner(folder: &Folder, name: &str) -> (u32, u32) {
    let file = fs::metadata(folder.0.join(name)).unwrap();
    (file.uid(), file.gid())
}

/// Whether this is root, who may do what others may not.
fn is_root(folder: &Folder) -> bool {
    owner(folder, "v.snx").0 == 0
}

/// The three verbs that write, each over `bad.tab`.
const WRITING: [&[&str]; 3] = [
    &["store", "v.snx", "-o", "bad.tab"],
    &["mend", "bad.tab", "--text", "v.snx"],
    &[
        "move", "t.tab", "--form", "1", "--text", "v.snx", "-o", "bad.tab",
    ],
];

#[test]
fn mode_owner_and_group_stay() {
    let folder = folder("kept");
    for call in WRITING {
        for kept in [0o640, 0o600, 0o666, 0o444] {
            if kept == 0o444 && !is_root(&folder) {
                continue;
            }
            folder.file("bad.tab", damaged());
            set_mode(&folder, "bad.tab", kept);
            if is_root(&folder) {
                chown(folder.0.join("bad.tab"), Some(1234), Some(4321)).unwrap();
            }
            let before = owner(&folder, "bad.tab");
            assert_eq!(folder.run(call).status, 0);
            assert_eq!(bytes(&folder, "bad.tab"), table(PROBE));
            assert_eq!(mode(&folder, "bad.tab"), kept);
            assert_eq!(owner(&folder, "bad.tab"), before);
            fs::remove_file(folder.0.join("bad.tab")).unwrap();
        }
    }
    let told = folder.run(&["store", "v.snx", "-o", "new"]);
    assert_eq!(
        (told.status, mode(&folder, "new")),
        (0, mode(&folder, "v.snx"))
    );
}

/// The command as somebody who is not root: as nobody if this is root, else as whoever this is. It is copied to where
/// anybody may run it, by a program of its own: a file that a thread here had open for writing could not be run.
fn as_nobody(folder: &Folder, arguments: &[&str]) -> Ran {
    let program = folder.0.join("spoonharbor");
    let mut copy = folder.program("cp");
    copy.arg(env!("CARGO_BIN_EXE_spoonharbor")).arg(&program);
    assert_eq!(shared::run(&mut copy, b"").status, 0);
    let mut command = folder.program(&program);
    if is_root(folder) {
        command.uid(NOBODY).gid(NOBODY);
    }
    let ran = shared::run(command.args(arguments), b"");
    fs::remove_file(program).unwrap();
    ran
}

/// A folder in which nobody may make a file, and a file that nobody may write.
#[test]
fn without_permission_the_old_file_stays() {
    let folder = folder("permission");
    fs::create_dir(folder.0.join("closed")).unwrap();
    for name in ["closed/bad.tab", "closed/empty"] {
        folder.file(name, "");
        set_mode(&folder, name, 0o666);
    }
    folder.file("closed/bad.tab", damaged());
    set_mode(&folder, "closed", 0o555);
    set_mode(&folder, ".", 0o777);
    set_mode(&folder, "bad.tab", 0o444);
    let calls: [(&[&str], &str); 5] = [
        (
            &["mend", "closed/bad.tab", "--text", "v.snx"],
            "closed/bad.tab",
        ),
        (
            &["store", "v.snx", "-o", "closed/bad.tab"],
            "closed/bad.tab",
        ),
        (&["store", "v.snx", "-o", "closed/new"], "closed/new"),
        (&["store", "v.snx", "-o", "bad.tab"], "bad.tab"),
        (
            &["mend", "bad.tab", "--text", "v.snx", "--force"],
            "bad.tab",
        ),
    ];
    for (call, name) in calls {
        let ran = as_nobody(&folder, call);
        let complaint = format!("spoonharbor: {name}: Permission denied (os error 13)\n");
        assert_eq!((ran.complaints, ran.status), (complaint, 2));
    }
    assert_eq!(bytes(&folder, "closed/bad.tab"), damaged());
    assert_eq!(bytes(&folder, "bad.tab"), damaged());
    set_mode(&folder, "closed", 0o755);
    assert_eq!(fs::read_dir(folder.0.join("closed")).unwrap().count(), 2);
    assert_eq!(names(&folder).len(), 5);
}

/// Somebody else's file stays somebody else's, even where it might be written.
#[test]
fn a_file_whose_owner_cannot_be_kept_stays() {
    let folder = folder("owner");
    if !is_root(&folder) {
        eprintln!("left out: only root makes a file of another owner");
        return;
    }
    set_mode(&folder, ".", 0o777);
    set_mode(&folder, "bad.tab", 0o666);
    for force in [&[][..], &["--force"]] {
        let ran = as_nobody(&folder, &[WRITING[0], force].concat());
        let complaint =
            "bad.tab: it belongs to user 0 and group 0, which cannot be kept, and stays: Operation not permitted (os error 1)";
        assert_trouble(ran, complaint);
    }
    assert_eq!(bytes(&folder, "bad.tab"), damaged());
    assert_eq!(
        (owner(&folder, "bad.tab"), names(&folder).len()),
        ((0, 0), 4)
    );
}

/// The command where no file may have over two blocks: the write that makes one longer ends it by a signal, or fails
/// if that is ignored.
fn limited(folder: &Folder, before: &str, arguments: &[&str]) -> Command {
    let mut command = folder.program("sh");
    command.args([
        "-c",
        &format!("ulimit -c 0; {before} ulimit -f 2; exec \"$@\""),
    ]);
    command.args(["sh", env!("CARGO_BIN_EXE_spoonharbor")]);
    command.args(arguments);
    command
}

#[test]
fn where_the_writing_fails_the_old_file_stays() {
    let folder = folder("fails");
    let before = names(&folder);
    for call in WRITING {
        let ran = shared::run(&mut limited(&folder, "trap '' XFSZ;", call), b"");
        let complaint = "spoonharbor: bad.tab: File too large (os error 27)\n";
        assert_eq!((ran.complaints.as_str(), ran.status), (complaint, 2));
        assert_eq!(bytes(&folder, "bad.tab"), damaged());
        assert_eq!(names(&folder), before);
    }
}

/// Mounts a disk of sixteen kilobytes, seen by this script alone, with a table on it that there is no second room for.
const ON_A_FULL_DISK: &str = "
mount -t tmpfs -o size=16k tmpfs disk && cp long.tab disk && echo mounted || exit 0
\"$0\" mend disk/long.tab --text long.snx; echo $?
\"$0\" store long.snx -o disk/long.tab; echo $?
cmp disk/long.tab long.tab && ls -A disk
";

#[test]
fn a_full_disk_leaves_the_old_file() {
    let folder = folder("full");
    let text = ";".repeat(300);
    let mut file = table(&text);
    file[BLOCK + 77] ^= 1;
    folder.file("long.snx", &text);
    folder.file("long.tab", &file);
    fs::create_dir(folder.0.join("disk")).unwrap();
    let mut command = folder.program("sh");
    command.args(["-c", "exec unshare \"$@\"", "sh"]);
    if !is_root(&folder) {
        command.arg("--map-root-user");
    }
    command.args(["--mount", "sh", "-c", ON_A_FULL_DISK]);
    let ran = shared::run(command.arg(env!("CARGO_BIN_EXE_spoonharbor")), b"");
    if !ran.out.starts_with("mounted\n") {
        eprintln!("left out: no disk can be mounted here: {}", ran.complaints);
        return;
    }
    let told = "disk/long.tab: block 1 is damaged (bytes 512 to 1023)\n";
    assert_eq!(ran.out, format!("mounted\n{told}2\n2\nlong.tab\n"));
    let complaint = "spoonharbor: disk/long.tab: No space left on device (os error 28)\n";
    assert_eq!(ran.complaints, complaint.repeat(2));
}

/// Whether a name is that of a file which an ended write leaves.
fn is_left_over(name: &str) -> bool {
    name.starts_with(".spoonharbor-") && name.ends_with(".new")
}

/// The system ends the command in the middle of its write. What it left beside the file is in nobody's way.
#[test]
fn a_kill_in_the_middle_leaves_the_old_file() {
    let folder = folder("middle");
    for call in WRITING {
        let ended = limited(&folder, "", call).output().unwrap();
        assert_eq!(ended.status.signal(), Some(25), "{ended:?}");
        assert_eq!(bytes(&folder, "bad.tab"), damaged());
    }
    let left: Vec<String> = names(&folder)
        .into_iter()
        .filter(|name| is_left_over(name))
        .collect();
    assert_eq!(left.len(), 3);
    for name in &left {
        assert_eq!(bytes(&folder, name), table(PROBE)[..2 * BLOCK]);
    }
    assert_eq!(folder.run(WRITING[1]).status, 0);
    assert_eq!(bytes(&folder, "bad.tab"), table(PROBE));
    assert_eq!(names(&folder).len(), 4 + left.len());
}

/// Killed at some moment, earlier or later: there are the old bytes or the new ones, and nothing between.
#[test]
fn a_kill_at_any_moment_leaves_a_whole_file() {
    let folder = folder("moment");
    let (old, text) = (damaged(), ";".repeat(65_534));
    let new = table(&text);
    folder.file("long.snx", &text);
    let store = || {
        let mut command = folder.spoonharbor(&["store", "long.snx", "-o", "bad.tab"]);
        command.stdout(Stdio::null()).spawn().unwrap()
    };
    let began = Instant::now();
    assert!(store().wait().unwrap().success());
    let whole = began.elapsed();
    let mut counts = [0; 3];
    for round in 0..50 {
        folder.file("bad.tab", &old);
        let mut child = store();
        thread::sleep(whole * round / 40);
        child.kill().unwrap();
        child.wait().unwrap();
        let found = bytes(&folder, "bad.tab");
        assert!(found == old || found == new);
        let beside: Vec<String> = names(&folder)
            .into_iter()
            .filter(|name| is_left_over(name))
            .collect();
        counts[usize::from(found == new)] += 1;
        counts[2] += beside.len();
        beside
            .iter()
            .for_each(|name| fs::remove_file(folder.0.join(name)).unwrap());
        assert_eq!(names(&folder).len(), 5);
    }
    println!(
        "old file {}, new file {}, killed in the middle {}",
        counts[0], counts[1], counts[2]
    );
}

/// What keeps nothing is written as it is, and stays what it is; a folder and what else is no file is not written.
#[test]
fn what_is_no_file() {
    let folder = folder("kinds");
    let told = "v.snx: 44 rows stored in /dev/null\n";
    assert_told(folder.run(&["store", "v.snx", "-o", "/dev/null"]), told, 0);
    let null = fs::metadata("/dev/null").unwrap();
    assert!(null.file_type().is_char_device());
    let full = "/dev/full: No space left on device (os error 28)";
    assert_trouble(folder.run(&["store", "v.snx", "-o", "/dev/full"]), full);
    for (output, words) in [
        (".", "it is a directory"),
        ("new/", "it is a directory that is not there"),
        ("v.snx/x", "Not a directory (os error 20)"),
        ("no/x", "No such file or directory (os error 2)"),
    ] {
        let ran = folder.run(&["store", "v.snx", "-o", output, "--force"]);
        assert_trouble(ran, &format!("{output}: {words}"));
    }
    assert_eq!(names(&folder).len(), 4);
}

/// A name as long as names may be.
#[test]
fn the_longest_name_is_written() {
    let folder = folder("long");
    let name = "n".repeat(255);
    for _ in 0..2 {
        assert_eq!(folder.run(&["store", "v.snx", "-o", &name]).status, 0);
    }
    assert_eq!(bytes(&folder, &name), table(PROBE));
    assert!(Path::new(&folder.0).join(&name).exists());
}

#[test]
fn standard_input_is_not_mended() {
    let folder = folder("dash");
    let ran = folder.run_with_input(&["mend", "-", "--text", "v.snx"], &damaged());
    let first = ran.complaints.lines().next();
    let wanted = "spoonharbor: mend: the path of a file is wanted";
    assert_eq!((first, ran.status), (Some(wanted), 2));
    assert_eq!(names(&folder).len(), 4);
    for verb in ["check", "rows", "tree", "load"] {
        let ran = folder.run(&[verb, "--force", "v.snx"]);
        assert!(ran
            .complaints
            .starts_with("spoonharbor: unknown option --force;"));
    }
}
