//! `spoonharbor store` and `load`, run as a person runs them.

mod shared;

use compare::model::file::seal;
use shared::Folder;
use std::fs;

const BLOCK: usize = 512;

/// A text whose table has four blocks.
fn probe() -> String {
    format!("unit u{{\n{}}}\n", " x+=-0x1f;\n".repeat(10))
}

/// A folder with a text and its stored table.
fn folder(name: &str) -> Folder {
    let folder = Folder::new(name);
    folder.file("probe.snx", probe());
    let ran = folder.run(&["store", "probe.snx", "-o", "probe.rows"]);
    assert_eq!(ran.out, "probe.snx: 45 rows stored in probe.rows\n");
    assert_eq!((ran.complaints.as_str(), ran.status), ("", 0));
    folder
}

fn bytes(folder: &Folder, name: &str) -> Vec<u8> {
    fs::read(folder.0.join(name)).unwrap()
}

/// A stored table is listed as its text is, but for the spellings.
#[test]
fn what_is_stored_is_listed() {
    let folder = folder("listed");
    assert_eq!(bytes(&folder, "probe.rows").len(), 4 * BLOCK);
    let loaded = folder.run(&["load", "probe.rows"]);
    assert_eq!((loaded.complaints.as_str(), loaded.status), ("", 0));
    let rows = folder.run(&["rows", "probe.snx"]).out;
    let unspelt = rows
        .replace("identifier u", "identifier")
        .replace("identifier x", "identifier")
        .replace("number -0x1f =", "number =");
    assert_eq!(loaded.out, unspelt);
    assert!(loaded.out.contains("number = -31\n"));
    let file = bytes(&folder, "probe.rows");
    let ran = folder.run_with_input(&["load", "-"], &file);
    assert_eq!((ran.out, ran.status), (loaded.out, 0));
}

#[test]
fn a_refused_text_is_stored_up_to_there() {
    let folder = Folder::new("up-to-there");
    folder.file("t", "a @");
    let ran = folder.run(&["store", "-o", "t.rows", "t"]);
    assert_eq!(
        ran.out,
        "t: 1 row stored in t.rows\nerror[11]: nothing begins with '@'\n --> t:1:3\n  |\n1 | a @\n  |   ^\n  \
         = proved: the library refuses the text with 11 at 1:3\n\n"
    );
    assert_eq!((ran.complaints.as_str(), ran.status), ("", 1));
    let ran = folder.run(&["load", "t.rows"]);
    assert_eq!(
        ran.out,
        "    0  1:1       0..1          identifier\nt.rows: its text is refused at 1:3: nothing can begin here\n"
    );
    assert_eq!((ran.complaints.as_str(), ran.status), ("", 1));
}

/// Nothing is written of what has no table.
#[test]
fn texts_without_a_table_are_refused() {
    let folder = Folder::new("without");
    folder.file("long", vec![b'\n'; 65_537]);
    folder.file("degree", b"// 5\xb0\n");
    folder.file("rows", vec![b';'; 65_535]);
    let refused = [
        (
            "long",
            "error[1]: the text is longer than 65,536 bytes\n --> long\n",
        ),
        ("degree", "error[2]: byte 176 begins no UTF-8 character"),
        (
            "rows",
            "rows: more rows than a file holds: the most is 65,535\n",
        ),
    ];
    for (name, message) in refused {
        let ran = folder.run(&["store", name, "-o", "out"]);
        assert!(ran.out.starts_with(message), "{}", ran.out);
        assert_eq!((ran.complaints.as_str(), ran.status), ("", 1));
        assert!(!folder.0.join("out").exists());
    }
    folder.file("most", vec![b';'; 65_534]);
    assert_eq!(folder.run(&["store", "most", "-o", "out"]).status, 0);
    assert_eq!(bytes(&folder, "out").len(), 2_237_440);
    let ran = folder.run(&["load", "out"]);
    assert_eq!((ran.out.lines().count(), ran.status), (65_535, 0));
}

#[test]
fn a_damaged_block_is_named() {
    let folder = folder("damaged");
    let file = bytes(&folder, "probe.rows");
    for block in 0..4 {
        let mut damaged = file.clone();
        damaged[block * BLOCK + 77] ^= 4;
        folder.file("damaged", damaged);
        let ran = folder.run(&["load", "damaged"]);
        let (from, to) = (block * BLOCK, block * BLOCK + 511);
        let wanted = format!("damaged: block {block} is damaged (bytes {from} to {to})\n");
        assert_eq!((ran.out, ran.status), (wanted, 1));
        assert_eq!(ran.complaints, "");
    }
}

#[test]
fn each_refusal_of_a_file_has_its_words() {
    let folder = folder("refused");
    let file = bytes(&folder, "probe.rows");
    let said = |at: usize, word: u8| {
        let mut first = file[..BLOCK].to_vec();
        first[at] = word;
        seal(&mut first);
        [&first, &file[BLOCK..]].concat()
    };
    let length = "no whole stored table: it is cut short, or longer than it says";
    let cases = [
        (Vec::new(), length),
        (file[..3 * BLOCK].to_vec(), length),
        ([&file[..], b"\n"].concat(), length),
        (probe().into_bytes(), length),
        (said(4, 3), "stored in a form that is not read here"),
        (
            said(4, 2),
            "stored in form 2, which is read beside its text: --text names it",
        ),
        (said(16, 9), "its blocks are sound, but they hold no table"),
        (
            vec![0; 2_237_441],
            "longer than any stored table, which is at most 2,237,440 bytes",
        ),
    ];
    for (bytes, words) in cases {
        folder.file("t", bytes);
        let ran = folder.run(&["load", "t"]);
        assert_eq!((ran.out, ran.status), (format!("t: {words}\n"), 1));
        assert_eq!(ran.complaints, "");
    }
}

#[test]
fn what_cannot_be_written_is_trouble() {
    let folder = folder("written");
    fs::create_dir(folder.0.join("folder")).unwrap();
    let cases = [
        ("folder", "folder: it is a directory"),
        ("no/file", "no/file: No such file or directory (os error 2)"),
        (
            "./probe.snx",
            "./probe.snx: it is the text itself, and stays",
        ),
    ];
    for (output, words) in cases {
        let ran = folder.run(&["store", "probe.snx", "-o", output]);
        assert_eq!(ran.complaints, format!("spoonharbor: {words}\n"));
        assert_eq!((ran.out.as_str(), ran.status), ("", 2));
    }
    assert_eq!(bytes(&folder, "probe.snx"), probe().into_bytes());
    let ran = folder.run(&["store", "missing", "-o", "out"]);
    assert_eq!((ran.out.as_str(), ran.status), ("", 2));
    assert!(!folder.0.join("out").exists());
    assert_eq!(folder.run(&["load", "missing"]).status, 2);
    assert_eq!(folder.run(&["load", "folder"]).status, 2);
}

#[test]
fn a_wrong_call_is_trouble() {
    let folder = folder("call");
    let calls: [(&[&str], &str); 8] = [
        (&["store"], "store: one file is wanted\n"),
        (&["store", "-o", "x"], "store: one file is wanted\n"),
        (
            &["store", "probe.snx"],
            "store: -o and the file to write are missing\n",
        ),
        (
            &["store", "probe.snx", "-o"],
            "store: -o and the file to write are missing\n",
        ),
        (
            &["store", "probe.snx", "-o", "-"],
            "store: behind -o a path is wanted\n",
        ),
        (
            &["store", "probe.snx", "probe.snx", "-o", "x"],
            "store: one file is wanted\n",
        ),
        (&["load"], "load: one file is wanted\n"),
        (&["load", "-o", "x"], "unknown option -o"),
    ];
    for (arguments, complaint) in calls {
        let ran = folder.run(arguments);
        let complaint = format!("spoonharbor: {complaint}");
        assert!(ran.complaints.starts_with(&complaint), "{}", ran.complaints);
        assert_eq!((ran.out.as_str(), ran.status), ("", 2));
        assert!(!folder.0.join("x").exists());
    }
}
