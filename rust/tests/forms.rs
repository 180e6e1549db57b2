//! Files with their text at hand: both forms, moves and mendings, by the crate and by the command.

mod shared;

use shared::Folder;
use spoonharbor::{mend_file, move_file, Document, Form, Reason, Table};
use std::fs;

const BLOCK: usize = 512;

/// Texts whose files have one to four blocks in each form, of every kind of ending.
const TEXTS: [&str; 8] = [
    "",
    "@",
    "a",
    "a\n \"",
    "\n\n 0x",
    "unit u{\n x+=-1;\n}\n",
    ";;;;;;;;;;;;;;;;;;;;",
    ";;\n;;;;;;;;;;;;; ;;;;;;;;;;;;;;;\n// c\n;;;;;;;;;;;; @",
];

fn full(text: &str) -> Vec<u8> {
    Document::open(text).unwrap().table().store().unwrap()
}

fn short(text: &str) -> Vec<u8> {
    move_file(text.as_bytes(), &full(text), Form::Short).unwrap()
}

/// There and back gives the same bytes, and so does a move to the form that the file has.
#[test]
fn a_file_moves_there_and_back() {
    for text in TEXTS {
        let bytes = text.as_bytes();
        let (full, short) = (full(text), short(text));
        assert_eq!(move_file(bytes, &short, Form::Full).unwrap(), full);
        assert_eq!(move_file(bytes, &short, Form::Short).unwrap(), short);
        assert_eq!(move_file(bytes, &full, Form::Full).unwrap(), full);
        let rows = Document::open(text).unwrap().rows().len();
        assert_eq!(short.len(), BLOCK * (1 + rows.div_ceil(21)));
    }
}

/// Either file gives the text's own table beside the text; without the text, form 2 is refused by name.
#[test]
fn both_forms_are_read_beside_the_text() {
    for text in TEXTS {
        let document = Document::open(text).unwrap();
        for file in [full(text), short(text)] {
            assert_eq!(
                Table::load_beside(text.as_bytes(), &file).as_ref(),
                Ok(document.table())
            );
        }
        let refused = Table::load(&short(text)).unwrap_err();
        assert_eq!((refused.reason, refused.number()), (Reason::OtherForm, 44));
    }
}

/// A text of another length, and for form 1 one whose lines are others; form 2 takes any text of its length.
#[test]
fn another_text_is_refused() {
    let (text, other) = ("a\nb", "\nab");
    let reason = |text: &str, file: &[u8]| {
        Table::load_beside(text.as_bytes(), file)
            .unwrap_err()
            .reason
    };
    assert_eq!(reason("a\nb ", &full(text)), Reason::OtherText);
    assert_eq!(reason("a\n", &short(text)), Reason::OtherText);
    assert_eq!(reason(other, &full(text)), Reason::OtherText);
    let places = |text: &str, file: &[u8]| {
        let table = Table::load_beside(text.as_bytes(), file).unwrap();
        table
            .rows()
            .map(|row| (row.line, row.column))
            .collect::<Vec<_>>()
    };
    assert_eq!(places(text, &short(text)), [(1, 1), (2, 1), (2, 2)]);
    assert_eq!(places(other, &short(text)), [(1, 1), (2, 2), (2, 3)]);
}

/// Every byte of a small file, changed once, is mended, and its block listed; then nothing more is.
#[test]
fn a_changed_byte_is_mended() {
    let text = "unit u{\n x+=-1;\n}\n".as_bytes();
    for form in Form::ALL {
        let mut right = Vec::new();
        assert_eq!(mend_file(text, &mut right, form).unwrap(), [0, 1]);
        for at in 0..right.len() {
            let mut file = right.clone();
            file[at] ^= 0x11;
            assert_eq!(
                mend_file(text, &mut file, form).unwrap(),
                [(at / BLOCK) as u32]
            );
            assert_eq!(file, right);
            assert!(mend_file(text, &mut file, form).unwrap().is_empty());
        }
    }
}

/// Cut, missing and surplus blocks; the other form's file; and no file at all.
#[test]
fn what_is_missing_or_too_much_is_mended() {
    let text = ";".repeat(44);
    let mut right = full(&text);
    let mend = |file: &mut Vec<u8>| mend_file(text.as_bytes(), file, Form::Full).unwrap();
    for (cut, listed) in [
        (0, &[0, 1, 2, 3][..]),
        (511, &[0, 1, 2, 3]),
        (512, &[1, 2, 3]),
        (1500, &[2, 3]),
        (2047, &[3]),
    ] {
        let mut file = right[..cut].to_vec();
        assert_eq!((mend(&mut file), &file), (listed.to_vec(), &right));
    }
    for longer in [1, 512, 2000] {
        let mut file = [&right[..], &vec![7; longer]].concat();
        assert_eq!((mend(&mut file), &file), (vec![4], &right));
    }
    let mut file = short(&text);
    assert_eq!((mend(&mut file), &file), (vec![0, 1, 2, 3], &right));
    assert!(mend(&mut right).is_empty());
}

#[test]
fn a_text_without_a_table_leaves_the_file() {
    let texts = [
        (vec![b' '; 65_537], 1),
        (b"// \xff".to_vec(), 2),
        (vec![b';'; 65_535], 40),
    ];
    for (text, number) in texts {
        let mut file = b"as it was".to_vec();
        assert_eq!(
            mend_file(&text, &mut file, Form::Short)
                .unwrap_err()
                .number(),
            number
        );
        assert_eq!(file, b"as it was");
    }
}

// ---- the command

fn folder(name: &str) -> Folder {
    let folder = Folder::new(name);
    folder.file("probe", ";".repeat(44));
    assert_eq!(folder.run(&["store", "probe", "-o", "rows"]).status, 0);
    folder
}

fn bytes(folder: &Folder, name: &str) -> Vec<u8> {
    fs::read(folder.0.join(name)).unwrap()
}

/// What the folder holds, so that a file left behind shows.
fn names(folder: &Folder) -> Vec<String> {
    let entries = fs::read_dir(&folder.0).unwrap();
    let mut names: Vec<String> = entries
        .map(|entry| entry.unwrap().file_name().into_string().unwrap())
        .collect();
    names.sort();
    names
}

#[test]
fn the_command_moves_a_file() {
    let folder = folder("move");
    let ran = folder.run(&[
        "move", "rows", "--form", "2", "--text", "probe", "-o", "short",
    ]);
    assert_eq!(
        ran.out,
        "rows: form 2 of 2048 bytes in short (2048 before)\n"
    );
    assert_eq!((ran.complaints.as_str(), ran.status), ("", 0));
    let listed = folder.run(&["load", "short", "--text", "probe"]);
    assert_eq!(
        (listed.out, listed.status),
        (folder.run(&["load", "rows"]).out, 0)
    );
    let ran = folder.run(&[
        "move", "--text", "probe", "--form", "1", "-o", "short", "short",
    ]);
    assert_eq!(ran.status, 0);
    assert_eq!(bytes(&folder, "short"), bytes(&folder, "rows"));
    folder.file("other", "x");
    let ran = folder.run(&[
        "move", "rows", "--form", "2", "--text", "other", "-o", "none",
    ]);
    assert_eq!(
        (ran.out.as_str(), ran.status),
        (
            "rows: the stored table is another text's: length, lines and columns, or characters' edges do not agree\n",
            1
        )
    );
    assert_eq!(names(&folder), ["other", "probe", "rows", "short"]);
}

#[test]
fn the_command_mends_a_file() {
    let folder = folder("mend");
    let right = bytes(&folder, "rows");
    let mut file = right[..3 * BLOCK + 9].to_vec();
    file[700] ^= 1;
    folder.file("rows", &file);
    let told = "rows: block 1 is damaged (bytes 512 to 1023)\nrows: block 3 is cut\n";
    let ran = folder.run(&["mend", "--check", "rows", "--text", "probe"]);
    assert_eq!(
        (ran.out, ran.status),
        (format!("{told}rows: 2 blocks to mend in form 1\n"), 1)
    );
    assert_eq!(bytes(&folder, "rows"), file);
    let ran = folder.run(&["mend", "rows", "--text", "probe"]);
    assert_eq!(
        (ran.out, ran.status),
        (
            format!("{told}rows: 2 blocks mended, form 1 of 2048 bytes\n"),
            0
        )
    );
    assert_eq!(bytes(&folder, "rows"), right);
    let ran = folder.run(&["mend", "rows", "--text", "probe"]);
    assert_eq!(
        (ran.out.as_str(), ran.status),
        ("rows: right, form 1 of 2048 bytes\n", 0)
    );
    assert_eq!(names(&folder), ["probe", "rows"]);
}

/// The form is that of which more is right, whatever a damaged first block says; --form asks for another.
#[test]
fn the_command_keeps_the_form() {
    let folder = folder("keeps");
    let text = ";".repeat(44);
    let right = short(&text);
    let mut file = right.clone();
    file[4] = 1;
    folder.file("rows", [&file[..], b"more"].concat());
    let ran = folder.run(&["mend", "--text", "probe", "rows"]);
    let told =
        "rows: block 0 is damaged (bytes 0 to 511)\nrows: from byte 2048 on there is too much\n";
    assert_eq!(
        ran.out,
        format!("{told}rows: 2 blocks mended, form 2 of 2048 bytes\n")
    );
    assert_eq!(bytes(&folder, "rows"), right);
    assert_eq!(
        folder
            .run(&["mend", "--form", "1", "--text", "probe", "rows"])
            .status,
        0
    );
    assert_eq!(bytes(&folder, "rows"), full(&text));
}

/// Where the writing fails the old file stays, and nothing is left beside it.
#[test]
fn a_file_that_cannot_be_written_stays() {
    let folder = folder("stays");
    fs::create_dir(folder.0.join("folder")).unwrap();
    let ran = folder.run(&[
        "move", "rows", "--form", "2", "--text", "probe", "-o", "folder",
    ]);
    assert_eq!(ran.status, 2);
    let ran = folder.run(&[
        "move", "rows", "--form", "2", "--text", "probe", "-o", "no/such",
    ]);
    assert_eq!(ran.status, 2);
    assert_eq!(names(&folder), ["folder", "probe", "rows"]);
}

#[test]
fn what_is_missing_is_said() {
    let folder = folder("missing");
    let cases = [
        (&["move", "rows"][..], "move: --form and 1 or 2 are missing"),
        (
            &["move", "rows", "--form", "3"],
            "move: behind --form 1 or 2 is wanted",
        ),
        (
            &["move", "rows", "--form", "2"],
            "move: --text and the file's text are missing",
        ),
        (
            &["move", "rows", "--form", "2", "--text", "probe"],
            "move: -o and the file to write are missing",
        ),
        (
            &["mend", "rows"],
            "mend: --text and the file's text are missing",
        ),
        (&["mend", "--text", "probe"], "mend: one file is wanted"),
        (
            &["mend", "rows", "--style"],
            "unknown option --style; a file whose name begins with - stands behind --",
        ),
    ];
    for (arguments, words) in cases {
        let ran = folder.run(arguments);
        assert_eq!(
            ran.complaints.lines().next(),
            Some(&format!("spoonharbor: {words}")[..])
        );
        assert_eq!(ran.status, 2);
    }
}
