//! Comments above rows: what rows tell of them, and what `spoonharbor rows` and `check --style` make of it.

mod shared;

use shared::Folder;
use spoonharbor::Document;

fn counts(text: &str) -> Vec<usize> {
    let document = Document::open(text).unwrap();
    document.rows().map(|row| row.comments).collect()
}

#[test]
fn rows_tell_the_comments_before_them() {
    assert_eq!(counts(""), [0]);
    assert_eq!(counts("// °\n/* Ω */ a/**/b"), [2, 1, 0]);
    assert_eq!(counts("a \"//\" //"), [0, 0, 1]);
    assert_eq!(counts("a /**/ @"), [0]);
}

#[test]
fn the_comments_are_printed() {
    let folder = Folder::new("comments");
    folder.file("t", "// a\n/* b */ x;//");
    let ran = folder.run(&["rows", "t"]);
    assert_eq!(
        ran.out,
        "    0  2:9       13..14        identifier x, 2 comments before\n    \
         1  2:10      14..15        ';'\n    \
         2  2:13      17..17        end of file, 1 comment before\n"
    );
    assert_eq!(ran.status, 0);
    assert_eq!(folder.run(&["store", "t", "-o", "t.rows"]).status, 0);
    let loaded = folder.run(&["load", "t.rows"]);
    assert_eq!(loaded.out, ran.out.replace("identifier x", "identifier"));
}

const MAP: &str = "map m{type:.hash;key:u32;value:u64;max:8;}\n";

#[test]
fn maps_without_a_comment_are_told() {
    let folder = Folder::new("style");
    let text = format!(
        "// first\n{MAP} {}event e{{}}\n",
        MAP.replace("m{", "times{")
    );
    folder.file("t", &text);
    let fine = "t: ok, 2 maps, 1 event, 0 units (checked: syntax, sections, methods)\n";
    let ran = folder.run(&["check", "t"]);
    assert_eq!((ran.out.as_str(), ran.status), (fine, 0));
    let ran = folder.run(&["check", "--style", "t"]);
    let wanted = "\
warning[108]: map 'times' has no comment above it
 --> t:3:2
  |
3 |  map times{type:.hash;key:u32;value:u64;max:8;}
  |  ^^^

t: refused, 1 warning
";
    assert_eq!((ran.out.as_str(), ran.status), (wanted, 1));
    assert_eq!(ran.complaints, "");
    folder.file("good", format!("/* why */{MAP}// and this\n\n{MAP}"));
    assert_eq!(folder.run(&["check", "good", "--style"]).status, 0);
    assert_eq!(folder.run(&["check", "--style", "good", "t"]).status, 1);
}

/// A refusal elsewhere in the text does not silence style, and no other verb has one.
#[test]
fn style_is_told_beside_refusals() {
    let folder = Folder::new("no-style");
    folder.file("t", format!("{MAP}unit"));
    let ran = folder.run(&["check", "--style", "t"]);
    assert!(ran
        .out
        .starts_with("warning[108]: map 'm' has no comment above it\n"));
    assert!(ran.out.ends_with(
        &folder
            .run(&["check", "t"])
            .out
            .replace("1 error", "1 error, 1 warning")
    ));
    assert_eq!(ran.status, 1);
    for verb in ["rows", "tree", "load"] {
        let ran = folder.run(&[verb, "--style", "t"]);
        assert!(ran
            .complaints
            .starts_with("spoonharbor: unknown option --style"));
        assert_eq!(ran.status, 2);
    }
}
