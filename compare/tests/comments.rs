//! Comments are counted in the gaps before rows: the model's counts against those of the whole text, of the worked cases, and of edits.

use compare::generate::sample_texts;
use compare::model::edit::{edit, Change};
use compare::model::row_words;
use compare::model::scan::scan;
use compare::model::table::Lent;

/// A text's comments without rows, from the left: `//` up to the newline or the end and `/*` up to `*/` are one each, a string is passed
/// over with what its backslashes take along, any other byte alone.
fn comments_in(text: &[u8]) -> u32 {
    let mut rest = text;
    let mut count = 0;
    while let [first, behind @ ..] = rest {
        rest = match (first, behind.first()) {
            (b'/', Some(b'/')) => {
                count += 1;
                behind_first(behind, b"\n")
            }
            (b'/', Some(b'*')) => {
                count += 1;
                behind_first(&behind[1..], b"*/")
            }
            (b'"', _) => behind_string(behind),
            _ => behind,
        };
    }
    count
}

/// What stands behind the first place of these bytes; nothing if they are not there.
fn behind_first<'a>(text: &'a [u8], bytes: &[u8]) -> &'a [u8] {
    let at = text.windows(bytes.len()).position(|part| part == bytes);
    at.map_or(&[], |at| &text[at + bytes.len()..])
}

fn behind_string(text: &[u8]) -> &[u8] {
    match text {
        [b'"', behind @ ..] => behind,
        [b'\\', _, behind @ ..] => behind_string(behind),
        [_, behind @ ..] => behind_string(behind),
        [] => &[],
    }
}

fn counts(text: &[u8]) -> Vec<u32> {
    let told = scan(text, text.len() + 1);
    told.rows.iter().map(|row| row.comments).collect()
}

#[test]
fn counts_add_up_to_the_text_s_comments() {
    let mut with_comments = 0;
    for text in sample_texts(20_000, 11) {
        let told = scan(&text, text.len() + 1);
        if told.refusal.is_none() {
            let sum: u32 = told.rows.iter().map(|row| row.comments).sum();
            assert_eq!(sum, comments_in(&text), "{}", text.escape_ascii());
            with_comments += u32::from(sum > 0);
        }
    }
    assert!(with_comments > 200, "{with_comments}");
}

#[test]
fn worked_counts() {
    let cases: [(&str, &[u32]); 10] = [
        ("//", &[1]),
        ("//\n//", &[2]),
        ("/**//**/", &[2]),
        ("/* // */", &[1]),
        ("// /*", &[1]),
        ("\"//\"", &[0, 0]),
        ("*//", &[0, 1]),
        ("a/**/ b //\n;", &[0, 1, 1, 0]),
        ("/**/@", &[]),
        ("a /*", &[0]),
    ];
    for (text, wanted) in cases {
        assert_eq!(counts(text.as_bytes()), wanted, "{text}");
    }
}

/// The worked cases of the edit: what is counted is the new gap.
#[test]
fn edits_count_the_new_gap() {
    let cases: [(&str, &str, &[u32]); 4] = [
        ("", "//", &[1]),
        ("//", "", &[1]),
        ("*//", "", &[0, 1]),
        ("\"", "//", &[1]),
    ];
    for (old, new, wanted) in cases {
        let told = scan(old.as_bytes(), 9);
        let rows: Vec<u32> = told.rows.iter().flat_map(row_words).collect();
        let lent = Lent {
            rows: &rows,
            table: &told.words(),
        };
        let change = Change {
            a: 0,
            b: 0,
            n: new.len() as u32,
        };
        let text = [new, old].concat();
        let edited = edit(lent, change, 0, text.as_bytes(), 9);
        let counts: Vec<u32> = edited.rows.iter().map(|row| row.comments).collect();
        assert_eq!(counts, wanted, "{new} before {old}");
    }
}

/// A row's comments are at most half of its gap's bytes, rounded down.
#[test]
fn counts_fit_their_gaps() {
    for (gap, most) in [(0, 0), (1, 0), (2, 1), (3, 1), (4, 2), (5, 2)] {
        for comments in 0..4 {
            let row = [48, gap, gap + 1, 1, gap + 1, 0, 0, comments];
            let eof = [52, gap + 1, gap + 1, 1, gap + 2, 0, 0, 0];
            let rows = [row, eof].concat();
            let lent = Lent {
                rows: &rows,
                table: &[0, 0, 0, 0, 0, 0, 2, gap + 1],
            };
            assert_eq!(lent.is_well_formed(), comments <= most);
        }
    }
}
