//! What LANGUAGE.md says of every table and every tree holds for the original's
//! answers about generated texts.

use compare::answer::answer;
use compare::deep::on_deep_stack;
use compare::generate::{lengths, sample_texts, short};
use compare::nodes::Tree;
use compare::scan::counted_place;
use compare::terms::{Answer, Parsed, Place, Row};

const EOF: u32 = 52;
const NUMBER: u32 = 50;

#[test]
fn short_texts() {
    on_deep_stack(|| (0..=3).flat_map(short::texts_of_length).for_each(check));
}

#[test]
fn generated_texts() {
    on_deep_stack(|| sample_texts(6000, 77).into_iter().for_each(check));
}

#[test]
fn texts_of_limit_length() {
    on_deep_stack(|| lengths::texts().for_each(check));
}

fn check(text: Vec<u8>) {
    let Answer::Compared {
        rows,
        ending,
        parsed,
    } = answer(&text)
    else {
        assert!(text.len() > 65_536, "only a longer text is not compared");
        return;
    };
    let text = std::str::from_utf8(&text).unwrap();
    check_rows(text, &rows);
    let last_end = rows.last().map_or(0, |row| row.end);
    match ending {
        None => assert_eq!(rows.last().map(|row| row.kind), Some(EOF), "{text:?}"),
        Some(refusal) => {
            assert!((11..=17).contains(&refusal.number));
            check_place(text, refusal.place);
            assert!(last_end <= refusal.place.offset, "{text:?}");
            assert!(rows.iter().all(|row| row.kind != EOF), "{text:?}");
        }
    }
    check_parsed(text, &rows, &parsed);
}

/// Rows are in order without overlap, at the places counted in the text.
fn check_rows(text: &str, rows: &[Row]) {
    for (index, row) in rows.iter().enumerate() {
        check_place(text, row.place());
        assert!(row.kind <= EOF && !(16..=20).contains(&row.kind));
        assert!(row.kind == NUMBER || row.value == 0);
        assert!(row.value >= -i64::MAX);
        assert_eq!(row.start == row.end, row.kind == EOF, "{text:?}");
        assert!(row.end as usize <= text.len());
        assert!(index == 0 || rows[index - 1].end <= row.start, "{text:?}");
        assert!(row.kind != EOF || row.start as usize == text.len());
    }
}

fn check_place(text: &str, place: Place) {
    // Counting is quadratic over a text's rows; long texts are counted at their end.
    if text.len() < 2000 || place.offset as usize == text.len() {
        assert_eq!(place, counted_place(text, place.offset as usize));
    }
}

fn check_parsed(text: &str, rows: &[Row], parsed: &Parsed) {
    match parsed {
        Parsed::NotScanned => assert_ne!(rows.last().map(|row| row.kind), Some(EOF)),
        Parsed::NotComparable { number } => assert!(matches!(number, 27 | 32)),
        Parsed::Refused(refusal) => {
            assert!((21..=31).contains(&refusal.number) && refusal.number != 27);
            assert!(
                rows.iter().any(|row| row.place() == refusal.place),
                "{text:?}"
            );
        }
        Parsed::Accepted(tree) => check_tree(text, rows.len(), tree),
    }
}

/// Nodes never outnumber rows, and each run is one whole tree: every node takes
/// its children from those before it, and one is left.
fn check_tree(text: &str, rows: usize, tree: &Tree) {
    let nodes: usize = tree.declarations.iter().map(Vec::len).sum();
    assert!(nodes < rows, "{text:?}");
    for run in &tree.declarations {
        let (declaration, inside) = run.split_last().unwrap();
        assert!(matches!(declaration.kind, 25 | 27 | 28), "{text:?}");
        let mut waiting = 0;
        for node in inside {
            let children = node.children.unwrap();
            assert!(children <= waiting, "{text:?}");
            waiting = waiting - children + 1;
        }
        // A unit's count has its sections too, which are not in the run.
        assert!(declaration.children.is_none_or(|count| count >= waiting));
    }
}
