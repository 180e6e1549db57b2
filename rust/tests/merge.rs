//! Two documents with a common text take each other's changes and end alike; changes that touch are told, and nothing changes.

use compare::generate::random::Random;
use spoonharbor::{Conflict, Document, Edit, Reason, LONGEST_TEXT};
use std::collections::BTreeSet;

#[allow(dead_code)]
#[path = "../examples/two_consoles.rs"]
mod two_consoles;

fn open(text: &str) -> Document {
    Document::open(text).unwrap()
}

/// The text after a change, made by the standard library.
fn after(text: &str, edit: &Edit) -> String {
    let mut text = text.to_string();
    text.replace_range(edit.range.clone(), &edit.new);
    text
}

#[test]
fn the_example_is_played() {
    let told = two_consoles::story().unwrap();
    let lines: Vec<&str> = told.lines().collect();
    assert_eq!(lines.len(), 5);
    assert_eq!(lines[1], "office: 46 rows, refused 21");
    assert_eq!(
        lines[2..4],
        ["dome: 47 rows, 11 nodes", "office: 47 rows, 11 nodes"]
    );
    assert!(lines[4].starts_with("dome: the change of bytes 100 to 106 touches"));
}

#[test]
fn a_change_behind_ours_moves() {
    for (ours, theirs, moved, last) in [
        (
            Edit::new(0..1, "xyz"),
            Edit::new(2..4, "3"),
            Edit::new(4..6, "3"),
            "xyz 3 b",
        ),
        (
            Edit::new(0..1, ""),
            Edit::new(2..4, "3"),
            Edit::new(1..3, "3"),
            " 3 b",
        ),
        (
            Edit::new(0..0, "é"),
            Edit::new(1..1, "c"),
            Edit::new(3..3, "c"),
            "éac 12 b",
        ),
        (
            Edit::new(5..6, "cc"),
            Edit::new(0..4, ""),
            Edit::new(0..4, ""),
            " cc",
        ),
        (
            Edit::new(6..6, "c"),
            Edit::new(5..5, "/*"),
            Edit::new(5..5, "/*"),
            "a 12 /*bc",
        ),
    ] {
        let mut document = open("a 12 b");
        document.apply(&ours).unwrap();
        assert_eq!(document.merge(&mut [ours], &theirs), Ok(moved));
        assert_eq!(document.text(), last);
        assert_eq!(document, open(last));
    }
}

#[test]
fn changes_that_touch_are_told() {
    for theirs in [0..1, 0..2, 1..1, 1..4, 2..3, 4..4, 4..5, 0..6] {
        let ours = Edit::new(1..4, "==");
        let theirs = Edit::new(theirs, "x");
        let mut document = open("a 12 b");
        document.apply(&ours).unwrap();
        let mut since = [ours.clone()];
        let conflict = document.merge(&mut since, &theirs).unwrap_err();
        assert_eq!(conflict, Conflict::Touching { ours: 0, theirs });
        assert_eq!((document, since), (open("a== b"), [ours]));
    }
}

/// Two inserted at one place: whoever comes last would stand first, so neither console may guess.
#[test]
fn one_place_is_no_order() {
    let [ours, theirs] = ["a", "1"].map(|new| Edit::new(0..0, new));
    assert_eq!((ours.after(&theirs), theirs.after(&ours)), (None, None));
    let [mut here, mut there] = [&ours, &theirs].map(|edit| open(&after("", edit)));
    assert!(here.merge(&mut [ours.clone()], &theirs).is_err());
    assert!(there.merge(&mut [theirs.clone()], &ours).is_err());
    here.apply(&theirs).unwrap();
    there.apply(&ours).unwrap();
    let counts = [&here, &there].map(|document| document.rows().len());
    assert_eq!((here.text(), there.text(), counts), ("1a", "a1", [3, 2]));
}

/// 6 and an unchanged document for changes that the text, or the text before ours, cannot have.
#[test]
#[allow(clippy::reversed_empty_ranges)]
fn changes_of_another_text_are_refused() {
    let text = "a // é";
    let ours = Edit::new(0..1, "bcd");
    let most = usize::MAX;
    let outside =
        [8..9, 7..8, 7..9, 4..most, most..most, most..0, 6..5].map(|range| (ours.clone(), range));
    let inside_a_character = [6..6, 6..7, 5..6].map(|range| (ours.clone(), range));
    let not_ours = [
        (Edit::new(3..1, "bcd"), 5..5),
        (Edit::new(8..10, "bcd"), 0..0),
        (Edit::new(0..most, "bcd"), 0..0),
        (Edit::new(0..0, " ".repeat(10)), 5..5),
    ];
    let cases = outside
        .into_iter()
        .chain(inside_a_character)
        .chain(not_ours);
    for (ours, range) in cases {
        let mut document = open("bcd // é");
        let mut since = [ours.clone()];
        let theirs = Edit::new(range, "x");
        let Err(Conflict::Refused(refusal)) = document.merge(&mut since, &theirs) else {
            panic!("{theirs:?} is refused after {ours:?}")
        };
        assert_eq!(refusal.number(), 6);
        assert_eq!(
            (document, since),
            (open(&after(text, &Edit::new(0..1, "bcd"))), [ours])
        );
    }
}

#[test]
fn a_text_that_becomes_too_long_ends_alike() {
    let text = " ".repeat(LONGEST_TEXT - 1);
    let [ours, theirs] = [3, 9].map(|place| Edit::new(place..place, ";"));
    let [mut here, mut there] = [&ours, &theirs].map(|edit| open(&after(&text, edit)));
    assert_eq!([here.refusal(), there.refusal()], [None, None]);
    here.merge(&mut [ours.clone()], &theirs).unwrap();
    there.merge(&mut [theirs], &ours).unwrap();
    assert_eq!(here, there);
    assert_eq!(here.refusal().unwrap().reason, Reason::TextTooLong);
}

// ---- random texts and changes

/// What texts and changes are made of: rows, comments, strings and characters of each length, alone and where they belong.
const PIECES: [&str; 24] = [
    "a", "1", "0x", " ", "\n", ";", "{", "}", "/", "*", "//", "/*", "*/", "\"", "\\", "<", "@",
    "+=", "é", "€", "😀", "角", "reg ", "unit",
];

fn pieces(random: &mut Random, most: usize) -> String {
    let count = random.below(most + 1);
    (0..count).map(|_| random.pick(&PIECES)).collect()
}

/// An edge between two characters.
fn edge(random: &mut Random, text: &str) -> usize {
    let edges: Vec<usize> = (0..=text.len())
        .filter(|&at| text.is_char_boundary(at))
        .collect();
    random.pick(&edges)
}

fn random_edit(random: &mut Random, text: &str) -> Edit {
    let one = edge(random, text);
    let other = match random.one_in(4) {
        true => edge(random, text),
        false => one,
    };
    Edit::new(one.min(other)..one.max(other), pieces(random, 3))
}

/// Whether at least one old byte lies between two changes of the same text.
fn are_apart(one: &Edit, other: &Edit) -> bool {
    one.range.end < other.range.start || other.range.end < one.range.start
}

#[test]
fn either_order_ends_alike() {
    let mut random = Random::new(131);
    let mut counts = [0; 2];
    let mut endings = BTreeSet::new();
    for _ in 0..20_000 {
        let text = pieces(&mut random, 12);
        let [ours, theirs] = [(); 2].map(|()| random_edit(&mut random, &text));
        let [mut here, mut there] = [&ours, &theirs].map(|edit| open(&after(&text, edit)));
        let before = here.clone();
        let merged = here.merge(&mut [ours.clone()], &theirs);
        let other = there.merge(&mut [theirs.clone()], &ours);
        assert_eq!(
            merged.is_ok(),
            are_apart(&ours, &theirs),
            "{text:?} {ours:?} {theirs:?}"
        );
        assert_eq!(merged.is_ok(), other.is_ok());
        counts[usize::from(merged.is_ok())] += 1;
        if let Ok(moved) = merged {
            assert_eq!(here.text(), after(before.text(), &moved));
            assert_eq!(here, there, "{text:?} {ours:?} {theirs:?}");
            assert_eq!(here, open(here.text()));
            endings.insert(before.refusal().map(|refusal| refusal.number()));
        } else {
            assert_eq!(here, before);
        }
    }
    assert!(counts.into_iter().all(|count| count > 5_000), "{counts:?}");
    assert!(
        endings.len() >= 6,
        "texts in between end in refusals: {endings:?}"
    );
}

/// A document with the changes that were made in it, each in places of the text that it was made for.
fn changed(random: &mut Random, text: &str) -> (Document, Vec<Edit>) {
    let mut document = open(text);
    let edits = (0..=random.below(3)).map(|_| {
        let edit = random_edit(random, document.text());
        document.apply(&edit).unwrap();
        edit
    });
    let edits = edits.collect();
    (document, edits)
}

/// Takes all of their changes, up to one that touches. After each, `since` leads from the common text to the document's.
fn takes_all(document: &mut Document, mut since: Vec<Edit>, theirs: &[Edit], text: &str) -> bool {
    let mut common = text.to_string();
    for edit in theirs {
        let before = document.clone();
        if let Err(conflict) = document.merge(&mut since, edit) {
            assert!(matches!(conflict, Conflict::Touching { .. }), "{conflict}");
            assert_eq!(*document, before);
            return false;
        }
        common = after(&common, edit);
        let led = since
            .iter()
            .fold(common.clone(), |text, edit| after(&text, edit));
        assert_eq!(document.text(), led);
    }
    true
}

#[test]
fn several_changes_on_both_sides_end_alike() {
    let mut random = Random::new(132);
    let mut taken = 0;
    for _ in 0..20_000 {
        let text = pieces(&mut random, 40);
        let (mut here, ours) = changed(&mut random, &text);
        let (mut there, theirs) = changed(&mut random, &text);
        let here_takes = takes_all(&mut here, ours.clone(), &theirs, &text);
        let there_takes = takes_all(&mut there, theirs.clone(), &ours, &text);
        assert_eq!(here_takes, there_takes, "{text:?} {ours:?} {theirs:?}");
        if here_takes {
            assert_eq!(here, there, "{text:?} {ours:?} {theirs:?}");
            assert_eq!(here, open(here.text()));
            taken += 1;
        }
    }
    assert!(taken > 5_000, "{taken}");
}
