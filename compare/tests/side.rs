//! Short runs of every part of `side`.

use compare::deep::on_deep_stack;
use compare::side::{
    chains, edit, figures, files, fitting, layout, pairs, parse, scan, tables, Compared, Counts,
};

fn no_difference(part: impl FnOnce() -> Compared + Send) -> Counts {
    match on_deep_stack(part) {
        Ok(counts) => counts,
        Err(difference) => panic!("{difference}"),
    }
}

#[test]
fn scans_are_the_originals() {
    let counts = no_difference(|| scan::run(8_000, 3));
    assert!(counts.get("texts that the original was asked about") > 7_000);
    for number in [1, 2, 11, 12, 13, 14, 15, 16, 17] {
        assert!(counts.get(&format!("refused {number}")) > 0, "{number}");
    }
}

#[test]
fn parses_are_the_originals() {
    let counts = no_difference(|| parse::run(8_000, 3));
    assert!(counts.get("accepted") > 500);
    for number in 21..=31 {
        if number != 27 {
            assert!(counts.get(&format!("refused {number}")) > 0, "{number}");
        }
    }
    for number in [27, 32] {
        assert!(counts.get(&format!("named difference {number}")) > 0);
    }
}

#[test]
fn the_kinds_that_fit_are_told() {
    let counts = no_difference(|| fitting::run(1_000, 3));
    for number in [0, 21, 22, 23, 25, 30] {
        assert!(counts.get(&format!("answered {number}")) > 0, "{number}");
    }
}

#[test]
fn edits_are_fresh_scans() {
    let counts = no_difference(|| edit::run(200_000, 3));
    assert!(counts.get("window short") > 10_000);
    assert!(counts.get("fresh scan") > 10_000);
    for number in [0, 1, 2, 4, 6, 7] {
        assert!(
            counts.get(&format!("any call, answered {number}")) > 0,
            "{number}"
        );
    }
    for number in [0, 1, 2, 4, 6] {
        assert!(
            counts.get(&format!("any change, answered {number}")) > 0,
            "{number}"
        );
    }
    assert_eq!(counts.get("any change, answered 7"), 0);
    assert!(counts.get("changes") > 10_000);
}

#[test]
fn small_edits_are_fresh_scans() {
    let counts = no_difference(|| edit::run_small(2));
    assert!(counts.get("calls") > 1_000_000);
}

#[test]
fn small_edits_of_characters_are_fresh_scans() {
    let counts = no_difference(|| edit::run_parts(4));
    assert!(counts.get("calls") > 500_000);
    assert!(counts.get("fresh scan, by a part of the text") > 10_000);
    assert!(counts.get("windows that end inside a character") > 10_000);
    assert!(counts.get("fresh scan, which is 2") > 10_000);
}

#[test]
fn chains_stay_fresh() {
    let counts = no_difference(|| chains::run(8_000, 3));
    assert_eq!(counts.get("edits"), 8_000);
    assert_eq!(counts.get("documents"), 4);
    assert!(counts.get("edits after which the document scans") > 2_000);
}

#[test]
fn two_edits_end_alike() {
    let counts = no_difference(|| pairs::run(10_000, 3));
    assert_eq!(counts.get("pairs apart"), 10_000);
    for what in ["pairs in a row", "pairs with characters"] {
        assert!(counts.get(what) > 10_000, "{what}");
    }
    for number in [0, 11, 12, 13, 14, 16, 17] {
        let between = format!("texts in between, ended {number}");
        assert!(counts.get(&between) > 10, "{between}");
    }
    for number in [0, 1, 2, 4] {
        let last = format!("last calls, answered {number}");
        assert!(counts.get(&last) > 0, "{last}");
    }
    for what in ["end in two texts", "make no UTF-8"] {
        assert!(counts.get(&format!("pairs that touch and {what}")) > 0);
    }
}

#[test]
fn tables_from_outside_are_judged() {
    let counts = no_difference(|| tables::run(20_000, 3));
    assert!(counts.get("well formed") > 1_000);
    assert!(counts.get("not well formed") > 1_000);
}

#[test]
fn stored_tables_are_the_models() {
    let counts = no_difference(|| files::run(10_000, 3));
    for number in [0, 3, 4, 40] {
        assert!(counts.get(&format!("stores, answered {number}")) > 0);
    }
    for damage in ["sound", "swapped", "said", "sealed"] {
        assert!(counts.get(&format!("loads, {damage}, answered a table")) > 0);
    }
    for (damage, number) in [
        ("sound", 4),
        ("byte", 41),
        ("sealed", 41),
        ("sealed", 43),
        ("sealed", 44),
        ("swapped", 41),
        ("cut", 42),
        ("longer", 42),
        ("said", 42),
        ("said", 43),
        ("said", 44),
        ("each byte of a small file", 41),
        ("rows that are all zero", 41),
        ("rows that are all zero", 43),
    ] {
        let what = format!("loads, {damage}, answered {number}");
        assert!(counts.get(&what) > 0, "{what}");
    }
}

#[test]
fn layouts_are_the_second_ones() {
    let counts = no_difference(|| layout::run(6_000, 3));
    assert_eq!(counts.get("stored texts"), 4_400);
    assert!(counts.get("layouts") > 3_000);
    assert_eq!(
        counts.get("read back by the original"),
        counts.get("layouts")
    );
    assert_eq!(counts.get("laid out twice"), counts.get("layouts"));
    assert!(counts.get("layouts that are too long") >= 3);
    for how in [
        "a word of a row changed",
        "a word of a node changed",
        "a word of the table changed",
        "a count one off",
        "a node more",
        "words that are not lent",
        "another text",
    ] {
        assert!(counts.get(&format!("forged, {how}")) > 0, "{how}");
    }
}

#[test]
fn short_expressions_have_the_fewest_rows() {
    let counts = no_difference(|| layout::run_expressions(6));
    assert!(counts.get("trees") > 1_000);
    assert!(counts.get("expressions") > counts.get("trees"));
}

#[test]
fn figures_are_the_second_ones() {
    let counts = no_difference(|| figures::run(6_000, 3));
    assert_eq!(counts.get("stored texts"), 4_400);
    assert!(counts.get("tallies") > 3_000);
    assert!(counts.get("sums") > 2_000);
    for what in ["a kind", "a unit's kind or a map's type", "a count"] {
        for number in [0, 3] {
            let forged = format!("forged, {what}, answered {number}");
            assert!(counts.get(&forged) > 100, "{forged}");
        }
    }
    assert!(counts.get("forged, words that are not lent, answered 3") > 100);
    assert_eq!(counts.get("most nodes, answered 0"), 3);
    assert_eq!(counts.get("most nodes, answered 3"), 3);
    for number in [0, 70] {
        let joinings = format!("joinings, answered {number}");
        assert!(counts.get(&joinings) > 1_000, "{joinings}");
    }
}
