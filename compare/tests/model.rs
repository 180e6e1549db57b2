//! The model of LANGUAGE.md against the original, and the model's edit against its scan.

use compare::agree::agree;
use compare::answer::answer;
use compare::deep::on_deep_stack;
use compare::edits::worked;
use compare::generate::change::new_characters;
use compare::generate::characters::valid_with_characters;
use compare::generate::random::Random;
use compare::generate::{lengths, sample_texts, short};
use compare::model::edit::{change as changed, edit, restart, Change};
use compare::model::parse::{parse, section_kind};
use compare::model::table::Lent;
use compare::model::{row_words, scan::scan, Told};
use compare::terms::{Answer, Parsed};

/// A table as it is lent.
fn lent_words(told: &Told) -> (Vec<u32>, [u32; 8]) {
    (told.rows.iter().flat_map(row_words).collect(), told.words())
}

fn hold_against_original(text: &[u8]) {
    let told = scan(text, usize::MAX);
    let (rows, table) = lent_words(&told);
    let lent = Lent {
        rows: &rows,
        table: &table,
    };
    match answer(text) {
        Answer::NotCompared { number } => {
            assert_eq!(told.refusal.map(|refusal| refusal.number), Some(number));
        }
        Answer::Compared {
            rows,
            ending,
            parsed,
        } => {
            assert_eq!(told.rows, rows, "{}", text.escape_ascii());
            assert_eq!(told.refusal, ending, "{}", text.escape_ascii());
            assert!(lent.is_well_formed(), "{}", text.escape_ascii());
            let here = parse(text, lent, rows.len());
            match parsed {
                Parsed::NotScanned => assert_eq!(here.err(), ending),
                Parsed::NotComparable { number } => {
                    assert_eq!(here.err().map(|refusal| refusal.number), Some(number));
                }
                Parsed::Refused(refusal) => {
                    assert_eq!(here.err(), Some(refusal), "{}", text.escape_ascii());
                }
                Parsed::Accepted(tree) => {
                    let nodes = here.expect("accepted by the original");
                    assert_eq!(agree(&nodes, &tree), Ok(()), "{}", text.escape_ascii());
                }
            }
        }
    }
}

#[test]
fn the_model_is_the_original() {
    on_deep_stack(|| {
        for text in sample_texts(30_000, 11) {
            hold_against_original(&text);
        }
        for text in lengths::texts() {
            hold_against_original(&text);
        }
    });
}

#[test]
fn sections_have_the_originals_kinds() {
    for (section, kind) in compare::edge_cases::SECTION_KINDS {
        assert_eq!(section_kind(section.as_bytes()), kind);
    }
}

/// An edit at every window length gives the fresh scan or 7, and a window to the end always gives the fresh scan.
fn hold_edit_against_scan(old: &[u8], a: usize, b: usize, new_bytes: &[u8]) {
    let (rows, table) = lent_words(&scan(old, usize::MAX));
    let lent = Lent {
        rows: &rows,
        table: &table,
    };
    let new = [&old[..a], new_bytes, &old[b..]].concat();
    let fresh = scan(&new, usize::MAX);
    let start = restart(lent, a as u32).expect("a is in the text").offset;
    let change = Change {
        a: a as u32,
        b: b as u32,
        n: new_bytes.len() as u32,
    };
    let mut was_enough = false;
    for end in start as usize..=new.len() {
        let told = edit(lent, change, start, &new[start as usize..end], usize::MAX);
        if told.is_table() || told.refusal.map(|refusal| refusal.number) == Some(2) {
            assert_eq!(told, fresh, "{old:?} {a} {b} {new_bytes:?} {end}");
            was_enough = true;
        } else {
            assert_eq!(told, Told::refused(7, compare::model::START));
            assert!(!was_enough, "a longer window is short again");
        }
    }
    assert!(was_enough);
    assert_eq!(changed(lent, change, &new, usize::MAX), fresh);
}

#[test]
fn the_models_edit_is_its_fresh_scan() {
    let mut random = Random::new(5);
    for _ in 0..20_000 {
        let length = random.below(8);
        let old = short::random_text(&mut random, length);
        let a = random.below(length + 1);
        let b = a + random.below(length - a + 1);
        let count = random.below(4);
        let new_bytes = short::random_text(&mut random, count);
        hold_edit_against_scan(&old, a, b, &new_bytes);
    }
}

#[test]
fn the_models_edit_is_its_fresh_scan_among_characters() {
    let mut random = Random::new(6);
    for _ in 0..20_000 {
        let length = random.below(6);
        let old = short::random_text(&mut random, length);
        let old = valid_with_characters(&mut random, &old);
        let a = random.below(old.len() + 1);
        let b = a + random.below(old.len() - a + 1);
        let new_bytes = new_characters(&mut random);
        hold_edit_against_scan(&old, a, b, &new_bytes);
    }
}

/// Each case of the papers gets the number and the restart place that they state: the call panics at one that does not.
#[test]
fn the_edit_reads_as_agreed() {
    assert_eq!(worked::edits().len(), worked::WORKED.len());
}
