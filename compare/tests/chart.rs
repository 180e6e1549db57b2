//! The chart against the sets as they are written down, and against what the original reads.

use compare::answer::answer;
use compare::chart::{fitting, has, kinds, Chart};
use compare::deep::on_deep_stack;
use compare::generate::random::Random;
use compare::generate::{programs, sample_texts};
use compare::model::scan::scan;
use compare::terms::{Answer, Parsed};
use compare::told_sets::TOLD_SETS;
use std::collections::BTreeSet;

fn row_kinds(text: &[u8]) -> Vec<u32> {
    let rows = scan(text, usize::MAX).rows;
    rows.iter().map(|row| row.kind).collect()
}

/// How many rows a program begins with, and what fits behind them.
fn read(kinds: &[u32]) -> (usize, u64) {
    let mut chart = Chart::default();
    let _ = kinds.iter().all(|&kind| chart.read(kind));
    (chart.rows(), chart.fitting())
}

#[test]
fn each_text_of_a_set_has_that_set() {
    for (set, _, texts) in TOLD_SETS {
        for text in texts {
            assert_eq!(read(&row_kinds(text.as_bytes())).1, set, "{text}");
        }
    }
}

/// The sets are all different, and have no kind that is never made or that no statement takes.
#[test]
fn there_are_forty_two_sets() {
    let sets: BTreeSet<u64> = TOLD_SETS.iter().map(|(set, _, _)| *set).collect();
    assert_eq!(sets.len(), 42);
    for set in sets {
        assert!(kinds(set).all(|kind| !matches!(kind, 16..=20 | 37..=40 | 53..)));
    }
}

/// Behind every beginning of at most seven rows, one of the sets fits; no program goes on behind its end.
#[test]
fn no_other_set_is_met() {
    let known: BTreeSet<u64> = TOLD_SETS.iter().map(|(set, _, _)| *set).collect();
    let mut met = BTreeSet::new();
    met_behind(&mut Chart::default(), 7, &mut met);
    assert!(met.remove(&0));
    assert!(met.is_subset(&known));
}

fn met_behind(chart: &mut Chart, rows: usize, met: &mut BTreeSet<u64>) {
    met.insert(chart.fitting());
    if rows == 0 {
        return;
    }
    for kind in kinds(chart.fitting()) {
        assert!(chart.read(kind));
        met_behind(chart, rows - 1, met);
        chart.take_back();
    }
}

#[test]
fn rows_that_do_not_fit_are_not_read() {
    let mut chart = Chart::default();
    assert!(!chart.read(48));
    assert_eq!(chart.rows(), 0);
    assert!(chart.read(0) && !chart.read(0) && chart.read(48));
    assert_eq!(chart.rows(), 2);
    chart.take_back();
    assert_eq!(kinds(chart.fitting()).collect::<Vec<_>>(), [48]);
    assert_eq!(fitting([48]), None);
    assert_eq!(fitting([52]), Some(0));
}

/// Programs are read to their end, and so is what the original accepts; `answer` holds what it refuses.
#[test]
fn what_the_original_accepts_is_read() {
    on_deep_stack(|| {
        let mut random = Random::new(8);
        let mut texts = sample_texts(6_000, 12);
        texts.extend((0..2_000).map(|_| programs::text(&mut random, 60)));
        let mut accepted = 0;
        for text in texts {
            if let Answer::Compared {
                parsed: Parsed::Accepted(_),
                ..
            } = answer(&text)
            {
                let kinds = row_kinds(&text);
                assert_eq!(read(&kinds), (kinds.len(), 0));
                accepted += 1;
            }
        }
        assert!(accepted > 1_000);
    });
}

/// A kind is in the set exactly if the row is read.
#[test]
fn what_fits_is_what_is_read() {
    let mut random = Random::new(9);
    for _ in 0..500 {
        let mut chart = Chart::default();
        for kind in row_kinds(&programs::text(&mut random, 30)) {
            let set = chart.fitting();
            for other in 0..53 {
                let is_read = chart.read(other);
                assert_eq!(is_read, has(set, other));
                if is_read {
                    chart.take_back();
                }
            }
            assert!(chart.read(kind));
        }
    }
}
