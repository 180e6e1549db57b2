//! The texts of the sample: the programs among the stored texts of `replay_texts`, and some that are none; each with room in plenty, just
//! enough and too little, and with words of its rows and nodes changed.

use super::{Call, Case, Forged, MOST_BYTES, MOST_WORDS};
use crate::generate::random::Random;
use crate::generate::sample_texts;
use crate::layout::layout;
use crate::model::parse::parse;
use crate::model::row_words;
use crate::model::scan::scan as model_scan;
use crate::model::table::Lent;
use crate::parse::accepted;
use crate::scan::scan;

/// Of so many texts that are no programs one is in the sample.
const REFUSED_ONE_IN: usize = 20;

/// The sample, always the same.
pub fn stored() -> Vec<Case> {
    let mut random = Random::new(1);
    let mut cases = Vec::new();
    for text in sample_texts(4_000, 1) {
        match expected(&text) {
            Some(laid) => cases.extend(program(&text, laid, &mut random)),
            None if random.one_in(REFUSED_ONE_IN) => cases.push(Case {
                calls: [0, 40].map(|room| call(room, 3, 0)).to_vec(),
                text,
                layout: Vec::new(),
            }),
            None => {}
        }
    }
    cases
}

/// The layout of a text, if it is a program.
fn expected(text: &[u8]) -> Option<Vec<u8>> {
    let scanned = scan(std::str::from_utf8(text).ok()?);
    if scanned.ending.is_some() {
        return None;
    }
    let program = accepted(&scanned.tokens)?;
    Some(layout(&program, &scanned.tokens).into_bytes())
}

/// A program with its calls, unless it is too long for the sample.
fn program(text: &[u8], laid: Vec<u8>, random: &mut Random) -> Option<Case> {
    let told = model_scan(text, usize::MAX);
    let rows: Vec<u32> = told.rows.iter().flat_map(row_words).collect();
    let table = told.words();
    let lent = Lent {
        rows: &rows,
        table: &table,
    };
    let nodes = parse(text, lent, rows.len()).expect("what the original accepts is a program");
    let nodes = nodes.concat();
    let long = laid.len();
    if long + 9 > MOST_BYTES || rows.len() > MOST_WORDS {
        return None;
    }
    let mut calls = vec![call(long, 0, long), call(long + 9, 0, long)];
    if long > 0 {
        calls.push(call(long - 1, 4, 0));
    }
    let count = (nodes.len() / 8) as u32;
    calls.push(forged(Forged::Count, 0, count - 1, long));
    calls.push(forged(Forged::Count, 0, count + 1, long));
    for _ in 0..2 {
        for (which, words) in [(Forged::Row, &rows), (Forged::Node, &nodes)] {
            let place = random.below(words.len());
            let word = [words[place] ^ 1, words[place].wrapping_add(1)][random.below(2)];
            calls.push(forged(which, place, word, long));
        }
    }
    Some(Case {
        text: text.to_vec(),
        layout: laid,
        calls,
    })
}

/// A call with nothing changed.
fn call(room: usize, number: u32, length: usize) -> Call {
    Call {
        forged: Forged::Nothing,
        place: 0,
        word: 0,
        room,
        number,
        length,
    }
}

/// A call with something changed, which is 3.
fn forged(forged: Forged, place: usize, word: u32, room: usize) -> Call {
    Call {
        forged,
        place,
        word,
        ..call(room, 3, 0)
    }
}
