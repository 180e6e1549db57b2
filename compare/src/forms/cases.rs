//! The texts and files of the sample: each worked text with its files of both forms, sound and with each damage, and beside another
//! text; and what is there to be mended.

use super::{table_of, Case, FORMS};
use crate::files::cases::WORKED;
use crate::files::damage::{damaged, Damage};
use crate::generate::random::Random;
use crate::model::file::BLOCK;
use crate::model::forms::encode;

/// A text that ends at a bad escape, behind a line.
const BAD_ESCAPE: &[u8] = b"a\n\"\\q";

/// How many rows longer texts have: full blocks and one row more, of either form.
const WORKED_ROWS: [usize; 6] = [15, 16, 21, 22, 42, 45];

/// How many of the longest texts have files that are mended at length.
const MENDED: usize = 3;

/// So many semicolons stand in a line of a longer text.
const LINE: usize = 4;

/// Texts that no scan takes: no UTF-8, and one byte too long; and one of too many rows.
const BROKEN: &[u8] = b"a\n\xC3;";
const TOO_LONG: usize = 65_537;
const TOO_MANY: usize = 65_535;

/// The sample, always the same.
pub fn stored() -> Vec<Case> {
    let mut random = Random::new(1);
    let texts = texts();
    let mut cases = Vec::new();
    for text in &texts {
        for form in FORMS {
            worked(&mut random, text, form, &mut cases);
        }
    }
    for text in &texts[texts.len() - MENDED..] {
        for form in FORMS {
            to_be_mended(&mut random, text, form, &mut cases);
        }
    }
    for form in FORMS {
        cases.push(Case::long(BROKEN, &file_of(b"a\n::", form)));
    }
    cases.push(Case::short(&[b' '; TOO_LONG], &file_of(b"", 1)));
    cases.push(Case::short(&[b';'; TOO_MANY], &[]));
    cases
}

fn texts() -> Vec<Vec<u8>> {
    let lists = WORKED_ROWS.map(|rows| {
        let bytes = (1..rows).flat_map(|row| match row % LINE {
            0 => vec![b';', b'\n'],
            _ => vec![b';'],
        });
        bytes.collect::<Vec<u8>>()
    });
    let worked = WORKED.map(|text| text.as_bytes().to_vec());
    let short = worked.into_iter().chain([BAD_ESCAPE.to_vec()]);
    short.chain(lists).collect()
}

/// The file of a text in a form.
fn file_of(text: &[u8], form: u32) -> Vec<u8> {
    let (rows, table) = table_of(text).expect("a scan takes the text");
    encode(form, &table, &rows)
}

/// A text's file, sound and with each damage, and beside another text.
fn worked(random: &mut Random, text: &[u8], form: u32, cases: &mut Vec<Case>) {
    let file = file_of(text, form);
    cases.push(Case::long(text, &file));
    for damage in &Damage::ALL[1..] {
        cases.push(Case::short(text, &damaged(random, &file, *damage)));
    }
    cases.push(Case::short(&another(random, text), &file));
}

/// Another text: a newline for a byte, or a blank more, or a byte less.
fn another(random: &mut Random, text: &[u8]) -> Vec<u8> {
    let mut other = text.to_vec();
    let at = random.below(text.len() + 1);
    match random.below(4) {
        0 => other.insert(at, b' '),
        1 if at < text.len() => {
            other.remove(at);
        }
        _ if at < text.len() => other[at] = b'\n',
        _ => other.push(b'\n'),
    }
    other
}

/// Files with one, three and all blocks spoilt, the last with a tail behind, empty, and of the other form.
fn to_be_mended(random: &mut Random, text: &[u8], form: u32, cases: &mut Vec<Case>) {
    let sound = file_of(text, form);
    let blocks = sound.len() / BLOCK;
    let one = random.below(blocks);
    let mut all = spoilt(&sound, |_| true);
    all.extend(vec![0; 1 + random.below(BLOCK)]);
    let files = [
        spoilt(&sound, |k| k == one),
        spoilt(&sound, |k| (one..one + 3).any(|other| other % blocks == k)),
        all,
        Vec::new(),
        file_of(text, 3 - form),
    ];
    cases.extend(files.iter().map(|file| Case::long(text, file)));
}

/// A file with some of its blocks spoilt.
fn spoilt(file: &[u8], which: impl Fn(usize) -> bool) -> Vec<u8> {
    let mut file = file.to_vec();
    for (block, k) in file.chunks_mut(BLOCK).zip(0..) {
        if which(k) {
            block.fill(0);
        }
    }
    file
}
