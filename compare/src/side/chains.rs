//! Chains of edits on one document each: after every step the rows are those of a fresh scan, and now and then of the original.
//! An edit after which the document does not scan is mostly undone by the next, so that documents stay long.

use super::{same, shown, Compared, Counts, Difference};
use crate::answer::answer;
use crate::generate::characters::character;
use crate::generate::probe::{half_greek, probe_text};
use crate::generate::random::Random;
use crate::generate::{short, spelling};
use crate::terms::{Answer, Refusal};
use spoonharbor::Document;

/// How many edits one document lives through.
const CHAIN: u64 = 2_000;

/// Lengths of the documents at the beginning.
const LENGTHS: [usize; 4] = [200, 2_000, 20_000, 60_000];

/// Chains until so many edits were made.
pub fn run(edits: u64, seed: u64) -> Compared {
    let mut counts = Counts::default();
    let mut random = Random::new(seed);
    for length in LENGTHS.into_iter().cycle() {
        if counts.get("edits") >= edits {
            break;
        }
        let steps = CHAIN.min(edits - counts.get("edits"));
        chain(&mut random, length, steps, &mut counts)?;
    }
    Ok(counts)
}

fn chain(
    random: &mut Random,
    length: usize,
    steps: u64,
    counts: &mut Counts,
) -> Result<(), Difference> {
    let mut text = opened(random, length);
    let mut document = Document::open(text.clone()).expect("a probe is UTF-8 and short enough");
    // What takes the edits back since which the document does not scan, the last one last.
    let mut undos: Vec<Edit> = Vec::new();
    for step in 0..steps {
        let is_new = undos.is_empty() || random.one_in(4);
        let edit = match undos.pop() {
            Some(undo) if !is_new => undo,
            not_used => {
                undos.extend(not_used);
                random_edit(random, &text, length)
            }
        };
        if is_new {
            undos.push(undoing(&edit, &text));
        }
        let Edit { range, new } = edit;
        let asked = || format!("step {step} of a chain, {range:?} into {new:?}");
        same(document.replace(range.clone(), new.as_ref()), Ok(()), asked)?;
        text.replace_range(range.clone(), &new);
        let fresh = Document::open(text.clone()).expect("an edited text is UTF-8 and short enough");
        if document != fresh {
            return same(format!("{document:?}"), format!("{fresh:?}"), asked);
        }
        counts.add("edits");
        counts.add_many("rows", document.rows().len() as u64);
        if document.refusal().is_none() {
            undos.clear();
            counts.add("edits after which the document scans");
        }
        if step % 50 == 0 {
            hold_against_original(&document, counts)?;
        }
    }
    counts.add("documents");
    Ok(())
}

/// A probe of about this length, or one whose comments are half Greek.
fn opened(random: &mut Random, length: usize) -> String {
    let seed = random.below(1 << 20) as u64;
    let text = match random.below(2) {
        0 => probe_text(length, seed),
        _ => half_greek(&probe_text(length / 4 * 3, seed)),
    };
    String::from_utf8(text).expect("a probe is UTF-8")
}

/// New bytes in the place of a part of the text.
struct Edit {
    range: std::ops::Range<usize>,
    new: String,
}

/// The edit that takes an edit of this text back.
fn undoing(edit: &Edit, text: &str) -> Edit {
    let start = edit.range.start;
    Edit {
        range: start..start + edit.new.len(),
        new: text[edit.range.clone()].to_string(),
    }
}

/// An edit of few characters, somewhere; a text that has grown longer than it was loses more.
fn random_edit(random: &mut Random, text: &str, length: usize) -> Edit {
    let start = text.floor_char_boundary(random.below(text.len() + 1));
    let most = if text.len() > length { 40 } else { 3 };
    let end = text.ceil_char_boundary((start + random.below(most)).min(text.len()));
    let ascii = |bytes| String::from_utf8(bytes).expect("these bytes are ASCII");
    let new = match random.below(11) {
        0 | 1 => String::new(),
        2..=5 => {
            let count = 1 + random.below(3);
            ascii(short::random_text(random, count))
        }
        6 => ascii(short::quoting_text(random)),
        7 | 8 => spelling::any_token(random).to_string(),
        9 => character(random).to_string(),
        _ => "*/\"; ".to_string(),
    };
    Edit {
        range: start..end,
        new,
    }
}

fn hold_against_original(document: &Document, counts: &mut Counts) -> Result<(), Difference> {
    let text = document.text();
    let Answer::Compared { rows, ending, .. } = answer(text.as_bytes()) else {
        unreachable!("every document is UTF-8 and short enough")
    };
    let asked = || format!("a document, as the original, {}", shown(text.as_bytes()));
    let here: Vec<[i64; 6]> = document
        .rows()
        .map(|row| {
            let [start, end, line, column] =
                [row.start, row.end, row.line, row.column].map(|word| word as i64);
            [
                row.kind.number().into(),
                start,
                end,
                line,
                column,
                row.value,
            ]
        })
        .collect();
    let original: Vec<[i64; 6]> = rows
        .iter()
        .map(|row| {
            let [kind, start, end, line, column] =
                [row.kind, row.start, row.end, row.line, row.column].map(i64::from);
            [kind, start, end, line, column, row.value]
        })
        .collect();
    same(here, original, asked)?;
    let refusal = document.refusal().map(|refusal| {
        let place = refusal.place;
        let [offset, line, column] =
            [place.offset, place.line, place.column].map(|word| word as u32);
        [refusal.number(), offset, line, column]
    });
    same(refusal, ending.map(number_and_place), asked)?;
    counts.add("documents that the original was asked about");
    Ok(())
}

fn number_and_place(refusal: Refusal) -> [u32; 4] {
    let place = refusal.place;
    [refusal.number, place.offset, place.line, place.column]
}
