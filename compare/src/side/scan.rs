//! The library's scan against the original's and the model's: rows, values, refusals, and every lent word.

use super::{memory_with, same, shown, Compared, Counts, Difference, Memory};
use crate::answer::answer;
use crate::differences::first_character_outside;
use crate::generate::characters::with_characters;
use crate::generate::random::Random;
use crate::generate::{fixed_texts, lengths, random_text};
use crate::model::{refusal_words, scan::scan, Told};
use crate::terms::Answer;
use spoonharbor::lent;

/// Every fixed text, the texts of limit length, and random ones up to `count`; then as many with characters of two bytes and more.
pub fn run(count: u64, seed: u64) -> Compared {
    let mut counts = Counts::default();
    let mut memory = Memory::default();
    for text in fixed_texts() {
        hold(&text, &mut memory, &mut counts)?;
    }
    for text in lengths::texts() {
        hold(&text, &mut memory, &mut counts)?;
    }
    let mut random = Random::new(seed);
    while counts.get("texts") < count {
        let mut text = random_text(&mut random);
        hold(&text, &mut memory, &mut counts)?;
        if random.one_in(50) {
            spoil(&mut random, &mut text);
            hold(&text, &mut memory, &mut counts)?;
        }
    }
    for _ in 0..count {
        let text = random_text(&mut random);
        let text = with_characters(&mut random, &text);
        hold(&text, &mut memory, &mut counts)?;
        counts.add(kind_of(&text));
    }
    Ok(counts)
}

/// Where a text's characters of two bytes and more stand.
fn kind_of(text: &[u8]) -> &'static str {
    match std::str::from_utf8(text).map(first_character_outside) {
        Err(_) => "with characters, broken",
        Ok(None) => "with characters, all in comments and strings",
        Ok(Some(_)) => "with characters, also outside comments and strings",
    }
}

/// Puts a byte of 128 or more somewhere.
fn spoil(random: &mut Random, text: &mut Vec<u8>) {
    let at = random.below(text.len() + 1);
    let byte = 128 + random.below(128) as u8;
    text.insert(at, byte);
}

/// Holds the scan of one text, with room in plenty, exactly full, one short, half and none, and words that are no whole row.
fn hold(text: &[u8], memory: &mut Memory, counts: &mut Counts) -> Result<(), Difference> {
    let told = scan(text, usize::MAX);
    hold_against_original(text, &told, counts)?;
    let rows = told.rows.len();
    for room in [rows + 3, rows, rows.saturating_sub(1), rows / 2, 0] {
        for remainder in [0, 7] {
            let words = room * 8 + remainder;
            let expected = scan(text, room);
            let lent = memory.fresh(words);
            let answer = lent::scan(text, lent);
            same(answer, expected.words(), || {
                format!(
                    "scan, room for {room} and {remainder} words, {}",
                    shown(text)
                )
            })?;
            same(&*lent, &memory_with(&expected, words)[..], || {
                format!(
                    "rows written, room for {room} and {remainder} words, {}",
                    shown(text)
                )
            })?;
            counts.add("calls");
            counts.add_many("rows written", expected.rows.len() as u64);
            counts.add_many("words looked at", words as u64);
        }
    }
    counts.add("texts");
    counts.add(match told.refusal {
        None => "scanned to the end".to_string(),
        Some(refusal) => format!("refused {}", refusal.number),
    });
    Ok(())
}

/// Holds the library's scan against the original's, with room in plenty.
fn hold_against_original(text: &[u8], model: &Told, counts: &mut Counts) -> Result<(), Difference> {
    let mut rows = vec![0; (model.rows.len() + 1) * 8];
    let table = lent::scan(text, &mut rows);
    let asked = || format!("scan, as the original, {}", shown(text));
    let original = match answer(text) {
        Answer::NotCompared { number } => {
            counts.add(format!(
                "texts that the original is not asked about, refused {number}"
            ));
            return same(table[0], number, asked);
        }
        Answer::Compared { rows, ending, .. } => Told {
            rows,
            length: text.len() as u32,
            refusal: ending,
        },
    };
    same(
        table[..4].to_vec(),
        refusal_words(original.refusal)[..4].to_vec(),
        asked,
    )?;
    same(table, original.words(), asked)?;
    let words = original.rows.len() * 8;
    same(&rows[..words], &memory_with(&original, words)[..], asked)?;
    counts.add("texts that the original was asked about");
    Ok(())
}
