//! Texts to ask the original about. The same count and seed give the same texts.
//!
//! The shapes, each in a file of its own: every short text (`short`), token soup
//! (`soup`), programs made by the grammar (`programs`), damaged programs
//! (`damage`), fields of maps and events (`fields`), numbers at their edges
//! (`numbers`), nesting at its limit (`nesting`) and texts of limit length
//! (`lengths`), and characters of two bytes and more in any of them (`characters`).
//! Long probes as people write them (`probe`) are for times and for
//! long chains of edits; `change` has what an edit puts into a text.

pub mod change;
pub mod characters;
pub mod damage;
pub mod fields;
pub mod lengths;
pub mod nesting;
pub mod numbers;
pub mod probe;
pub mod programs;
pub mod random;
pub mod short;
pub mod soup;
pub mod spelling;

use crate::edge_cases::{edge_cases, Expected};
use random::Random;
use std::collections::HashSet;

/// `count` different ASCII texts, or the fixed ones alone if these are more, and a tenth as many with characters of two
/// bytes and more. First the fixed ones: every text of at most two bytes, the edge cases, the fields, the numbers
/// and the nesting; then random ones. Texts of limit length are not among them.
pub fn sample_texts(count: usize, seed: u64) -> Vec<Vec<u8>> {
    let mut random = Random::new(seed);
    let mut seen = HashSet::new();
    let mut texts = fixed_texts();
    texts.retain(|text| seen.insert(text.clone()));
    while texts.len() < count {
        let text = random_text(&mut random);
        if seen.insert(text.clone()) {
            texts.push(text);
        }
    }
    let all = texts.len() + count / 10;
    while texts.len() < all {
        let text = random_text(&mut random);
        let text = characters::valid_with_characters(&mut random, &text);
        if seen.insert(text.clone()) {
            texts.push(text);
        }
    }
    texts
}

/// The texts that no seed changes.
pub fn fixed_texts() -> Vec<Vec<u8>> {
    let mut texts: Vec<Vec<u8>> = (0..=2).flat_map(short::texts_of_length).collect();
    texts.extend(compared_edge_cases());
    texts.extend(fields::texts());
    texts.extend(numbers::texts());
    texts.extend(nesting::texts());
    texts
}

/// The edge cases in ASCII, without those that LANGUAGE.md answers with 1 or 2.
fn compared_edge_cases() -> impl Iterator<Item = Vec<u8>> {
    edge_cases()
        .into_iter()
        .filter(|case| !matches!(case.expected, Expected::NotCompared(_)) && case.text.is_ascii())
        .map(|case| case.text)
}

/// A text of a random shape.
pub fn random_text(random: &mut Random) -> Vec<u8> {
    let most_tokens = random_size(random);
    match random.below(200) {
        0 => nesting::random_text(random),
        1..=12 => short::quoting_text(random),
        13..=70 => short::random_text(random, 3),
        71..=105 => soup::text(random, most_tokens.min(40)),
        106..=143 => programs::text(random, most_tokens),
        _ => damage::text(random, most_tokens),
    }
}

/// How many tokens a text may have: mostly few, seldom many.
fn random_size(random: &mut Random) -> usize {
    match random.below(300) {
        0 => 250,
        1..=25 => 40,
        _ => 10,
    }
}

#[cfg(test)]
mod tests {
    use super::*;
    use crate::terms::LONGEST_TEXT;

    #[test]
    fn a_seed_fixes_the_texts() {
        assert_eq!(sample_texts(3000, 5), sample_texts(3000, 5));
        assert_ne!(sample_texts(3000, 5), sample_texts(3000, 6));
    }

    #[test]
    fn the_original_can_be_asked_about_every_text() {
        for text in sample_texts(5000, 1) {
            assert!(std::str::from_utf8(&text).is_ok() && text.len() <= LONGEST_TEXT);
        }
    }
}
