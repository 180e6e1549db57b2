//! Programs with a token or one or two bytes deleted, inserted or replaced, or cut
//! short there.

use super::programs;
use super::random::Random;
use super::short::ALPHABET;
use super::spelling::{any_token, joined, Spellings};

/// A damaged program of about `size` tokens at most.
pub fn text(random: &mut Random, size: usize) -> Vec<u8> {
    let mut tokens = programs::tokens(random, size);
    if random.one_in(2) {
        damage_tokens(random, &mut tokens);
        return joined(random, &tokens);
    }
    let mut text = joined(random, &tokens);
    damage_bytes(random, &mut text);
    if random.one_in(3) {
        damage_bytes(random, &mut text);
    }
    text
}

/// Deletes, inserts or replaces one token, or cuts the text there.
fn damage_tokens(random: &mut Random, tokens: &mut Spellings) {
    let at = random.below(tokens.len());
    match random.below(5) {
        0 | 1 => {
            tokens.remove(at);
        }
        2 => tokens.insert(at, any_token(random).to_string()),
        3 => tokens.truncate(at),
        _ => tokens[at] = any_token(random).to_string(),
    }
}

/// Deletes, inserts or replaces one byte, or cuts the text there.
pub fn damage_bytes(random: &mut Random, text: &mut Vec<u8>) {
    if text.is_empty() {
        return;
    }
    let at = random.below(text.len());
    match random.below(4) {
        0 => {
            text.remove(at);
        }
        1 => text.insert(at, any_byte(random)),
        2 => text.truncate(at),
        _ => text[at] = any_byte(random),
    }
}

/// Any ASCII byte, those of the scan rules more often.
fn any_byte(random: &mut Random) -> u8 {
    if random.one_in(3) {
        random.below(128) as u8
    } else {
        random.pick(ALPHABET)
    }
}
