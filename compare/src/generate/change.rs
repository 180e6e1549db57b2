//! Bytes that an edit puts into a text.

use super::random::Random;
use super::{characters, short, spelling};

/// None, a few bytes, the beginning of a string or comment, a run of digits, or a token.
pub fn new_bytes(random: &mut Random) -> Vec<u8> {
    match random.below(8) {
        0 => Vec::new(),
        1..=4 => {
            let count = 1 + random.below(3);
            short::random_text(random, count)
        }
        5 => short::quoting_text(random),
        6 => b"99999999999999999999"[..1 + random.below(20)].to_vec(),
        _ => spelling::any_token(random).as_bytes().to_vec(),
    }
}

/// The same, or a character, a part of one or what is none, alone or with bytes around it.
pub fn new_characters(random: &mut Random) -> Vec<u8> {
    let mut bytes = match random.below(3) {
        0 => return new_bytes(random),
        1 => Vec::new(),
        _ => {
            let count = random.below(3);
            short::random_text(random, count)
        }
    };
    let mut piece = characters::piece(random);
    if random.one_in(3) {
        piece.remove(random.below(piece.len()));
    }
    bytes.extend(piece);
    if random.one_in(3) {
        bytes.extend(short::random_text(random, 1));
    }
    bytes
}
