//! Every text of few bytes over an alphabet that has each scan rule's bytes, and
//! random short texts.

use super::random::Random;

/// Names and hex digits, `0x` and its digits, strings and escapes, comments,
/// signs that are doubled or joined, brackets, blanks, and bytes that begin no row.
pub const ALPHABET: &[u8; 30] = b"abnx0189\"\\/*-+=<>;{}()., \n\t\r\x7f@";

/// Every text of exactly this length over the alphabet.
pub fn texts_of_length(length: u32) -> impl Iterator<Item = Vec<u8>> {
    let count = ALPHABET.len().pow(length);
    (0..count).map(move |index| text_at(index, length))
}

/// The text whose bytes are the digits of `index` to the alphabet's base.
fn text_at(index: usize, length: u32) -> Vec<u8> {
    let mut rest = index;
    (0..length)
        .map(|_| {
            let byte = ALPHABET[rest % ALPHABET.len()];
            rest /= ALPHABET.len();
            byte
        })
        .collect()
}

/// A random text of exactly this length over the alphabet.
pub fn random_text(random: &mut Random, length: usize) -> Vec<u8> {
    (0..length).map(|_| random.pick(ALPHABET)).collect()
}

/// Bytes that open, close and escape strings and comments.
const QUOTING: &[u8; 10] = b"\"\"\\\\n/**\na";

/// A string or comment from its opening on, closed or not, and what follows it.
pub fn quoting_text(random: &mut Random) -> Vec<u8> {
    let opening: &[u8] = random.pick(&[b"\"", b"\"", b"/*", b"//", b"a \""]);
    let length = 1 + random.below(7);
    let mut text = opening.to_vec();
    text.extend((0..length).map(|_| random.pick(QUOTING)));
    text
}

#[cfg(test)]
mod tests {
    use super::*;
    use std::collections::HashSet;

    #[test]
    fn texts_are_all_there_and_different() {
        let texts: HashSet<Vec<u8>> = texts_of_length(2).collect();
        assert_eq!(texts.len(), 900);
    }
}
