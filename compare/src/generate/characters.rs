//! Characters of two, three and four bytes in texts of the other shapes: in comments, in strings and elsewhere, whole and broken.

use super::random::Random;
use crate::scan::scan;

/// The first and the last of each length, those on both sides of the surrogates, a byte order mark, blanks and line ends of
/// Unicode, and some that people write; among them such as the original's casts take for letters.
const WHOLE: [char; 22] = [
    '\u{80}',
    '\u{85}',
    '\u{a0}',
    '°',
    'é',
    'ê',
    'µ',
    'α',
    'Ω',
    '\u{7ff}',
    '\u{800}',
    '€',
    '★',
    '\u{2028}',
    '\u{d7ff}',
    '\u{e000}',
    '\u{feff}',
    '\u{ffff}',
    '\u{10000}',
    '😀',
    '𝛼',
    '\u{10ffff}',
];

/// Bytes that are no characters: continuations alone, beginnings, overlong forms, surrogates, what lies above U+10FFFF, and
/// bytes that no character has.
const BROKEN: [&[u8]; 20] = [
    b"\x80",
    b"\xBF",
    b"\xC3",
    b"\xDF",
    b"\xE2",
    b"\xE2\x82",
    b"\xE0\xA0",
    b"\xF0",
    b"\xF0\x9F",
    b"\xF0\x9F\x98",
    b"\xC0\x80",
    b"\xC1\xBF",
    b"\xE0\x80\x80",
    b"\xE0\x9F\xBF",
    b"\xED\xA0\x80",
    b"\xF0\x8F\xBF\xBF",
    b"\xF4\x90\x80\x80",
    b"\xF5\x80\x80\x80",
    b"\xFE",
    b"\xFF",
];

/// A character of two bytes or more.
pub fn character(random: &mut Random) -> char {
    let (first, count) = match random.below(8) {
        0..=3 => return random.pick(&WHOLE),
        4 => (0x80, 0x780),
        5 => (0x800, 0xD000),
        6 => (0xE000, 0x2000),
        _ => (0x1_0000, 0x10_0000),
    };
    char::from_u32((first + random.below(count)) as u32).expect("no surrogate is among them")
}

/// A character's bytes, or bytes that are none.
pub fn piece(random: &mut Random) -> Vec<u8> {
    if random.one_in(3) {
        return random.pick(&BROKEN).to_vec();
    }
    character(random).to_string().into_bytes()
}

/// Up to three characters with letters and blanks between, seldom a broken one.
fn words(random: &mut Random) -> Vec<u8> {
    let mut bytes = Vec::new();
    for _ in 0..=random.below(3) {
        if random.one_in(2) {
            bytes.push(random.pick(b"ab *\\/"));
        }
        match random.below(20) {
            0 => bytes.extend(piece(random)),
            _ => bytes.extend(character(random).to_string().bytes()),
        }
    }
    bytes
}

/// Where in an ASCII text something may be put.
struct Places {
    /// Before a row.
    between: Vec<usize>,
    /// In a string or behind the opening of a comment.
    inside: Vec<usize>,
}

fn places(text: &[u8]) -> Places {
    let scanned = scan(std::str::from_utf8(text).expect("the text is ASCII"));
    let mut places = Places {
        between: vec![0],
        inside: Vec::new(),
    };
    let mut end = 0;
    for row in scanned.rows {
        let (start, next) = (row.start as usize, row.end as usize);
        let gap = &text[end..start];
        let opening = gap
            .windows(2)
            .position(|pair| pair == b"//" || pair == b"/*");
        places.inside.extend(opening.map(|at| end + at + 2));
        places.between.push(start);
        if row.kind == 49 {
            places.inside.extend(start + 1..next);
        }
        end = next;
    }
    places
}

/// An ASCII text with characters put into its comments and strings, into comments and strings of their own, or anywhere.
pub fn with_characters(random: &mut Random, text: &[u8]) -> Vec<u8> {
    let places = places(text);
    let mut put: Vec<(usize, Vec<u8>)> = (0..=random.below(3))
        .map(|_| match random.below(12) {
            0..=3 if !places.inside.is_empty() => (random.pick(&places.inside), words(random)),
            0..=6 => (
                random.pick(&places.between),
                [b" /*", &words(random)[..], b"*/"].concat(),
            ),
            7 | 8 => (
                random.pick(&places.between),
                [b" //", &words(random)[..], b"\n"].concat(),
            ),
            9 => (
                random.pick(&places.between),
                [b" \"", &words(random)[..], b"\""].concat(),
            ),
            10 => (random.below(text.len() + 1), words(random)),
            _ => (random.below(text.len() + 1), piece(random)),
        })
        .collect();
    put.sort_by_key(|(at, _)| std::cmp::Reverse(*at));
    let mut made = text.to_vec();
    for (at, bytes) in put {
        made.splice(at..at, bytes);
    }
    made
}

/// The same, and it is valid UTF-8.
pub fn valid_with_characters(random: &mut Random, text: &[u8]) -> Vec<u8> {
    loop {
        let made = with_characters(random, text);
        if std::str::from_utf8(&made).is_ok() {
            return made;
        }
    }
}

/// Puts a character, or what is none, over bytes of a text.
pub fn put_over(random: &mut Random, text: &mut [u8]) {
    if text.is_empty() {
        return;
    }
    let at = random.below(text.len());
    for (byte, new) in text[at..].iter_mut().zip(piece(random)) {
        *byte = new;
    }
}

#[cfg(test)]
mod tests {
    use super::*;
    use crate::differences::first_character_outside;
    use crate::generate::random_text;

    /// Characters of each length stand inside comments and strings, and elsewhere, and some are broken.
    #[test]
    fn every_kind_is_made() {
        let mut random = Random::new(9);
        let (mut broken, mut outside, mut inside) = (0, 0, [0; 5]);
        for _ in 0..2_000 {
            let text = random_text(&mut random);
            let text = with_characters(&mut random, &text);
            match std::str::from_utf8(&text) {
                Err(_) => broken += 1,
                Ok(text) if first_character_outside(text).is_some() => outside += 1,
                Ok(text) => text.chars().for_each(|char| inside[char.len_utf8()] += 1),
            }
        }
        assert!(broken > 200 && outside > 200, "{broken} {outside}");
        assert!(inside[2..].iter().all(|count| *count > 200), "{inside:?}");
    }
}
