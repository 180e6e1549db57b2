//! Edits made from random numbers, each for one kind of the sample.

use super::expected::{original, Asked, MOST_WORDS};
use super::{Call, Edit, Kind};
use crate::generate::change::{new_bytes, new_characters};
use crate::generate::characters::valid_with_characters;
use crate::generate::random::Random;
use crate::generate::{damage, programs, short, soup};

const COMMENTS: [&[u8]; 7] = [
    b"/* a b */",
    b"/**/",
    b"// ab\n",
    b"/* a\n*b */",
    b"//\n",
    b"/*/ \"*/",
    b"/* // */",
];

const STRINGS: [&[u8]; 6] = [
    b"\"ab\"",
    b"\"\"",
    b"\"a\\n\"",
    b"\"\\\"\"",
    b"\"\\\\\"",
    b"\"/* */\"",
];

const COMMENTS_WITH_CHARACTERS: [&[u8]; 4] = [
    "/* \u{b0}C */".as_bytes(),
    "// \u{3b1} Cen\n".as_bytes(),
    "/*\u{20ac}*/".as_bytes(),
    "//\u{1f600}\n".as_bytes(),
];

const STRINGS_WITH_CHARACTERS: [&[u8]; 4] = [
    "\"\u{b0}\"".as_bytes(),
    "\"\\n\u{3a9}a\"".as_bytes(),
    "\"\u{20ac}\"".as_bytes(),
    "\"\u{1f600}\"".as_bytes(),
];

/// Pieces that no reading goes past, unless it stands in a comment or string.
const REFUSED: [&[u8]; 9] = [
    b"@",
    b"\"ab\n",
    b"/* a",
    b"< ",
    b"0x;",
    b"\"\\q\"",
    b"9223372036854775808 ",
    b"0x8000000000000000;",
    b"\\",
];

const OPENINGS: [&[u8]; 7] = [b"/*", b"//", b"\"", b"/", b"*", b"/* a", b"\"\\"];

const CLOSINGS: [&[u8]; 6] = [b"*/", b"\n", b"\"", b"*", b"/", b" */ \" */"];

/// An edit of a kind, with its calls.
pub fn scene(random: &mut Random, kind: Kind) -> (Asked, Vec<Call>) {
    match kind {
        Kind::Outside => outside(random),
        Kind::Damaged => damaged(random),
        _ => {
            let asked = Asked::new(sensible(random, kind));
            let calls = calls(random, &asked);
            (asked, calls)
        }
    }
}

/// An edit of a kind in a text with characters of two bytes and more, which it may break or join, with its calls.
pub fn with_characters(random: &mut Random, kind: Kind) -> (Asked, Vec<Call>) {
    let bytes = new_characters(random);
    let edit = match kind {
        Kind::InComment => inside(random, kind, &COMMENTS_WITH_CHARACTERS, &bytes),
        Kind::InString => inside(random, kind, &STRINGS_WITH_CHARACTERS, &bytes),
        Kind::OldRefused => {
            let old = refused_with_characters(random);
            anywhere(random, kind, &old, 5, &bytes)
        }
        _ => {
            let old = text(random);
            let old = valid_with_characters(random, &old);
            anywhere(random, kind, &old, 5, &bytes)
        }
    };
    let asked = Asked::new(edit);
    let calls = calls(random, &asked);
    (asked, calls)
}

fn sensible(random: &mut Random, kind: Kind) -> Edit {
    match kind {
        Kind::AtStart => {
            let old = text(random);
            let b = random.below(old.len().min(4) + 1);
            Edit::of(kind, &old, 0, b, &new_bytes(random))
        }
        Kind::AtEnd => {
            let old = text(random);
            let a = old.len() - random.below(old.len().min(4) + 1);
            Edit::of(kind, &old, a, old.len(), &new_bytes(random))
        }
        Kind::InComment => {
            let bytes = new_bytes(random);
            inside(random, kind, &COMMENTS, &bytes)
        }
        Kind::InString => {
            let bytes = new_bytes(random);
            inside(random, kind, &STRINGS, &bytes)
        }
        Kind::Opening => {
            let old = text(random);
            let bytes = random.pick(&OPENINGS);
            anywhere(random, kind, &old, 2, bytes)
        }
        Kind::Closing => closing(random),
        Kind::OldRefused => {
            let old = refused_text(random);
            let bytes = new_bytes(random);
            anywhere(random, kind, &old, 5, &bytes)
        }
        _ => {
            let old = text(random);
            let bytes = new_bytes(random);
            anywhere(random, kind, &old, 6, &bytes)
        }
    }
}

/// A text of 10 to 300 bytes, mostly short; no byte of it is 0.
fn text(random: &mut Random) -> Vec<u8> {
    let (least, most, tokens) = match random.below(40) {
        0 => (120, 300, 80),
        1..=4 => (41, 119, 30),
        _ => (10, 40, 8),
    };
    loop {
        let text = match random.below(6) {
            0 => soup::text(random, tokens),
            1 => {
                let length = least + random.below(20);
                short::random_text(random, length)
            }
            2 | 3 => programs::text(random, tokens),
            _ => damage::text(random, tokens),
        };
        if (least..=most).contains(&text.len()) && !text.contains(&0) {
            return text;
        }
    }
}

/// A piece with the two halves of a text around it.
fn between(random: &mut Random, pieces: &[&'static [u8]]) -> [Vec<u8>; 3] {
    let mut left = text(random);
    let right = left.split_off(random.below(left.len() + 1));
    [left, random.pick(pieces).to_vec(), right]
}

/// A text that the original refuses to scan.
fn refused_text(random: &mut Random) -> Vec<u8> {
    loop {
        let text = between(random, &REFUSED).concat();
        if is_refused(&text) {
            return text;
        }
    }
}

/// The same with characters of two bytes and more, which may be what is refused.
fn refused_with_characters(random: &mut Random) -> Vec<u8> {
    loop {
        let text = refused_text(random);
        let text = valid_with_characters(random, &text);
        if is_refused(&text) {
            return text;
        }
    }
}

fn is_refused(text: &[u8]) -> bool {
    let told = original(text).expect("every text here is UTF-8 and short enough");
    told.refusal.is_some()
}

/// An edit in one of these pieces.
fn inside(random: &mut Random, kind: Kind, pieces: &[&'static [u8]], bytes: &[u8]) -> Edit {
    let parts = between(random, pieces);
    let (from, length) = (parts[0].len(), parts[1].len());
    let first = random.below(length + 1);
    let count = random.below((length - first).min(3) + 1);
    Edit::of(
        kind,
        &parts.concat(),
        from + first,
        from + first + count,
        bytes,
    )
}

/// At most so many bytes from any place on become these.
fn anywhere(random: &mut Random, kind: Kind, old: &[u8], most: usize, bytes: &[u8]) -> Edit {
    let a = random.below(old.len() + 1);
    let b = a + random.below((old.len() - a).min(most) + 1);
    Edit::of(kind, old, a, b, bytes)
}

/// An edit that closes a comment or string, or takes its opening away.
fn closing(random: &mut Random) -> Edit {
    let parts = between(random, &[b"/* a", b"// a", b"\"a", b"\"a\\", b"/*", b"\""]);
    let (from, length) = (parts[0].len(), parts[1].len());
    let old = parts.concat();
    if random.one_in(4) {
        return Edit::of(Kind::Closing, &old, from, from + length, b"");
    }
    let a = (from + length + random.below(4)).min(old.len());
    Edit::of(Kind::Closing, &old, a, a, random.pick(&CLOSINGS))
}

/// The shortest window that suffices, often one byte less, and here and there another window, or little room.
fn calls(random: &mut Random, asked: &Asked) -> Vec<Call> {
    let start = asked.restart()[1];
    let whole = asked.new_length() - start as usize;
    let enough = (0..=whole).find(|size| !asked.is_short(start, *size));
    let enough = enough.expect("a window to the text's end suffices");
    let full = asked.count() * 8;
    let mut calls = vec![asked.call(start, enough, full + random.below(20))];
    if enough > 0 && !random.one_in(3) {
        calls.push(asked.call(start, enough - 1, random.below(full + 1)));
    }
    if enough > 0 && random.one_in(5) {
        calls.push(asked.call(start, random.below(enough), full));
    }
    if random.one_in(3) {
        calls.push(asked.call(start, whole, full));
    }
    if full > 0 && random.one_in(3) {
        let size = enough + random.below(whole - enough + 1);
        calls.push(asked.call(start, size, random.below(full)));
    }
    calls
}

/// A call that is refused with 1, 2 or 6, or with 7 at the longest new text.
fn outside(random: &mut Random) -> (Asked, Vec<Call>) {
    let old = text(random);
    let bytes = new_bytes(random);
    let mut edit = anywhere(random, Kind::Outside, &old, 4, &bytes);
    let shape = random.below(10);
    put_outside(&mut edit, shape);
    let asked = Asked::new(edit);
    let start = asked.restart()[1];
    let whole = asked.new_length().saturating_sub(start as usize);
    let call = match shape {
        7 | 8 => asked.call(start + 1, whole.saturating_sub(1), MOST_WORDS),
        9 => asked.call(start, whole + 1 + random.below(3), MOST_WORDS),
        _ => asked.call(start, whole, MOST_WORDS),
    };
    (asked, vec![call])
}

/// Numbers in the wrong order or past the text; the longest new text, one byte more, and far more; a broken character. From
/// 8 on the edit stays as it is.
fn put_outside(edit: &mut Edit, shape: usize) {
    let length = edit.old.len() as u32;
    match shape {
        0 => (edit.a, edit.b) = (edit.b + 1, edit.a),
        1 => edit.b = length + 1,
        2 => (edit.a, edit.b) = (length + 1, length + 1),
        3 => edit.n = 65_536 - (length - (edit.b - edit.a)),
        4 => edit.n = 65_537 - (length - (edit.b - edit.a)),
        5 => {
            edit.new_bytes.push(0xE9);
            edit.n = edit.new_bytes.len() as u32;
        }
        6 | 7 => edit.n = u32::MAX,
        _ => {}
    }
}

/// An edit of a table that is not well formed: one word of its rows is changed, or its text could not be scanned.
fn damaged(random: &mut Random) -> (Asked, Vec<Call>) {
    loop {
        let old = match random.below(10) {
            0 => b"unit \xE9 {}".to_vec(),
            _ => text(random),
        };
        let bytes = new_bytes(random);
        let mut edit = anywhere(random, Kind::Damaged, &old, 4, &bytes);
        edit.damage = damage_of(random, Asked::new(edit.clone()).old_words());
        if random.one_in(4) {
            edit.a = edit.b + 1;
        }
        let asked = Asked::new(edit);
        if !asked.is_well_formed() {
            let call = asked.call(0, asked.new_length(), random.below(200));
            return (asked, vec![call]);
        }
    }
}

/// Another word for one of these, if there is one.
fn damage_of(random: &mut Random, words: &[u32]) -> Vec<(usize, u32)> {
    if words.is_empty() {
        return Vec::new();
    }
    let index = random.below(words.len());
    let word = words[index];
    let others = [
        word.wrapping_add(1),
        word.wrapping_sub(1),
        0,
        16,
        53,
        u32::MAX,
    ];
    vec![(index, random.pick(&others))]
}
