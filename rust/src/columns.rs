//! How many columns of a terminal a character takes.
//!
//! Two tables of ranges, from Unicode's: characters that are wide (East Asian wide and full width, and emoji) take two columns, and marks
//! that are drawn on the character in front of them take none; every other character takes one. Marks are those for all scripts and of
//! Greek, Cyrillic, kana and hangul; of scripts that are written from right to left or in clusters nothing is said. Emoji that are joined
//! are counted one by one, as most terminals show them.

/// Characters of two columns: from the first to the last of each pair, in order.
#[rustfmt::skip]
const WIDE: [(char, char); 83] = [
    ('\u{1100}', '\u{115f}'), ('\u{231a}', '\u{231b}'), ('\u{2329}', '\u{232a}'), ('\u{23e9}', '\u{23ec}'),
    ('\u{23f0}', '\u{23f0}'), ('\u{23f3}', '\u{23f3}'), ('\u{25fd}', '\u{25fe}'), ('\u{2614}', '\u{2615}'),
    ('\u{2648}', '\u{2653}'), ('\u{267f}', '\u{267f}'), ('\u{2693}', '\u{2693}'), ('\u{26a1}', '\u{26a1}'),
    ('\u{26aa}', '\u{26ab}'), ('\u{26bd}', '\u{26be}'), ('\u{26c4}', '\u{26c5}'), ('\u{26ce}', '\u{26ce}'),
    ('\u{26d4}', '\u{26d4}'), ('\u{26ea}', '\u{26ea}'), ('\u{26f2}', '\u{26f3}'), ('\u{26f5}', '\u{26f5}'),
    ('\u{26fa}', '\u{26fa}'), ('\u{26fd}', '\u{26fd}'), ('\u{2705}', '\u{2705}'), ('\u{270a}', '\u{270b}'),
    ('\u{2728}', '\u{2728}'), ('\u{274c}', '\u{274c}'), ('\u{274e}', '\u{274e}'), ('\u{2753}', '\u{2755}'),
    ('\u{2757}', '\u{2757}'), ('\u{2795}', '\u{2797}'), ('\u{27b0}', '\u{27b0}'), ('\u{27bf}', '\u{27bf}'),
    ('\u{2b1b}', '\u{2b1c}'), ('\u{2b50}', '\u{2b50}'), ('\u{2b55}', '\u{2b55}'), ('\u{2e80}', '\u{303e}'),
    ('\u{3041}', '\u{3247}'), ('\u{3250}', '\u{4dbf}'), ('\u{4e00}', '\u{a4cf}'), ('\u{a960}', '\u{a97f}'),
    ('\u{ac00}', '\u{d7a3}'), ('\u{f900}', '\u{faff}'), ('\u{fe10}', '\u{fe19}'), ('\u{fe30}', '\u{fe6f}'),
    ('\u{ff01}', '\u{ff60}'), ('\u{ffe0}', '\u{ffe6}'), ('\u{16fe0}', '\u{18dff}'), ('\u{1aff0}', '\u{1b2ff}'),
    ('\u{1f004}', '\u{1f004}'), ('\u{1f0cf}', '\u{1f0cf}'), ('\u{1f18e}', '\u{1f18e}'), ('\u{1f191}', '\u{1f19a}'),
    ('\u{1f200}', '\u{1f320}'), ('\u{1f32d}', '\u{1f335}'), ('\u{1f337}', '\u{1f37c}'), ('\u{1f37e}', '\u{1f393}'),
    ('\u{1f3a0}', '\u{1f3ca}'), ('\u{1f3cf}', '\u{1f3d3}'), ('\u{1f3e0}', '\u{1f3f0}'), ('\u{1f3f4}', '\u{1f3f4}'),
    ('\u{1f3f8}', '\u{1f43e}'), ('\u{1f440}', '\u{1f440}'), ('\u{1f442}', '\u{1f4fc}'), ('\u{1f4ff}', '\u{1f53d}'),
    ('\u{1f54b}', '\u{1f54e}'), ('\u{1f550}', '\u{1f567}'), ('\u{1f57a}', '\u{1f57a}'), ('\u{1f595}', '\u{1f596}'),
    ('\u{1f5a4}', '\u{1f5a4}'), ('\u{1f5fb}', '\u{1f64f}'), ('\u{1f680}', '\u{1f6c5}'), ('\u{1f6cc}', '\u{1f6cc}'),
    ('\u{1f6d0}', '\u{1f6d2}'), ('\u{1f6d5}', '\u{1f6df}'), ('\u{1f6eb}', '\u{1f6ec}'), ('\u{1f6f4}', '\u{1f6fc}'),
    ('\u{1f7e0}', '\u{1f7f0}'), ('\u{1f90c}', '\u{1f93a}'), ('\u{1f93c}', '\u{1f945}'), ('\u{1f947}', '\u{1f9ff}'),
    ('\u{1fa70}', '\u{1faff}'), ('\u{20000}', '\u{2fffd}'), ('\u{30000}', '\u{3fffd}'),
];

/// Characters of no column: marks on the character in front of them, joiners of two characters, and what chooses a form.
#[rustfmt::skip]
const MARKS: [(char, char); 13] = [
    ('\u{300}', '\u{36f}'), ('\u{483}', '\u{489}'), ('\u{1160}', '\u{11ff}'), ('\u{1ab0}', '\u{1aff}'), ('\u{1dc0}', '\u{1dff}'),
    ('\u{200d}', '\u{200d}'), ('\u{20d0}', '\u{20f0}'), ('\u{2de0}', '\u{2dff}'), ('\u{302a}', '\u{302d}'), ('\u{3099}', '\u{309a}'),
    ('\u{fe00}', '\u{fe0f}'), ('\u{fe20}', '\u{fe2f}'), ('\u{e0100}', '\u{e01ef}'),
];

/// Characters that do not show, or that change how those behind them show: blanks without width, marks of direction, ends of lines and
/// paragraphs, the byte order mark, tags.
#[rustfmt::skip]
const UNSEEN: [(char, char); 8] = [
    ('\u{61c}', '\u{61c}'), ('\u{200b}', '\u{200c}'), ('\u{200e}', '\u{200f}'), ('\u{2028}', '\u{202e}'), ('\u{2060}', '\u{206f}'),
    ('\u{feff}', '\u{feff}'), ('\u{fff9}', '\u{fffb}'), ('\u{e0000}', '\u{e007f}'),
];

/// How many columns a character takes that shows; a tab is left to the terminal.
pub fn columns(letter: char) -> usize {
    match letter {
        _ if is_mark(letter) => 0,
        _ if is_in(&WIDE, letter) => 2,
        _ => 1,
    }
}

/// Whether a character is drawn on the one in front of it.
pub fn is_mark(letter: char) -> bool {
    is_in(&MARKS, letter)
}

/// Whether a character may be written to a terminal as it is; a tab may.
pub fn shows(letter: char) -> bool {
    letter == '\t' || !letter.is_control() && !is_in(&UNSEEN, letter)
}

/// The text with a `?` for each character that does not show.
pub fn shown(text: &str) -> String {
    text.replace(|letter| !shows(letter), "?")
}

fn is_in(ranges: &[(char, char)], letter: char) -> bool {
    let behind = ranges.partition_point(|&(first, _)| first <= letter);
    let range = behind.checked_sub(1).and_then(|at| ranges.get(at));
    range.is_some_and(|&(_, last)| letter <= last)
}

#[cfg(test)]
mod tests {
    use super::*;

    #[test]
    fn ranges_stand_in_order() {
        for ranges in [&WIDE[..], &MARKS, &UNSEEN] {
            assert!(ranges.iter().all(|(first, last)| first <= last));
            assert!(ranges.windows(2).all(|pair| pair[0].1 < pair[1].0));
        }
    }

    #[test]
    fn characters_have_their_columns() {
        let one = "a~°µαΩéжא\u{a0}☀❤½—";
        let two = "角度速한あア、「！Ａ😀🔭⚡⭐𠀀";
        let none = "\u{301}\u{308}\u{345}\u{20dd}\u{fe0f}\u{200d}\u{3099}";
        for (letters, wanted) in [(one, 1), (two, 2), (none, 0)] {
            for letter in letters.chars() {
                assert_eq!(columns(letter), wanted, "{}", letter.escape_unicode());
            }
        }
    }

    #[test]
    fn what_does_not_show_is_a_mark() {
        assert_eq!(shown("a\u{0}\u{1b}\u{7f}\u{85}\t~°角"), "a????\t~°角");
        assert_eq!(
            shown("\u{feff}\u{202e}\u{200b}\u{2028}e\u{301}"),
            "????e\u{301}"
        );
    }
}
