//! The word that was probably meant.

/// The one of some words that is nearest to a word, if one is near: a third of its letters may be wrong, and one at
/// least.
pub fn nearest<'a>(word: &str, words: impl IntoIterator<Item = &'a str>) -> Option<&'a str> {
    let word = word.to_ascii_lowercase();
    let near = words
        .into_iter()
        .map(|other| (distance(&word, other), other))
        .filter(|(away, other)| match word.len().min(other.len()) {
            0..=2 => *away <= 1,
            _ => *away <= 2 * 1.max(other.len() / 3),
        });
    near.min_by_key(|(away, _)| *away).map(|(_, other)| other)
}

/// How far one word is from another: 2 for each letter that has to be put in, taken out or changed, and 1 for two
/// neighbours that change places.
fn distance(one: &str, other: &str) -> usize {
    let (one, other) = (one.as_bytes(), other.as_bytes());
    let mut before: Vec<usize> = Vec::new();
    let mut last: Vec<usize> = (0..=other.len()).map(|letters| 2 * letters).collect();
    for (i, a) in one.iter().enumerate() {
        let mut line = vec![2 * i + 2];
        for (j, b) in other.iter().enumerate() {
            let changed = last[j] + 2 * usize::from(a != b);
            let mut least = changed.min(last[j + 1] + 2).min(line[j] + 2);
            if i > 0 && j > 0 && *a == other[j - 1] && one[i - 1] == *b {
                least = least.min(before[j - 1] + 1);
            }
            line.push(least);
        }
        before = std::mem::replace(&mut last, line);
    }
    last[other.len()]
}

#[cfg(test)]
mod tests {
    use super::*;

    #[test]
    fn letters_are_counted() {
        let cases = [
            ("", "", 0),
            ("reg", "regs", 2),
            ("retrun", "return", 1),
            ("abc", "", 6),
            ("kitten", "sitting", 6),
        ];
        for (one, other, wanted) in cases {
            assert_eq!(distance(one, other), wanted, "{one} {other}");
            assert_eq!(distance(other, one), wanted, "{other} {one}");
        }
    }

    #[test]
    fn near_words_are_found() {
        let words = ["reg", "return", "section", "license"];
        let cases = [
            ("regs", Some("reg")),
            ("retrun", Some("return")),
            ("licence", Some("license")),
            ("SECTION", Some("section")),
            ("foo", None),
        ];
        for (word, wanted) in cases {
            assert_eq!(nearest(word, words), wanted, "{word}");
        }
        assert_eq!(
            (nearest("f", ["if"]), nearest("fi", ["if"])),
            (None, Some("if"))
        );
        assert_eq!(
            nearest("load_u46", ["load_u16", "load_u64"]),
            Some("load_u64")
        );
    }
}
