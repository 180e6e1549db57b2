//! A unified diff of two texts, as `patch` reads it.

use std::collections::HashMap;
use std::ffi::OsStr;
use std::io::{self, Write};
use std::ops::Range;

/// How many lines that stay are shown around those that change.
const CONTEXT: usize = 3;

/// Two texts by their lines, each with its newline, and where they differ.
pub struct Diff<'a> {
    old: Vec<&'a [u8]>,
    new: Vec<&'a [u8]>,
    changes: Vec<Change>,
}

/// Old lines in whose place new ones come. Between two changes all lines stay.
#[derive(Debug, Clone, PartialEq, Eq)]
struct Change {
    old: Range<usize>,
    new: Range<usize>,
}

impl<'a> Diff<'a> {
    pub fn of(old: &'a [u8], new: &'a [u8]) -> Diff<'a> {
        let lines = |text: &'a [u8]| text.split_inclusive(|&byte| byte == b'\n').collect();
        let (old, new): (Vec<_>, Vec<_>) = (lines(old), lines(new));
        let changes = changes(&old, &new);
        Diff { old, new, changes }
    }

    /// Prints the diff, labelled with the path of the file; nothing if the texts are equal.
    pub fn print(&self, path: &OsStr, out: &mut impl Write) -> io::Result<()> {
        if self.changes.is_empty() {
            return Ok(());
        }
        for sign in ["---", "+++"] {
            write!(out, "{sign} ")?;
            out.write_all(&label(path.as_encoded_bytes()))?;
            writeln!(out)?;
        }
        let is_near = |a: &Change, b: &Change| b.old.start - a.old.end <= 2 * CONTEXT;
        self.changes
            .chunk_by(is_near)
            .try_for_each(|changes| self.print_near(changes, out))
    }

    /// Prints changes that stand near each other, with the lines around them.
    fn print_near(&self, changes: &[Change], out: &mut impl Write) -> io::Result<()> {
        let (Some(first), Some(last)) = (changes.first(), changes.last()) else {
            return Ok(());
        };
        let before = first.old.start.min(CONTEXT);
        let behind = (self.old.len() - last.old.end).min(CONTEXT);
        writeln!(
            out,
            "@@ -{} +{} @@",
            counted(first.old.start - before..last.old.end + behind),
            counted(first.new.start - before..last.new.end + behind)
        )?;
        let mut at = first.old.start - before;
        for change in changes {
            print_lines(b' ', &self.old[at..change.old.start], out)?;
            print_lines(b'-', &self.old[change.old.clone()], out)?;
            print_lines(b'+', &self.new[change.new.clone()], out)?;
            at = change.old.end;
        }
        print_lines(b' ', &self.old[at..last.old.end + behind], out)
    }
}

/// Lines by the number of the first and their count; of no line the number of the one before.
fn counted(lines: Range<usize>) -> String {
    match lines.len() {
        0 => format!("{},0", lines.start),
        count => format!("{},{count}", lines.start + 1),
    }
}

fn print_lines(sign: u8, lines: &[&[u8]], out: &mut impl Write) -> io::Result<()> {
    for line in lines {
        out.write_all(&[sign])?;
        out.write_all(line)?;
        if !line.ends_with(b"\n") {
            out.write_all(b"\n\\ No newline at end of file\n")?;
        }
    }
    Ok(())
}

/// A path as the head of a diff has it: in quotes if something in it would not show or could end it, and with a tab behind it if it has
/// blanks.
fn label(path: &[u8]) -> Vec<u8> {
    let is_quoted = |byte: &u8| byte.is_ascii_control() || matches!(byte, b'"' | b'\\');
    if path.iter().any(is_quoted) {
        let quoted = path.iter().flat_map(|byte| match byte {
            b'"' | b'\\' => vec![b'\\', *byte],
            byte if byte.is_ascii_control() => format!("\\{byte:03o}").into_bytes(),
            byte => vec![*byte],
        });
        return [b'"'].into_iter().chain(quoted).chain([b'"']).collect();
    }
    match path.contains(&b' ') {
        true => [path, b"\t"].concat(),
        false => path.to_vec(),
    }
}

/// Where two lists of lines differ. Lines that both have once, in the same order, stay; so do equal ones directly behind and in front of
/// them and at both ends. It is not always the shortest list of changes, and takes a time that hardly grows faster than the texts.
fn changes(old: &[&[u8]], new: &[&[u8]]) -> Vec<Change> {
    let mut stays = rising(&once_in_both(old, new));
    stays.push((old.len(), new.len()));
    let mut changes: Vec<Change> = Vec::new();
    let (mut old_at, mut new_at) = (0, 0);
    for (old_end, new_end) in stays {
        let (gap, other) = (&old[old_at..old_end], &new[new_at..new_end]);
        let front = equal(gap.iter(), other.iter());
        let rest = (&gap[front..], &other[front..]);
        let back = equal(rest.0.iter().rev(), rest.1.iter().rev());
        let change = Change {
            old: old_at + front..old_end - back,
            new: new_at + front..new_end - back,
        };
        if !(change.old.is_empty() && change.new.is_empty()) {
            changes.push(change);
        }
        (old_at, new_at) = (old_end + 1, new_end + 1);
    }
    changes
}

/// How many lines are equal from the first on.
fn equal<'a>(
    old: impl Iterator<Item = &'a &'a [u8]>,
    new: impl Iterator<Item = &'a &'a [u8]>,
) -> usize {
    old.zip(new).take_while(|(old, new)| old == new).count()
}

/// The numbers of each line that both lists have exactly once, in the order of the old one.
fn once_in_both(old: &[&[u8]], new: &[&[u8]]) -> Vec<(usize, usize)> {
    let once = |lines: &[&[u8]]| {
        let mut found = HashMap::new();
        for (number, line) in lines.iter().enumerate() {
            found
                .entry(line.to_vec())
                .and_modify(|only| *only = None)
                .or_insert(Some(number));
        }
        found
    };
    let (old_once, new_once) = (once(old), once(new));
    let of = |found: &HashMap<Vec<u8>, Option<usize>>, line: &[u8]| found.get(line).copied()?;
    let both = old
        .iter()
        .filter_map(|line| of(&old_once, line).zip(of(&new_once, line)));
    both.collect()
}

/// A longest part of these pairs, whose first numbers rise, in which the second ones rise too.
fn rising(pairs: &[(usize, usize)]) -> Vec<(usize, usize)> {
    // For each length the pair in which a part of it ends lowest, and for each pair the one before it.
    let mut ends: Vec<usize> = Vec::new();
    let mut before: Vec<Option<usize>> = Vec::new();
    for (at, pair) in pairs.iter().enumerate() {
        let length = ends.partition_point(|&end| pairs[end].1 < pair.1);
        before.push(length.checked_sub(1).map(|shorter| ends[shorter]));
        match ends.get_mut(length) {
            Some(end) => *end = at,
            None => ends.push(at),
        }
    }
    let mut part = Vec::new();
    let mut next = ends.last().copied();
    while let Some(at) = next {
        part.push(pairs[at]);
        next = before[at];
    }
    part.reverse();
    part
}

#[cfg(test)]
mod tests {
    use super::*;

    fn diff(old: &str, new: &str) -> String {
        let mut out = Vec::new();
        let diff = Diff::of(old.as_bytes(), new.as_bytes());
        diff.print(OsStr::new("t"), &mut out).unwrap();
        String::from_utf8(out).unwrap()
    }

    #[test]
    fn changes_are_shown_with_what_is_around_them() {
        assert_eq!(diff("", ""), "");
        assert_eq!(diff("a\n", "a\n"), "");
        assert_eq!(diff("", "a\n"), "--- t\n+++ t\n@@ -0,0 +1,1 @@\n+a\n");
        assert_eq!(diff("a\n", ""), "--- t\n+++ t\n@@ -1,1 +0,0 @@\n-a\n");
        assert_eq!(
            diff("a\nb", "a\nb\n"),
            "--- t\n+++ t\n@@ -1,2 +1,2 @@\n a\n-b\n\\ No newline at end of file\n+b\n"
        );
        assert_eq!(
            diff("1\n2\n3\n4\n5\n6\n7\n8\n", "1\n2\n3\n4\nx\n6\n7\n8\n"),
            "--- t\n+++ t\n@@ -2,7 +2,7 @@\n 2\n 3\n 4\n-5\n+x\n 6\n 7\n 8\n"
        );
    }

    /// Seven lines that stay part two changes, six do not.
    #[test]
    fn near_changes_are_shown_together() {
        let shown = |lines: usize| {
            let between: String = (0..lines).map(|line| format!("{line}\n")).collect();
            diff(&format!("a\n{between}b\n"), &format!("x\n{between}y\n"))
        };
        assert_eq!(shown(6).matches("@@ -").count(), 1);
        assert_eq!(shown(7).matches("@@ -").count(), 2);
    }

    #[test]
    fn names_are_labels() {
        let cases: [(&[u8], &[u8]); 5] = [
            (b"a/b.snx", b"a/b.snx"),
            (b"a b", b"a b\t"),
            (b"a\"b", b"\"a\\\"b\""),
            (b"a\tb", b"\"a\\011b\""),
            (b"\xff\xfe", b"\xff\xfe"),
        ];
        for (path, wanted) in cases {
            assert_eq!(label(path), wanted);
        }
    }

    /// Of every two texts of up to five lines out of three: the changes make the old one the new one, and what is between them is equal.
    #[test]
    fn changes_lead_from_one_to_the_other() {
        let texts: Vec<Vec<&[u8]>> = (0..=5)
            .flat_map(|length: u32| (0..3_usize.pow(length)).map(move |number| (length, number)))
            .map(|(length, number)| {
                let line = |at: u32| [&b"a"[..], b"b", b"c"][number / 3_usize.pow(at) % 3];
                (0..length).map(line).collect()
            })
            .collect();
        for (old, new) in texts
            .iter()
            .flat_map(|old| texts.iter().map(move |new| (old, new)))
        {
            let (mut made, mut at) = (Vec::<&[u8]>::new(), 0);
            for change in changes(old, new) {
                made.extend(&old[at..change.old.start]);
                assert_eq!(made.len(), change.new.start);
                made.extend(&new[change.new]);
                at = change.old.end;
            }
            made.extend(&old[at..]);
            assert_eq!(&made, new, "{old:?}");
        }
    }
}
