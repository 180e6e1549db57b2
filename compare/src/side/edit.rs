//! The library's edit against the model's at every window length, and its change, against a fresh scan by the library, and by the original.

use super::{memory_with, same, shown, Compared, Counts, Difference, Memory};
use crate::answer::answer;
use crate::generate::change::{new_bytes, new_characters};
use crate::generate::characters::{put_over, valid_with_characters};
use crate::generate::random::Random;
use crate::generate::{damage, random_text, short};
use crate::model::edit::{change as changed, edit, restart, Change};
use crate::model::table::Lent;
use crate::model::{refusal_words, Told};
use crate::terms::Answer;
use spoonharbor::lent::{self, Words};

/// Bytes with which short texts show every rule: a letter, a digit and `0x`, a string and its escapes, comments, signs that
/// join, a plain sign, a blank, a newline, and a byte that begins no row.
const SMALL: &[u8; 16] = b"ax09n\"\\/*-=<; \n@";

/// Bytes with which short texts show what an edit does to characters: what opens and closes strings and comments, a blank, a
/// newline, the first byte of a character of two, three and four bytes, two bytes that go on, of which the first does not go on behind
/// the third of these, and one that no character has.
const PARTS: &[u8; 11] = b"\"/* \n\xC3\xE2\xF0\x80\x9F\xFF";

/// Random edits of random texts, every other with characters of two bytes and more, each at every window length and as a change,
/// until so many calls were made.
pub fn run(calls: u64, seed: u64) -> Compared {
    let mut counts = Counts::default();
    let mut holder = Holder::default();
    let mut random = Random::new(seed);
    while counts.get("calls") < calls {
        let mut old = old_text(&mut random);
        let mut new_bytes = new_bytes(&mut random);
        if random.one_in(2) {
            old = valid_with_characters(&mut random, &old);
            new_bytes = new_characters(&mut random);
            counts.add("edits with characters");
        }
        let a = random.below(old.len() + 1);
        let b = a + random.below((old.len() - a).min(6) + 1);
        holder.hold(&old, a, b, &new_bytes, Asking::Original, &mut counts)?;
        holder.hold_outside(&mut random, &old, &mut counts)?;
    }
    Ok(counts)
}

/// Every edit of every text of at most `length` bytes over sixteen bytes, each with no, every one and every two new bytes, each
/// at every window length and as a change; and edits apart.
pub fn run_small(length: u32) -> Compared {
    let mut counts = Counts::default();
    let mut holder = Holder::default();
    for old in (0..=length).flat_map(|length| small_texts(SMALL, length)) {
        holder.hold_every(&old, old.len(), SMALL, 2, &mut counts)?;
    }
    run_apart(&mut holder, SMALL, length, &mut counts)?;
    Ok(counts)
}

/// The same over eleven bytes, characters and their parts among them, where a text has at most `length` bytes together with its new
/// ones. Texts that are no UTF-8 have no table and are not edited.
pub fn run_parts(length: u32) -> Compared {
    let mut counts = Counts::default();
    let mut holder = Holder::default();
    for old_length in 0..=length {
        for old in small_texts(PARTS, old_length).filter(|old| is_valid(old)) {
            let most = (length - old_length).min(2);
            holder.hold_every(&old, old.len(), PARTS, most, &mut counts)?;
        }
    }
    run_apart(&mut holder, PARTS, length.saturating_sub(1), &mut counts)?;
    Ok(counts)
}

/// Bytes that stand behind an edit, so many that a window behind them can be judged.
const PADS: [&[u8]; 2] = [b"    ", b"aaaa"];

/// Every edit in every text that stands in front of a pad, behind which every text stands in which windows end; both have at
/// most `length` bytes together with the new ones.
fn run_apart(
    holder: &mut Holder,
    alphabet: &[u8],
    length: u32,
    counts: &mut Counts,
) -> Result<(), Difference> {
    for (pad, front) in PADS
        .iter()
        .flat_map(|pad| (0..=length).map(move |front| (pad, front)))
    {
        for (left, behind) in (0..=length - front)
            .flat_map(|behind| small_texts(alphabet, front).map(move |left| (left, behind)))
        {
            for right in small_texts(alphabet, behind) {
                let old = [&left[..], pad, &right[..]].concat();
                if is_valid(&old) {
                    let most = (length - front - behind).min(2);
                    holder.hold_every(&old, left.len(), alphabet, most, counts)?;
                    counts.add("old texts apart");
                }
            }
        }
    }
    Ok(())
}

fn is_valid(text: &[u8]) -> bool {
    std::str::from_utf8(text).is_ok()
}

/// Every text of this length over an alphabet.
fn small_texts(alphabet: &[u8], length: u32) -> impl Iterator<Item = Vec<u8>> + '_ {
    let size = alphabet.len();
    (0..size.pow(length)).map(move |index| {
        (0..length)
            .map(|digit| alphabet[index / size.pow(digit) % size])
            .collect()
    })
}

fn old_text(random: &mut Random) -> Vec<u8> {
    match random.below(3) {
        0 => {
            let length = random.below(12);
            short::random_text(random, length)
        }
        _ => {
            let mut text = random_text(random);
            text.truncate(120);
            if random.one_in(3) {
                damage::damage_bytes(random, &mut text);
            }
            text
        }
    }
}

/// Who else is asked for a fresh scan of the new text.
#[derive(Clone, Copy, PartialEq, Eq)]
enum Asking {
    Library,
    Original,
}

/// A scanned text, and memory for the calls.
#[derive(Default)]
struct Holder {
    rows: Vec<u32>,
    table: Words,
    memory: Memory,
}

impl Holder {
    fn scan(&mut self, text: &[u8]) {
        self.rows.clear();
        self.rows.resize((text.len() + 1) * 8, 0);
        self.table = lent::scan(text, &mut self.rows);
        self.rows.truncate(self.table[lent::COUNT] as usize * 8);
    }

    /// Holds every edit in so many first bytes of a text that puts at most so many bytes of an alphabet in.
    fn hold_every(
        &mut self,
        old: &[u8],
        last: usize,
        alphabet: &[u8],
        most: u32,
        counts: &mut Counts,
    ) -> Result<(), Difference> {
        for new_bytes in (0..=most).flat_map(|length| small_texts(alphabet, length)) {
            for a in 0..=last {
                for b in a..=last {
                    self.hold(old, a, b, &new_bytes, Asking::Library, counts)?;
                }
            }
        }
        Ok(())
    }

    /// Holds one edit at every window length, and as a change.
    fn hold(
        &mut self,
        old: &[u8],
        a: usize,
        b: usize,
        new_bytes: &[u8],
        asking: Asking,
        counts: &mut Counts,
    ) -> Result<(), Difference> {
        let new = [&old[..a], new_bytes, &old[b..]].concat();
        let fresh = fresh_scan(&new);
        if asking == Asking::Original {
            hold_scan_against_original(&new, &fresh, counts)?;
        }
        self.scan(old);
        let change = Change {
            a: a as u32,
            b: b as u32,
            n: new_bytes.len() as u32,
        };
        let start = self.held_restart(old, change.a)?;
        for end in start as usize..=new.len() {
            self.hold_window(old, change, &new, start as usize..end, &fresh, counts)?;
        }
        self.hold_change(old, change, &new, &fresh, counts)?;
        counts.add("edits");
        Ok(())
    }

    /// Holds one change: the model's answer, which is the fresh scan's; room in plenty, exactly full, and one short.
    fn hold_change(
        &mut self,
        old: &[u8],
        change: Change,
        new: &[u8],
        (fresh_table, fresh_rows): &(Words, Vec<u32>),
        counts: &mut Counts,
    ) -> Result<(), Difference> {
        let asked = || format!("{change:?} of {} into {}", shown(old), shown(new));
        let count = fresh_rows.len() / 8;
        for room in [count + 1, count, count.saturating_sub(1)] {
            let words = room * 8 + 5;
            let expected = changed(self.lent(), change, new, room);
            let (answer, written) = self.call_change(change, new, words);
            same(answer, expected.words(), asked)?;
            same(written, &memory_with(&expected, words)[..], asked)?;
            if room >= count {
                same(&answer, fresh_table, asked)?;
                same(&written[..fresh_rows.len()], &fresh_rows[..], asked)?;
            }
            counts.add("calls");
            counts.add("changes");
        }
        Ok(())
    }

    /// The library's answer to a change and what it left in so many words.
    fn call_change(&mut self, change: Change, text: &[u8], words: usize) -> (Words, &[u32]) {
        let Change { a, b, n } = change;
        let memory = self.memory.fresh(words);
        let change = lent::Change { a, b, n };
        let answer = lent::change(&self.rows, &self.table, change, text, memory);
        (answer, memory)
    }

    /// The restart place, which must be the model's.
    fn held_restart(&self, old: &[u8], a: u32) -> Result<u32, Difference> {
        let answer = lent::restart(&self.rows, &self.table, a);
        let expected = match restart(self.lent(), a) {
            Ok(place) => [0, place.offset, place.line, place.column, 0, 0, 0, 0],
            Err(refusal) => refusal_words(Some(refusal)),
        };
        same(answer, expected, || {
            format!("restart at {a} of {}", shown(old))
        })?;
        Ok(answer[lent::OFFSET])
    }

    fn lent(&self) -> Lent<'_> {
        Lent {
            rows: &self.rows,
            table: &self.table,
        }
    }

    /// Holds one edit at one window length: the model's answer, which is 7 or the fresh scan's; room exactly full, and one short.
    fn hold_window(
        &mut self,
        old: &[u8],
        change: Change,
        new: &[u8],
        window: std::ops::Range<usize>,
        fresh: &(Words, Vec<u32>),
        counts: &mut Counts,
    ) -> Result<(), Difference> {
        let (fresh_table, fresh_rows) = fresh;
        let start = window.start as u32;
        let asked = || {
            let Change { a, b, .. } = change;
            format!(
                "edit of {} at {a} to {b} into {}, window {window:?}",
                shown(old),
                shown(new)
            )
        };
        let words = fresh_rows.len() + 8 + 5;
        let expected = edit(self.lent(), change, start, &new[window.clone()], words / 8);
        let (answer, written) = self.call(change, start, &new[window.clone()], words);
        same(answer, expected.words(), asked)?;
        same(written, &memory_with(&expected, words)[..], asked)?;
        counts.add("calls");
        if new
            .get(window.end)
            .is_some_and(|byte| matches!(byte, 128..=191))
        {
            counts.add("windows that end inside a character");
        }
        if answer[lent::NUMBER] == 7 {
            counts.add("window short");
            return Ok(());
        }
        same(&answer, fresh_table, asked)?;
        same(&written[..fresh_rows.len()], &fresh_rows[..], asked)?;
        counts.add("fresh scan");
        if window.end < new.len() {
            counts.add("fresh scan, by a part of the text");
        }
        if answer[lent::NUMBER] == 2 {
            counts.add("fresh scan, which is 2");
        }
        let count = fresh_rows.len() / 8;
        for room in [count, count.saturating_sub(1)] {
            let expected = edit(self.lent(), change, start, &new[window.clone()], room);
            let (answer, written) = self.call(change, start, &new[window.clone()], room * 8);
            same(answer, expected.words(), asked)?;
            same(written, &memory_with(&expected, room * 8)[..], asked)?;
            counts.add("calls");
        }
        Ok(())
    }

    /// The library's answer and what it left in so many words.
    fn call(&mut self, change: Change, start: u32, window: &[u8], words: usize) -> (Words, &[u32]) {
        let Change { a, b, n } = change;
        let memory = self.memory.fresh(words);
        let change = lent::Change { a, b, n };
        let answer = lent::edit(&self.rows, &self.table, change, start, window, memory);
        (answer, memory)
    }

    /// Holds calls that are not sensible, too long or no UTF-8, and windows that lie.
    fn hold_outside(
        &mut self,
        random: &mut Random,
        old: &[u8],
        counts: &mut Counts,
    ) -> Result<(), Difference> {
        let number = |random: &mut Random| match random.below(8) {
            0 => u32::MAX,
            1 => 65_536,
            _ => random.below(old.len() + 3) as u32,
        };
        let change = Change {
            a: number(random),
            b: number(random),
            n: number(random),
        };
        let start = match restart(self.lent(), change.a) {
            Ok(place) if !random.one_in(4) => place.offset,
            _ => number(random),
        };
        let length = random.below(old.len() + 4);
        let mut window = short::random_text(random, length);
        if random.one_in(2) {
            put_over(random, &mut window);
        }
        let room = random.below(self.rows.len() / 8 + 4);
        let words = room * 8 + random.below(8);
        let expected = edit(self.lent(), change, start, &window, room);
        let (answer, written) = self.call(change, start, &window, words);
        let asked = || {
            format!(
                "{change:?} from {start} with {}, {words} words, of {}",
                shown(&window),
                shown(old)
            )
        };
        same(answer, expected.words(), asked)?;
        same(written, &memory_with(&expected, words)[..], asked)?;
        counts.add("calls");
        counts.add(format!("any call, answered {}", answer[lent::NUMBER]));
        self.hold_change_outside(random, old, change, words, counts)
    }

    /// Holds a change whose text lies: mostly it is as long as the change makes it, or nearly.
    fn hold_change_outside(
        &mut self,
        random: &mut Random,
        old: &[u8],
        change: Change,
        words: usize,
        counts: &mut Counts,
    ) -> Result<(), Difference> {
        let Change { a, b, n } = change;
        let makes =
            i64::from(self.table[lent::LENGTH]) - i64::from(b) + i64::from(a) + i64::from(n);
        let near = makes + random.below(5) as i64 - 2;
        let length = match random.below(4) {
            0 => near,
            _ => makes,
        };
        let length = length.clamp(0, 65_600) as usize;
        let mut text = short::random_text(random, length);
        if random.one_in(2) {
            put_over(random, &mut text);
        }
        let expected = changed(self.lent(), change, &text, words / 8);
        let (answer, written) = self.call_change(change, &text, words);
        let asked = || {
            format!(
                "{change:?} into {}, {words} words, of {}",
                shown(&text),
                shown(old)
            )
        };
        same(answer, expected.words(), asked)?;
        same(written, &memory_with(&expected, words)[..], asked)?;
        counts.add("calls");
        counts.add(format!("any change, answered {}", answer[lent::NUMBER]));
        Ok(())
    }
}

/// The library's own scan of a text.
fn fresh_scan(text: &[u8]) -> (Words, Vec<u32>) {
    let mut rows = vec![0; (text.len() + 1) * 8];
    let table = lent::scan(text, &mut rows);
    rows.truncate(table[lent::COUNT] as usize * 8);
    (table, rows)
}

/// Holds a scan of the library's against the original's.
fn hold_scan_against_original(
    text: &[u8],
    (table, rows): &(Words, Vec<u32>),
    counts: &mut Counts,
) -> Result<(), Difference> {
    let asked = || format!("scan, as the original, {}", shown(text));
    let original = match answer(text) {
        Answer::Compared { rows, ending, .. } => Told {
            rows,
            length: text.len() as u32,
            refusal: ending,
        },
        Answer::NotCompared { number } => {
            counts.add(format!(
                "new texts that the original is not asked about, refused {number}"
            ));
            return same(table[lent::NUMBER], number, asked);
        }
    };
    same(*table, original.words(), asked)?;
    same(&rows[..], &memory_with(&original, rows.len())[..], asked)?;
    counts.add("new texts that the original was asked about");
    Ok(())
}
