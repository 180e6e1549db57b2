//! Two edits of one text through the library's calls, each call lent what the one before told and left: in either order where at least
//! one old byte lies between them, and in a row against one edit that covers both. What the last call tells and leaves is held against
//! the model's scan of the last text. Edits that touch are counted by what becomes of them.

use super::{memory_with, same, shown, Compared, Counts, Difference, Memory};
use crate::generate::change::{new_bytes, new_characters};
use crate::generate::characters::valid_with_characters;
use crate::generate::random::Random;
use crate::generate::{damage, random_text, short};
use crate::model::scan::scan;
use crate::terms::LONGEST_TEXT;
use spoonharbor::lent::{self, Words};

/// How many pairs there are to each of a text at the limit.
const LONG: usize = 2_000;

/// Random pairs of edits until so many were apart.
pub fn run(pairs: u64, seed: u64) -> Compared {
    let mut counts = Counts::default();
    let mut random = Random::new(seed);
    let mut holder = Holder::default();
    while counts.get("pairs apart") < pairs {
        let (text, edits) = pair(&mut random, &mut counts);
        holder.hold_pair(&mut random, &text, &edits, &mut counts)?;
        holder.hold_row(&mut random, &text, &edits, &mut counts)?;
        counts.add("pairs");
    }
    counts.add_many("calls", holder.calls);
    Ok(counts)
}

// ---- edits

/// Bytes `from` to `to` of a text become `bytes`.
#[derive(Debug, Clone, PartialEq, Eq)]
struct Edit {
    from: usize,
    to: usize,
    bytes: Vec<u8>,
}

impl Edit {
    fn gone(&self) -> usize {
        self.to - self.from
    }

    /// The text after it.
    fn after(&self, text: &[u8]) -> Vec<u8> {
        [&text[..self.from], &self.bytes[..], &text[self.to..]].concat()
    }

    /// How this edit stands to the other one of the same text, if that lies behind it.
    fn gap(&self, other: &Edit) -> Option<usize> {
        other.from.checked_sub(self.to)
    }

    /// The other edit of the same text after this one: behind this one its places move.
    fn adjusted(&self, other: &Edit) -> Edit {
        let moved = |place: usize| match self.gap(other) {
            Some(_) => place + self.bytes.len() - self.gone(),
            None => place,
        };
        Edit {
            from: moved(other.from),
            to: moved(other.to),
            bytes: other.bytes.clone(),
        }
    }

    /// One edit that covers this one and `next`, which is told in places of the text after this one; and so many bytes more on either
    /// side.
    fn covering(&self, next: &Edit, text: &[u8], more: [usize; 2]) -> Edit {
        let end = self.from + self.bytes.len();
        let from = self.from.min(next.from);
        let to = match next.to <= end {
            true => self.to,
            false => next.to - self.bytes.len() + self.gone(),
        };
        let size = end.max(next.to) - from - next.gone() + next.bytes.len();
        let [before, behind] = more;
        let last = next.after(&self.after(text));
        Edit {
            from: from - before,
            to: to + behind,
            bytes: last[from - before..from + size + behind].to_vec(),
        }
    }

    fn numbers(&self) -> lent::Change {
        let [a, b, n] = [self.from, self.to, self.bytes.len()].map(|number| number as u32);
        lent::Change { a, b, n }
    }
}

/// A text that is UTF-8, and two edits of it.
fn pair(random: &mut Random, counts: &mut Counts) -> (Vec<u8>, [Edit; 2]) {
    let with_characters = random.one_in(2);
    let mut text = old_text(random);
    if with_characters {
        text = valid_with_characters(random, &text);
        counts.add("pairs with characters");
    }
    if random.one_in(LONG) {
        text.resize(LONGEST_TEXT - random.below(8), b' ');
    }
    let edits = [(); 2].map(|()| edit(random, &text, with_characters));
    (text, edits)
}

fn old_text(random: &mut Random) -> Vec<u8> {
    if random.one_in(2) {
        let length = random.below(12);
        return short::random_text(random, length);
    }
    let mut text = random_text(random);
    text.truncate(80);
    if random.one_in(3) {
        damage::damage_bytes(random, &mut text);
    }
    text
}

fn edit(random: &mut Random, text: &[u8], with_characters: bool) -> Edit {
    let inside = (0..text.len()).filter(|&at| text[at] >= 128);
    let inside: Vec<usize> = inside.take(40).collect();
    if !inside.is_empty() && random.one_in(2) {
        let from = random.pick(&inside);
        let bytes = vec![other_byte(random, text[from])];
        let to = from + 1;
        return Edit { from, to, bytes };
    }
    let from = random.below(text.len() + 1);
    let to = from + random.below((text.len() - from).min(4) + 1);
    let bytes = match with_characters {
        true => new_characters(random),
        false => new_bytes(random),
    };
    Edit { from, to, bytes }
}

/// A byte of a character in the place of another: mostly what stands there is still one, as a first byte of as many or a byte that goes on.
fn other_byte(random: &mut Random, byte: u8) -> u8 {
    let (first, count) = match byte {
        0x80..=0xBF => (0x80, 0x40),
        0xC2..=0xDF => (0xC2, 0x1E),
        0xE0..=0xEF => (0xE0, 0x10),
        _ => (0xF0, 0x05),
    };
    first + random.below(count) as u8
}

// ---- what is held of a text, and the calls

/// Rows and a table that the library told of a text.
struct Held {
    text: Vec<u8>,
    rows: Vec<u32>,
    table: Words,
}

/// Which call makes an edit.
#[derive(Debug, Clone, Copy)]
enum By {
    /// The edit, with all of the new text from the restart place on.
    WholeWindow,
    Change,
}

/// Memory for the last calls, and how many calls were made.
#[derive(Default)]
struct Holder {
    memory: Memory,
    calls: u64,
}

impl Holder {
    /// Makes an edit of what is held in this memory.
    fn make(&mut self, held: &Held, edit: &Edit, by: By, new: &[u8], memory: &mut [u32]) -> Words {
        self.calls += 1;
        let numbers = edit.numbers();
        match by {
            By::Change => lent::change(&held.rows, &held.table, numbers, new, memory),
            By::WholeWindow => {
                let start = lent::restart(&held.rows, &held.table, numbers.a)[lent::OFFSET];
                let window = &new[start as usize..];
                lent::edit(&held.rows, &held.table, numbers, start, window, memory)
            }
        }
    }

    /// What is held after an edit; nothing if the text after it has no table.
    fn next(&mut self, random: &mut Random, held: &Held, edit: &Edit) -> Option<Held> {
        let text = edit.after(&held.text);
        let mut rows = vec![0; (text.len() + 1) * 8];
        let by = random.pick(&[By::WholeWindow, By::Change]);
        let table = self.make(held, edit, by, &text, &mut rows);
        rows.truncate(table[lent::COUNT] as usize * 8);
        let is_table = matches!(table[lent::NUMBER], 0 | 11..=17);
        is_table.then_some(Held { text, rows, table })
    }

    /// Holds the last edit of some ways to one text: in room in plenty, exactly full and one short each way tells and leaves what the
    /// model's scan of that text does, and so what the other ways do.
    fn hold_last(
        &mut self,
        random: &mut Random,
        ways: &[(&Held, &Edit)],
        last: &[u8],
        counts: &mut Counts,
    ) -> Result<(), Difference> {
        let count = scan(last, usize::MAX).rows.len();
        for room in [count + 1, count, count.saturating_sub(1)] {
            let expected = scan(last, room);
            let words = room * 8 + 5;
            for (held, edit) in ways {
                let by = random.pick(&[By::WholeWindow, By::Change]);
                let mut memory = std::mem::take(&mut self.memory);
                let left = memory.fresh(words);
                let answer = self.make(held, edit, by, last, left);
                let asked = || format!("{by:?} {edit:?} of {}, {words} words", shown(&held.text));
                same(answer, expected.words(), asked)?;
                same(&left[..], &memory_with(&expected, words)[..], asked)?;
                counts.add(format!("last calls, answered {}", answer[lent::NUMBER]));
                self.memory = memory;
            }
        }
        Ok(())
    }

    /// Holds two edits of one text in either order.
    fn hold_pair(
        &mut self,
        random: &mut Random,
        text: &[u8],
        edits: &[Edit; 2],
        counts: &mut Counts,
    ) -> Result<(), Difference> {
        let [one, other] = edits;
        let old = open(text);
        let first = [one, other].map(|edit| self.next(random, &old, edit));
        let [Some(after_one), Some(after_other)] = first else {
            counts.add("pairs with a text in between that has no table");
            return Ok(());
        };
        let Some(gap) = one.gap(other).or(other.gap(one)) else {
            counts.add("pairs that overlap");
            return Ok(());
        };
        let [then_other, then_one] = [one.adjusted(other), other.adjusted(one)];
        let last = then_other.after(&after_one.text);
        let swapped = then_one.after(&after_other.text);
        if gap == 0 {
            counts.add("pairs that touch");
            if last != swapped {
                counts.add("pairs that touch and end in two texts");
            } else if std::str::from_utf8(&last).is_err() {
                counts.add("pairs that touch and make no UTF-8");
            }
            return Ok(());
        }
        for between in [&after_one, &after_other] {
            counts.add(format!(
                "texts in between, ended {}",
                between.table[lent::NUMBER]
            ));
        }
        let asked = || format!("{one:?} and {other:?} of {}", shown(text));
        same(&last, &swapped, asked)?;
        same(std::str::from_utf8(&last).is_ok(), true, asked)?;
        counts.add("pairs apart");
        let ways = [(&after_one, &then_other), (&after_other, &then_one)];
        self.hold_last(random, &ways, &last, counts)
    }

    /// Holds two edits in a row, the second somewhere in the text after the first, against the covering edit and a wider one.
    fn hold_row(
        &mut self,
        random: &mut Random,
        text: &[u8],
        [one, other]: &[Edit; 2],
        counts: &mut Counts,
    ) -> Result<(), Difference> {
        let old = open(text);
        let Some(between) = self.next(random, &old, one) else {
            counts.add("rows of edits with a text in between that has no table");
            return Ok(());
        };
        let length = between.text.len();
        let next = Edit {
            from: other.from.min(length),
            to: other.to.min(length),
            bytes: other.bytes.clone(),
        };
        let covering = one.covering(&next, text, [0, 0]);
        let more =
            [covering.from, text.len() - covering.to].map(|most| random.below(most.min(20) + 1));
        let wider = one.covering(&next, text, more);
        let last = next.after(&between.text);
        for edit in [&covering, &wider] {
            same(edit.after(text), last.clone(), || {
                format!("{one:?} and then {next:?} of {}, as {edit:?}", shown(text))
            })?;
        }
        counts.add("pairs in a row");
        let ways = [(&between, &next), (&old, &covering), (&old, &wider)];
        self.hold_last(random, &ways, &last, counts)
    }
}

/// What the library's scan tells of a text that is UTF-8 and short enough.
fn open(text: &[u8]) -> Held {
    let mut rows = vec![0; (text.len() + 1) * 8];
    let table = lent::scan(text, &mut rows);
    rows.truncate(table[lent::COUNT] as usize * 8);
    Held {
        text: text.to_vec(),
        rows,
        table,
    }
}
