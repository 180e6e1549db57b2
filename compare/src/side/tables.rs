//! Tables from outside: the table test, spelling, restart, parse, edit and change of tables with words changed, against the model.

use super::{memory_with, same, shown, Compared, Counts, Difference, Memory, CANARY};
use crate::generate::characters::{put_over, with_characters};
use crate::generate::random::Random;
use crate::generate::{random_text, short};
use crate::method_sets::{kind_of_section, mask_of, PROGRAM_KINDS};
use crate::model::edit::{change as changed, edit, restart, Change};
use crate::model::parse::parse;
use crate::model::refusal_words;
use crate::model::table::Lent;
use spoonharbor::lent::{self, Words};

/// So many tables, most of them with words changed; then the method sets and section texts.
pub fn run(count: u64, seed: u64) -> Compared {
    let mut counts = Counts::default();
    let mut memory = Memory::default();
    let mut random = Random::new(seed);
    for _ in 0..count {
        let mut text = random_text(&mut random);
        if random.one_in(3) {
            text = with_characters(&mut random, &text);
        }
        let mut rows = vec![0; (text.len() + 1) * 8];
        let mut table = lent::scan(&text, &mut rows);
        if random.one_in(2) {
            rows.truncate(table[lent::COUNT] as usize * 8);
        }
        for _ in 0..random.below(4) {
            change_a_word(&mut random, &mut rows, &mut table);
        }
        if random.one_in(8) {
            spoil(&mut random, &mut text);
            counts.add("texts with a bad byte, or too long");
        }
        hold(&mut random, &text, &rows, &table, &mut memory, &mut counts)?;
    }
    hold_sets(&mut counts)?;
    hold_sections(&mut random, count, &mut counts)?;
    Ok(counts)
}

/// Puts a byte of 128 or more into a text, or makes it too long, or both.
fn spoil(random: &mut Random, text: &mut Vec<u8>) {
    if random.one_in(8) {
        text.resize(65_537, b' ');
    }
    if text.len() <= 65_536 || random.one_in(2) {
        let at = random.below(text.len() + 1);
        text.insert(at, 128 + random.below(128) as u8);
    }
}

/// Changes a word of the rows or of the table, mostly by little.
pub(super) fn change_a_word(random: &mut Random, rows: &mut [u32], table: &mut Words) {
    let count = (table[lent::COUNT] as usize * 8).min(rows.len());
    let word = if count > 0 && !random.one_in(4) {
        &mut rows[random.below(count)]
    } else {
        &mut table[random.below(8)]
    };
    *word = match random.below(10) {
        0 => u32::MAX,
        1 => 0,
        2 => random.below(60) as u32,
        3 => 0x8000_0000,
        4..=6 => word.wrapping_add(1),
        _ => word.wrapping_sub(1),
    };
}

fn hold(
    random: &mut Random,
    text: &[u8],
    rows: &[u32],
    table: &Words,
    memory: &mut Memory,
    counts: &mut Counts,
) -> Result<(), Difference> {
    let lent_table = Lent { rows, table };
    let asked = || format!("table {table:?} with rows {rows:?} of {}", shown(text));
    let is_well_formed = lent_table.is_well_formed();
    same(lent::well_formed(rows, table), is_well_formed, asked)?;
    counts.add(if is_well_formed {
        "well formed"
    } else {
        "not well formed"
    });

    let row = random.below(rows.len() / 8 + 2) as u32;
    let expected = match lent_table.spelling(text, row) {
        Ok((start, end)) => [0, 0, 0, 0, start, end, 0, 0],
        Err(refusal) => refusal_words(Some(refusal)),
    };
    same(lent::spelling(text, rows, table, row), expected, asked)?;

    let a = random.below(text.len() + 2) as u32;
    let expected = match restart(lent_table, a) {
        Ok(place) => [0, place.offset, place.line, place.column, 0, 0, 0, 0],
        Err(refusal) => refusal_words(Some(refusal)),
    };
    same(lent::restart(rows, table, a), expected, asked)?;

    let words = rows.len();
    let nodes = memory.fresh(words);
    let answer = lent::parse(text, rows, table, nodes);
    let (expected, mut written) = match parse(text, lent_table, words / 8) {
        Ok(nodes) => ([0, 0, 0, 0, 0, 0, nodes.len() as u32, 0], nodes.concat()),
        Err(refusal) => (refusal_words(Some(refusal)), Vec::new()),
    };
    written.resize(words, CANARY);
    same(answer, expected, asked)?;
    same(&*nodes, &written[..], asked)?;

    hold_edit(random, lent_table, a, memory, counts)?;
    hold_change(random, lent_table, a, memory, counts)
}

/// An edit of a table that no text need have.
fn hold_edit(
    random: &mut Random,
    old: Lent,
    a: u32,
    memory: &mut Memory,
    counts: &mut Counts,
) -> Result<(), Difference> {
    let start = restart(old, a).map_or(0, |place| place.offset);
    let change = Change {
        a,
        b: a + random.below(4) as u32,
        n: random.below(4) as u32,
    };
    let rest = (old.length() as usize)
        .saturating_sub(start as usize)
        .min(400);
    let length = random.below(rest + 4);
    let mut window = short::random_text(random, length);
    if random.one_in(3) {
        put_over(random, &mut window);
    }
    let words = old.rows.len();
    let expected = edit(old, change, start, &window, words / 8);
    let new = memory.fresh(words);
    let numbers = lent::Change {
        a: change.a,
        b: change.b,
        n: change.n,
    };
    let answer = lent::edit(old.rows, old.table, numbers, start, &window, new);
    let asked = || format!("{change:?} from {start} with {} on {old:?}", shown(&window));
    same(answer, expected.words(), asked)?;
    same(&*new, &memory_with(&expected, words)[..], asked)?;
    counts.add(format!(
        "edit of any table, answered {}",
        answer[lent::NUMBER]
    ));
    Ok(())
}

/// A change of a table that no text need have, to a text that mostly is as long as the change makes it.
fn hold_change(
    random: &mut Random,
    old: Lent,
    a: u32,
    memory: &mut Memory,
    counts: &mut Counts,
) -> Result<(), Difference> {
    let change = Change {
        a,
        b: a + random.below(4) as u32,
        n: random.below(4) as u32,
    };
    let grown = u64::from(old.length()) + u64::from(change.n) + u64::from(a);
    let makes = grown.saturating_sub(u64::from(change.b));
    let length = makes.min(70_000) as usize + usize::from(random.one_in(8));
    let mut text = short::random_text(random, length);
    if random.one_in(3) {
        put_over(random, &mut text);
    }
    let words = old.rows.len();
    let expected = changed(old, change, &text, words / 8);
    let new = memory.fresh(words);
    let numbers = lent::Change {
        a: change.a,
        b: change.b,
        n: change.n,
    };
    let answer = lent::change(old.rows, old.table, numbers, &text, new);
    let asked = || format!("{change:?} into {} on {old:?}", shown(&text));
    same(answer, expected.words(), asked)?;
    same(&*new, &memory_with(&expected, words)[..], asked)?;
    counts.add(format!(
        "change of any table, answered {}",
        answer[lent::NUMBER]
    ));
    Ok(())
}

/// The method sets against the original's, and numbers outside.
fn hold_sets(counts: &mut Counts) -> Result<(), Difference> {
    let outside = [3, 0, 1, 1, 0, 0, 0, 0];
    let number = |number: u32| [0, 0, 0, 0, number, 0, 0, 0];
    for kind in (0..14).chain([u32::MAX]) {
        let mask = PROGRAM_KINDS.get(kind as usize).map(|kind| mask_of(*kind));
        let expected = mask.map_or(outside, |mask| number(mask.count_ones()));
        same(lent::set_size(kind), expected, || {
            format!("size of set {kind}")
        })?;
        for method in (0..19).chain([u32::MAX]) {
            let expected = match mask {
                Some(mask) if method <= 15 => number(u32::from(mask >> method & 1)),
                _ => outside,
            };
            let asked = || format!("method {method} of set {kind}");
            same(lent::allows(kind, method), expected, asked)?;
            counts.add("set members");
        }
    }
    Ok(())
}

/// Section texts, whole and damaged, against the original's kinds.
fn hold_sections(random: &mut Random, count: u64, counts: &mut Counts) -> Result<(), Difference> {
    const BEGINNINGS: [&str; 12] = [
        "xdp",
        "tc",
        "classifier",
        "sk_",
        "cgroup/",
        "kprobe/",
        "kretprobe/",
        "tracepoint/",
        "raw_tracepoint/",
        "fentry/",
        "fexit/",
        "lsm/",
    ];
    for _ in 0..count {
        let mut section = random.pick(&BEGINNINGS).as_bytes().to_vec();
        if random.one_in(2) {
            section.extend(short::random_text(random, 3));
        }
        if random.one_in(2) {
            crate::generate::damage::damage_bytes(random, &mut section);
        }
        let text = std::str::from_utf8(&section).expect("sections here are ASCII");
        let asked = || format!("kind of section {}", shown(&section));
        same(lent::section_kind(&section), kind_of_section(text), asked)?;
        counts.add("section texts");
    }
    Ok(())
}
