//! Stored tables: storing and reading by the library against the model, of tables of texts, of tables with words changed, and of files
//! that are sound, damaged in every way, and as long as they get.

use super::tables::change_a_word;
use super::{same, shown, Compared, Counts, Difference, CANARY};
use crate::files::damage::{damaged, make_right, Damage};
use crate::generate::characters::with_characters;
use crate::generate::random::Random;
use crate::generate::random_text;
use crate::model::file::{blocks, load, store, BLOCK};
use crate::model::table::Lent;
use spoonharbor::lent::{self, Words};

/// What stands in a lent file before a call.
const CANARY_BYTE: u8 = 0xA5;

/// One table in so many has words changed; one sound file in so many has each of its bytes changed once, if it is small.
const CHANGED_TABLES: usize = 4;
const CHANGED_ALL_OVER: usize = 400;
const SMALL_FILE: usize = 2 * BLOCK;

/// The most rows that are stored, and the most that a file could number the blocks of.
const MOST_ROWS: u32 = 65_535;
const MOST_NUMBERED: u32 = 15 * 65_535;

/// So many tables; then tables and files at their limits.
pub fn run(count: u64, seed: u64) -> Compared {
    let mut counts = Counts::default();
    let mut random = Random::new(seed);
    for _ in 0..count {
        let mut text = random_text(&mut random);
        if random.one_in(3) {
            text = with_characters(&mut random, &text);
        }
        let mut rows = vec![0; (text.len() + 1) * 8];
        let mut table = lent::scan(&text, &mut rows);
        if random.one_in(CHANGED_TABLES) {
            for _ in 0..=random.below(2) {
                change_a_word(&mut random, &mut rows, &mut table);
            }
        }
        hold_table(&mut random, &rows, &table, &mut counts)?;
    }
    hold_limits(&mut counts)?;
    Ok(counts)
}

/// A table stored, and what comes of its file.
fn hold_table(
    random: &mut Random,
    rows: &[u32],
    table: &Words,
    counts: &mut Counts,
) -> Result<(), Difference> {
    let lent = Lent { rows, table };
    let Ok(file) = store(lent, usize::MAX) else {
        let room = random.below(2 * BLOCK);
        return hold_store(lent, room, counts);
    };
    for room in [file.len(), file.len() + 9, random.below(file.len())] {
        hold_store(lent, room, counts)?;
    }
    let words = 8 * lent.count();
    for room in [words + 9, words.saturating_sub(1)] {
        hold_load(&file, room, "sound", counts)?;
    }
    for damage in Damage::ALL {
        let name = format!("{damage:?}").to_lowercase();
        hold_load(&damaged(random, &file, damage), words, &name, counts)?;
    }
    if file.len() <= SMALL_FILE && random.one_in(CHANGED_ALL_OVER) {
        hold_each_byte(random, &file, words, counts)?;
    }
    Ok(())
}

/// Each byte of a file changed once: 41 with its block.
fn hold_each_byte(
    random: &mut Random,
    file: &[u8],
    words: usize,
    counts: &mut Counts,
) -> Result<(), Difference> {
    let mut changed = file.to_vec();
    for at in 0..file.len() {
        crate::files::damage::change(random, &mut changed, at);
        hold_load(&changed, words, "each byte of a small file", counts)?;
        let told = [41, 0, 1, 1, (at / BLOCK) as u32, 0, 0, 0];
        same(lent::load(&changed, &mut []), told, || {
            format!("byte {at} changed in {}", shown(file))
        })?;
        changed[at] = file[at];
    }
    counts.add("small files with each byte changed once");
    Ok(())
}

/// Nothing if lent memory is as expected, else the first place where it is not.
fn same_memory<T: Copy + PartialEq + std::fmt::Debug>(
    library: &[T],
    expected: &[T],
    asked: impl Fn() -> String,
) -> Result<(), Difference> {
    let other = library.iter().zip(expected).position(|(l, e)| l != e);
    let at = |memory: &[T]| other.map(|at| (at, memory[at]));
    same(at(library), at(expected), asked)
}

/// Storing into so many bytes: the answer, and every byte of the room.
fn hold_store(table: Lent, room: usize, counts: &mut Counts) -> Result<(), Difference> {
    let mut memory = vec![CANARY_BYTE; room];
    let answer = lent::store(table.rows, table.table, &mut memory);
    let (told, mut expected) = match store(table, room) {
        Ok(file) => {
            let length = file.len() as u32;
            ([0, 0, 0, 0, 0, 0, length / BLOCK as u32, length], file)
        }
        Err(number) => ([number, 0, 1, 1, 0, 0, 0, 0], Vec::new()),
    };
    expected.resize(room, CANARY_BYTE);
    let asked = || format!("store {table:?} in {room} bytes, answer and first other byte");
    same(answer, told, asked)?;
    same_memory(&memory, &expected, asked)?;
    counts.add(format!("stores, answered {}", answer[lent::NUMBER]));
    Ok(())
}

/// Reading a file into so many words: the answer, and every word of the room.
fn hold_load(file: &[u8], words: usize, what: &str, counts: &mut Counts) -> Result<(), Difference> {
    let mut memory = vec![CANARY; words];
    let answer = lent::load(file, &mut memory);
    let (told, mut expected) = match load(file, words / 8) {
        Ok(read) => (read.table, read.rows),
        Err(fault) => ([fault.number, 0, 1, 1, fault.block, 0, 0, 0], Vec::new()),
    };
    expected.resize(words, CANARY);
    let asked = || {
        format!(
            "load {} ({what}) into {words} words, answer and first other word",
            shown(file)
        )
    };
    same(answer, told, asked)?;
    same_memory(&memory, &expected, asked)?;
    let number = match answer[lent::NUMBER] {
        0 | 11..=17 => "a table".to_string(),
        number => number.to_string(),
    };
    counts.add(format!("loads, {what}, answered {number}"));
    Ok(())
}

/// Tables of about the most rows, and files that say more than are stored, or more than blocks can be numbered for.
fn hold_limits(counts: &mut Counts) -> Result<(), Difference> {
    for length in MOST_ROWS - 2..=MOST_ROWS + 1 {
        let text = vec![b';'; length as usize];
        let mut rows = vec![0; (text.len() + 1) * 8];
        let table = lent::scan(&text, &mut rows);
        let lent = Lent {
            rows: &rows,
            table: &table,
        };
        let room = BLOCK * blocks(u64::from(MOST_ROWS)) as usize;
        hold_store(lent, room, counts)?;
        if let Ok(file) = store(lent, room) {
            hold_load(&file, rows.len(), "sound", counts)?;
            hold_load(&file, 8 * length as usize, "sound", counts)?;
        }
    }
    for rows in [MOST_ROWS, MOST_ROWS + 1, MOST_NUMBERED, MOST_NUMBERED + 1] {
        hold_load(&zero_rows(rows), 8, "rows that are all zero", counts)?;
    }
    Ok(())
}

/// A file that says so many rows, all of them zero, each block numbered as far as two bytes go.
fn zero_rows(rows: u32) -> Vec<u8> {
    let all = blocks(u64::from(rows)) as usize;
    let mut file = vec![0; all * BLOCK];
    file[4] = 1;
    file[12..16].copy_from_slice(&rows.to_le_bytes());
    for (k, block) in file.chunks_mut(BLOCK).enumerate().skip(1) {
        let count = (rows as usize - 15 * (k - 1)).min(15);
        block[..2].copy_from_slice(&(k as u16).to_le_bytes());
        block[2] = count as u8;
    }
    for k in 0..all {
        make_right(&mut file, k);
    }
    file
}
