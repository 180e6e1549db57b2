//! Stored tables, LANGUAGE.md 13, written down a second time.

use super::table::Lent;

pub const BLOCK: usize = 512;
const CHECKED: usize = 508;
const ROWS: usize = 15;
const MOST_ROWS: usize = 65_535;

/// Why a file is not read: a number, and the block of 41.
#[derive(Debug, Clone, Copy, PartialEq, Eq)]
pub struct Fault {
    pub number: u32,
    pub block: u32,
}

/// What a file holds: the words beside a table, and its rows' words.
#[derive(Debug, Clone, PartialEq, Eq)]
pub struct Read {
    pub table: [u32; 8],
    pub rows: Vec<u32>,
}

/// How many blocks the file of so many rows has.
pub fn blocks(rows: u64) -> u64 {
    1 + rows.div_ceil(ROWS as u64)
}

/// The file of a table, or the number of its refusal.
pub fn store(lent: Lent, room: usize) -> Result<Vec<u8>, u32> {
    if !lent.is_well_formed() {
        return Err(3);
    }
    if lent.count() > MOST_ROWS {
        return Err(40);
    }
    let ending = match *lent.table {
        [0, ..] => [0; 4],
        [number, offset, line, column, ..] => [number, offset, line, column],
    };
    let said = [1, lent.length(), lent.count() as u32];
    let mut file = block(0, 0, &[&said[..], &ending].concat());
    let words = &lent.rows[..8 * lent.count()];
    for (rows, k) in words.chunks(8 * ROWS).zip(1..) {
        file.extend(block(k, rows.len() / 8, rows));
    }
    if file.len() > room {
        return Err(4);
    }
    Ok(file)
}

/// Block k of n rows.
fn block(k: usize, n: usize, content: &[u32]) -> Vec<u8> {
    let mut bytes = Vec::new();
    bytes.extend((k as u16).to_le_bytes());
    bytes.extend((n as u16).to_le_bytes());
    content
        .iter()
        .for_each(|word| bytes.extend(word.to_le_bytes()));
    bytes.resize(CHECKED, 0);
    seal(&mut bytes);
    bytes
}

/// The check behind the first 508 bytes, made anew.
pub fn seal(block: &mut Vec<u8>) {
    block.truncate(CHECKED);
    let check: u32 = (1..)
        .zip(&*block)
        .map(|(place, byte)| place * *byte as u32)
        .sum();
    block.extend(check.to_le_bytes());
}

/// Whether a block is the one that its own content makes.
fn is_sound(bytes: &[u8], k: u64, n: usize, words: usize) -> bool {
    k <= 65_535 && block(k as usize, n, &words_of(&bytes[4..4 + 4 * words])) == bytes
}

fn words_of(bytes: &[u8]) -> Vec<u32> {
    bytes
        .chunks_exact(4)
        .map(|word| u32::from_le_bytes([word[0], word[1], word[2], word[3]]))
        .collect()
}

/// What a file holds, into room for so many rows.
pub fn load(file: &[u8], room: usize) -> Result<Read, Fault> {
    let fault = |number| Err(Fault { number, block: 0 });
    if file.len() < BLOCK {
        return fault(42);
    }
    if !is_sound(&file[..BLOCK], 0, 0, 7) {
        return fault(41);
    }
    let said = words_of(&file[4..32]);
    let [form, length, count, number, offset, line, column] = said[..] else {
        unreachable!()
    };
    if form != 1 {
        return fault(44);
    }
    if file.len() as u64 != BLOCK as u64 * blocks(count as u64) {
        return fault(42);
    }
    let mut rows = Vec::new();
    for (bytes, k) in file[BLOCK..].chunks(BLOCK).zip(1..) {
        let n = ROWS.min(count as usize - rows.len() / 8);
        if !is_sound(bytes, k, n, 8 * n) {
            return Err(Fault {
                number: 41,
                block: k as u32,
            });
        }
        rows.extend(words_of(&bytes[4..4 + 32 * n]));
    }
    let table = [number, offset, line, column, 0, 0, count, length];
    let bare = number == 0 && (offset, line, column) != (0, 0, 0);
    let lent = Lent {
        rows: &rows,
        table: &table,
    };
    if count as usize > MOST_ROWS || bare || !lent.is_well_formed() {
        return fault(43);
    }
    if room < count as usize {
        return fault(4);
    }
    Ok(Read { table, rows })
}
