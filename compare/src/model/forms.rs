//! Files of both forms with their text at hand, LANGUAGE.md 14, written down a second time: read beside the text, moved and mended.

use super::file::{load, seal, Fault, Read, BLOCK};
use super::scan::scan;
use super::table::Lent;
use super::{row_words, START};
use crate::terms::Place;

/// The forms, their rows' words, how many rows a block has, and which words of a row stand there.
const FULL: u32 = 1;
const SHORT: u32 = 2;
const SHORT_WORDS: [usize; 6] = [0, 1, 2, 5, 6, 7];
const MOST_ROWS: u64 = 65_535;

/// How many rows a block of a form has.
pub fn block_rows(form: u32) -> u64 {
    match form {
        SHORT => 21,
        _ => 15,
    }
}

/// How long the file of so many rows is.
pub fn file_length(form: u32, rows: u64) -> u64 {
    512 * (1 + rows.div_ceil(block_rows(form)))
}

/// Where an offset lies in a text: the newlines before it, and the bytes since the last of them.
fn place_in(text: &[u8], offset: u32) -> Place {
    let before = &text[..(offset as usize).min(text.len())];
    let lines = before.split(|byte| *byte == b'\n');
    let (line, last) = lines.enumerate().last().expect("a text has a line");
    Place {
        offset,
        line: 1 + line as u32,
        column: 1 + last.len() as u32,
    }
}

/// The file of a table in a form; the rows are eight words each.
pub fn encode(form: u32, table: &[u32; 8], rows: &[u32]) -> Vec<u8> {
    let [number, offset, line, column, _, _, count, length] = *table;
    let ending = match number {
        0 => [0; 4],
        _ => [number, offset, line, column],
    };
    let mut said = vec![form, length, count];
    said.extend(&ending[..if form == SHORT { 2 } else { 4 }]);
    let mut file = block(0, 0, &said);
    let rows: Vec<&[u32]> = rows.chunks_exact(8).collect();
    for (part, k) in rows.chunks(block_rows(form) as usize).zip(1..) {
        let words = part.iter().flat_map(|row| match form {
            SHORT => SHORT_WORDS.map(|word| row[word]).to_vec(),
            _ => row.to_vec(),
        });
        file.extend(block(k, part.len(), &words.collect::<Vec<u32>>()));
    }
    file
}

fn block(k: usize, rows: usize, words: &[u32]) -> Vec<u8> {
    let mut bytes = vec![k as u8, (k >> 8) as u8, rows as u8, (rows >> 8) as u8];
    bytes.extend(words.iter().flat_map(|word| word.to_le_bytes()));
    bytes.resize(BLOCK - 4, 0);
    seal(&mut bytes);
    bytes
}

fn word(file: &[u8], at: usize) -> u32 {
    let word = &file[at..at + 4];
    word.iter()
        .rev()
        .fold(0, |sum, byte| sum << 8 | *byte as u32)
}

/// What a file of form 2 holds beside a text, whose lines and columns its rows get.
fn read_short(file: &[u8], text: &[u8]) -> Result<Read, Fault> {
    let fault = |number, block| Err(Fault { number, block });
    let [form, length, count, number, offset] = [4, 8, 12, 16, 20].map(|at| word(file, at));
    if file[..BLOCK] != block(0, 0, &[form, length, count, number, offset])[..] {
        return fault(41, 0);
    }
    if file.len() as u64 != file_length(SHORT, count.into()) {
        return fault(42, 0);
    }
    let mut rows = Vec::new();
    for (bytes, k) in file.chunks(BLOCK).zip(0_usize..).skip(1) {
        let here = (count as usize - rows.len() / 8).min(21);
        let words: Vec<u32> = (0..6 * here)
            .map(|word_at| word(bytes, 4 + 4 * word_at))
            .collect();
        if k > 65_535 || bytes != block(k, here, &words) {
            return fault(41, k as u32);
        }
        for row in words.chunks_exact(6) {
            let place = place_in(text, row[1]);
            rows.extend([
                row[0],
                row[1],
                row[2],
                place.line,
                place.column,
                row[3],
                row[4],
                row[5],
            ]);
        }
    }
    let table = match number {
        0 => [0, 0, 0, 0, 0, 0, count, length],
        _ => {
            let Place { line, column, .. } = place_in(text, offset);
            [number, offset, line, column, 0, 0, count, length]
        }
    };
    let bare = number == 0 && offset != 0;
    let lent = Lent {
        rows: &rows,
        table: &table,
    };
    if u64::from(count) > MOST_ROWS || bare || !lent.is_well_formed() {
        return fault(43, 0);
    }
    Ok(Read { table, rows })
}

/// What a file of either form holds, judged without its text: a table of form 2 is judged as if the text had one line.
fn judged(file: &[u8]) -> Result<Read, Fault> {
    let says_short = file.len() >= BLOCK && word(file, 4) == SHORT;
    match says_short {
        true => read_short(file, &vec![b' '; 65_536]),
        false => load(file, usize::MAX),
    }
}

/// What is read beside a text into room for so many rows.
pub fn load_beside(text: &[u8], file: &[u8], room: usize) -> Result<Read, Fault> {
    beside(text, file, |read| read.table[6] as usize <= room)
}

/// What is read beside a text, if there is room for it.
fn beside(text: &[u8], file: &[u8], fits: impl Fn(&Read) -> bool) -> Result<Read, Fault> {
    let fault = |number| Err(Fault { number, block: 0 });
    let read = judged(file)?;
    if !fits(&read) {
        return fault(4);
    }
    if read.table[7] as usize != text.len() {
        return fault(45);
    }
    if word(file, 4) == SHORT {
        return read_short(file, text);
    }
    let agrees = |words: &[u32]| {
        let place = place_in(text, words[0]);
        words[1..] == [place.line, place.column]
    };
    let rows_agree = read
        .rows
        .chunks_exact(8)
        .all(|row| agrees(&[row[1], row[3], row[4]]));
    match rows_agree && (read.table[0] == 0 || agrees(&read.table[1..4])) {
        true => Ok(read),
        false => fault(45),
    }
}

/// A file moved to a form, into room for so many bytes.
pub fn move_file(text: &[u8], file: &[u8], form: u32, room: usize) -> Result<Vec<u8>, Fault> {
    if form != FULL && form != SHORT {
        return Err(Fault {
            number: 44,
            block: 0,
        });
    }
    let fits = |read: &Read| file_length(form, read.table[6].into()) <= room as u64;
    let read = beside(text, file, fits)?;
    Ok(encode(form, &read.table, &read.rows))
}

/// What a mending tells, and what it leaves in the lent file and list.
#[derive(Debug, Clone, PartialEq, Eq)]
pub struct Mended {
    pub told: [u32; 8],
    pub file: Vec<u8>,
    pub list: Vec<u32>,
}

/// The first `length` bytes of `file` mended, in the order of refusals 44, 1, 2, 40, 4.
pub fn mend(text: &[u8], form: u32, file: &[u8], length: usize, list: &[u32]) -> Mended {
    let refused = |number, place: Place| Mended {
        told: [number, place.offset, place.line, place.column, 0, 0, 0, 0],
        file: file.to_vec(),
        list: list.to_vec(),
    };
    if form != FULL && form != SHORT {
        return refused(44, START);
    }
    let scanned = scan(text, usize::MAX);
    if !scanned.is_table() {
        let refusal = scanned.refusal.expect("it is no table");
        return refused(refusal.number, refusal.place);
    }
    if scanned.rows.len() as u64 > MOST_ROWS {
        return refused(40, START);
    }
    let rows: Vec<u32> = scanned.rows.iter().flat_map(row_words).collect();
    let fresh = encode(form, &scanned.words(), &rows);
    if file.len() < fresh.len() || file.len() < length {
        return refused(4, START);
    }
    let there = &file[..length];
    let mut listed = Vec::new();
    for (right, k) in fresh.chunks(BLOCK).zip(0..) {
        let from = BLOCK * k;
        if there.get(from..from + BLOCK) != Some(right) {
            listed.push(k as u32);
        }
    }
    if length > fresh.len() {
        listed.push((fresh.len() / BLOCK) as u32);
    }
    if list.len() < listed.len() {
        return refused(4, START);
    }
    let told = [0, 0, 0, 0, 0, 0, listed.len() as u32, fresh.len() as u32];
    let file = [&fresh[..], &file[fresh.len()..]].concat();
    let list = [&listed[..], &list[listed.len()..]].concat();
    Mended { told, file, list }
}
