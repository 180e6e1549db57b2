//! The stored tables of the sample: worked ones, tables of made texts, and tables that are not well formed; each with its calls.

use super::damage::{damaged, Damage};
use super::{Case, Load, Store, MOST_BYTES, MOST_ROWS};
use crate::generate::characters::valid_with_characters;
use crate::generate::random::Random;
use crate::generate::random_text;
use crate::model::file::{load, store, BLOCK};
use crate::model::row_words;
use crate::model::scan::scan;
use crate::model::table::Lent;

/// Texts whose files are small and of every shape: no row, one, two; 15 and 16, 30 and 31, 44 and 45 rows; every ending.
pub const WORKED: [&str; 10] = [
    "@",
    "",
    "a",
    "a<",
    "/*",
    "a \"",
    "\"\\",
    "0x",
    "9999999999999999999",
    "unit u{\n x+=-1;\n}\n",
];
const WORKED_ROWS: [usize; 6] = [15, 16, 30, 31, 44, 45];

/// How many texts of the worked ones have each byte of their file changed once.
const CHANGED_ALL_OVER: usize = 2;

/// How many tables of made texts there are, and how many that are not well formed.
const MADE: usize = 160;
const NOT_WELL_FORMED: usize = 40;

/// How often each damage is done to a file.
const TIMES: usize = 2;

/// The sample, always the same.
pub fn stored() -> Vec<Case> {
    let mut random = Random::new(1);
    let mut cases = worked(&mut random);
    let all = cases.len() + MADE;
    while cases.len() < all {
        let text = random_text(&mut random);
        let text = match random.one_in(4) {
            true => valid_with_characters(&mut random, &text),
            false => text,
        };
        let (rows, table) = table_of(&text);
        if table[6] as usize <= MOST_ROWS {
            cases.push(case(&mut random, rows, table));
        }
    }
    for _ in 0..NOT_WELL_FORMED {
        cases.push(not_well_formed(&mut random));
    }
    cases
}

fn worked(random: &mut Random) -> Vec<Case> {
    let texts = WORKED.map(str::to_string).into_iter();
    let lists = WORKED_ROWS.map(|rows| ";".repeat(rows - 1));
    let mut cases: Vec<Case> = texts
        .chain(lists)
        .map(|text| {
            let (rows, table) = table_of(text.as_bytes());
            case(random, rows, table)
        })
        .collect();
    for case in &mut cases[..CHANGED_ALL_OVER] {
        for at in 0..case.file.len() {
            let mut file = case.file.clone();
            file[at] = file[at].wrapping_add(1 + random.below(255) as u8);
            case.push(Damage::Byte, file, case.rows.len());
        }
    }
    cases
}

/// The rows' words of a text, and the words beside them.
fn table_of(text: &[u8]) -> (Vec<u32>, [u32; 8]) {
    let told = scan(text, text.len() + 1);
    (told.rows.iter().flat_map(row_words).collect(), told.words())
}

/// A table with its file and its calls: just enough room, more and less, and each damage some times.
fn case(random: &mut Random, rows: Vec<u32>, table: [u32; 8]) -> Case {
    let mut case = Case::new(rows, table);
    let words = case.rows.len();
    let length = case.file.len();
    for room in [length, length + 9, length - 1, length - BLOCK] {
        case.store(room);
    }
    for room in [words, words + 9, words.saturating_sub(1)] {
        case.push(Damage::Sound, case.file.clone(), room);
    }
    for damage in [&Damage::ALL[1..]; TIMES].concat() {
        let file = damaged(random, &case.file, damage);
        case.push(damage, file, words);
    }
    case
}

/// A table of which one word is another, so that it is not well formed.
fn not_well_formed(random: &mut Random) -> Case {
    loop {
        let (mut rows, mut table) = table_of(&random_text(random));
        let at = random.below(rows.len() + 8);
        let word = match at.checked_sub(rows.len()) {
            None => &mut rows[at],
            Some(at) => &mut table[at],
        };
        *word = word.wrapping_add(1 + random.below(60) as u32);
        let mut case = Case::new(rows, table);
        if case.file.is_empty() && case.rows.len() <= 8 * MOST_ROWS {
            case.store(MOST_BYTES);
            return case;
        }
    }
}

impl Case {
    /// No call yet.
    fn new(rows: Vec<u32>, table: [u32; 8]) -> Case {
        let lent = Lent {
            rows: &rows,
            table: &table,
        };
        Case {
            file: store(lent, MOST_BYTES).unwrap_or_default(),
            table,
            rows,
            stores: Vec::new(),
            loads: Vec::new(),
        }
    }

    /// One more storing.
    fn store(&mut self, room: usize) {
        let lent = Lent {
            rows: &self.rows,
            table: &self.table,
        };
        let told = match store(lent, room) {
            Ok(file) => [
                0,
                0,
                0,
                0,
                0,
                0,
                (file.len() / BLOCK) as u32,
                file.len() as u32,
            ],
            Err(number) => [number, 0, 1, 1, 0, 0, 0, 0],
        };
        self.stores.push(Store { room, told });
    }

    /// One more reading, unless it gives another table: that is a case of its own.
    fn push(&mut self, damage: Damage, file: Vec<u8>, words: usize) {
        let told = match load(&file, words / 8) {
            Ok(read) if (&read.table, &read.rows) != (&self.table, &self.rows) => return,
            Ok(read) => read.table,
            Err(fault) => [fault.number, 0, 1, 1, fault.block, 0, 0, 0],
        };
        self.loads.push(Load {
            damage,
            file,
            words,
            told,
        });
    }
}
