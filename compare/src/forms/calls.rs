//! The calls over a text and a file, and what the model expects of them.

use super::{table_of, Call, Case, Kind, FORMS, MOST_BYTES, MOST_LISTED, MOST_WORDS};
use crate::model::file::{Fault, BLOCK};
use crate::model::forms::{file_length, load_beside, mend, move_file};

/// What stands in lent bytes and words before a call.
const BYTE: u8 = 170;
const WORD: u32 = 0xAAAA_AAAA;

/// Forms that there are not.
const NO_FORMS: [u32; 2] = [0, 3];

/// So many more than enough.
const MORE: usize = 9;

/// A digest of numbers.
pub fn digest(numbers: impl IntoIterator<Item = u32>) -> u32 {
    let onward = |sum: u64, x: u32| (sum * 31 + u64::from(x)) % 4_294_967_291;
    numbers.into_iter().fold(0, onward) as u32
}

fn bytes_digest(bytes: &[u8]) -> u32 {
    digest(bytes.iter().map(|byte| u32::from(*byte)))
}

/// The eight words of a fault.
fn fault_words(fault: Fault) -> [u32; 8] {
    [fault.number, 0, 1, 1, fault.block, 0, 0, 0]
}

impl Case {
    /// With just enough room: a reading, and a move and a mending in both forms.
    pub fn short(text: &[u8], file: &[u8]) -> Case {
        let mut case = Case {
            text: text.to_vec(),
            file: file.to_vec(),
            calls: Vec::new(),
        };
        case.load(8 * case.rows());
        for form in FORMS {
            case.move_to(form, case.length(form));
            case.mend(form, case.room(form), case.listed(form));
        }
        case
    }

    /// The same, with more and with less than enough, and in forms that there are not.
    pub fn long(text: &[u8], file: &[u8]) -> Case {
        let mut case = Case::short(text, file);
        let words = 8 * case.rows();
        case.load(words + MORE);
        case.load(words.saturating_sub(1));
        for form in FORMS {
            let (length, room, listed) = (case.length(form), case.room(form), case.listed(form));
            case.move_to(form, length + MORE);
            case.move_to(form, length - 1);
            case.mend(form, room + MORE, listed + 1);
            case.mend(form, room.saturating_sub(1), listed);
            case.mend(form, room, listed.saturating_sub(1));
        }
        for form in NO_FORMS {
            case.move_to(form, case.length(form));
            case.mend(form, case.room(form), MOST_LISTED);
        }
        case
    }

    /// How many rows are read beside the text; where none are, how many the text has, as far as there is room.
    fn rows(&self) -> usize {
        let read = load_beside(&self.text, &self.file, usize::MAX).ok();
        let scanned = || table_of(&self.text).map_or(0, |(_, table)| table[6]);
        let rows = read.map_or_else(scanned, |read| read.table[6]);
        (rows as usize).min(MOST_WORDS / 8)
    }

    /// How long the file of these rows is.
    fn length(&self, form: u32) -> usize {
        file_length(form, self.rows() as u64) as usize
    }

    /// How many bytes a mending needs, as far as there is room.
    fn room(&self, form: u32) -> usize {
        let rows = table_of(&self.text).map_or(0, |(_, table)| table[6]);
        let needed = self.file.len().max(file_length(form, rows.into()) as usize);
        needed.min(MOST_BYTES)
    }

    /// How many blocks a mending lists.
    fn listed(&self, form: u32) -> usize {
        let memory = self.memory(self.room(form));
        let mended = mend(
            &self.text,
            form,
            &memory,
            self.file.len(),
            &[WORD; MOST_LISTED],
        );
        mended.told[6] as usize
    }

    /// So many bytes of memory, the file at their front.
    fn memory(&self, room: usize) -> Vec<u8> {
        let mut memory = self.file.clone();
        memory.resize(room, BYTE);
        memory
    }

    fn load(&mut self, words: usize) {
        let (told, mut memory) = match load_beside(&self.text, &self.file, words / 8) {
            Ok(read) => (read.table, read.rows),
            Err(fault) => (fault_words(fault), Vec::new()),
        };
        memory.resize(words, WORD);
        self.calls.push(Call {
            kind: Kind::Load,
            form: 0,
            room: words,
            list: 0,
            told,
            left: [digest(memory), 0],
        });
    }

    fn move_to(&mut self, form: u32, room: usize) {
        let (told, mut memory) = match move_file(&self.text, &self.file, form, room) {
            Ok(file) => {
                let length = file.len();
                let blocks = (length / BLOCK) as u32;
                ([0, 0, 0, 0, 0, 0, blocks, length as u32], file)
            }
            Err(fault) => (fault_words(fault), Vec::new()),
        };
        memory.resize(room, BYTE);
        self.calls.push(Call {
            kind: Kind::Move,
            form,
            room,
            list: 0,
            told,
            left: [bytes_digest(&memory), 0],
        });
    }

    fn mend(&mut self, form: u32, room: usize, list: usize) {
        let memory = self.memory(room);
        let mended = mend(
            &self.text,
            form,
            &memory,
            self.file.len(),
            &vec![WORD; list],
        );
        self.calls.push(Call {
            kind: Kind::Mend,
            form,
            room,
            list,
            told: mended.told,
            left: [bytes_digest(&mended.file), digest(mended.list)],
        });
    }
}
