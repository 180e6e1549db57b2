//! Files with their text at hand: read beside it, moved to either form and mended, by the library against the model; files sound and
//! damaged in every way, beside their own text and beside others.

use super::{same, shown, Compared, Counts, Difference, CANARY};
use crate::files::damage::{change, damaged, Damage};
use crate::generate::characters::with_characters;
use crate::generate::random::Random;
use crate::generate::random_text;
use crate::model::file::{Fault, BLOCK};
use crate::model::forms::{encode, file_length, load_beside, mend, move_file};
use crate::model::row_words;
use crate::model::scan::scan;
use spoonharbor::lent;

/// What stands in lent bytes before a call.
const CANARY_BYTE: u8 = 0xA5;

/// Both forms.
const FORMS: [u32; 2] = [1, 2];

/// One text in so many has no form asked for that there is; one file in so many is held beside another text.
const NO_FORM: usize = 16;
const OTHER_TEXT: usize = 3;

/// So many texts; then texts of about the most rows.
pub fn run(count: u64, seed: u64) -> Compared {
    let mut counts = Counts::default();
    let mut random = Random::new(seed);
    for _ in 0..count {
        let mut text = random_text(&mut random);
        if random.one_in(3) {
            text = with_characters(&mut random, &text);
        }
        hold_text(&mut random, &text, &mut counts)?;
    }
    for length in [65_533, 65_534, 65_535, 65_536] {
        let text = vec![b';'; length];
        for form in FORMS {
            let room = file_length(form, 65_537) as usize;
            hold_mend(
                &text,
                form,
                &vec![0; room],
                0,
                &vec![0; room / BLOCK + 1],
                "limits",
                &mut counts,
            )?;
        }
    }
    Ok(counts)
}

/// A text with its files of both forms, sound and damaged.
fn hold_text(random: &mut Random, text: &[u8], counts: &mut Counts) -> Result<(), Difference> {
    let scanned = scan(text, usize::MAX);
    let rows: Vec<u32> = scanned.rows.iter().flat_map(row_words).collect();
    for form in FORMS {
        let sound = match scanned.is_table() {
            true => encode(form, &scanned.words(), &rows),
            false => vec![CANARY_BYTE; BLOCK * random.below(3)],
        };
        let damage = Damage::ALL[random.below(Damage::ALL.len())];
        let file = match sound.is_empty() || damage == Damage::Sound {
            true => sound,
            false => damaged(random, &sound, damage),
        };
        let what = format!("{damage:?}").to_lowercase();
        hold_beside(random, text, &file, &what, counts)?;
        hold_mends(random, text, &file, &what, counts)?;
    }
    Ok(())
}

/// A text that is mostly the one at hand.
fn beside_text(random: &mut Random, text: &[u8]) -> Vec<u8> {
    let mut other = text.to_vec();
    if random.one_in(OTHER_TEXT) && !text.is_empty() {
        let at = random.below(text.len());
        match random.below(4) {
            0 => other[at] = b'\n',
            1 => other.insert(at, b' '),
            2 => {
                other.remove(at);
            }
            _ => change(random, &mut other, at),
        }
    }
    other
}

/// A file read beside a text and moved to both forms.
fn hold_beside(
    random: &mut Random,
    text: &[u8],
    file: &[u8],
    what: &str,
    counts: &mut Counts,
) -> Result<(), Difference> {
    let text = &beside_text(random, text)[..];
    let rows = load_beside(text, file, usize::MAX).map_or(1, |read| read.table[6] as usize);
    let words = match random.below(3) {
        0 => (8 * rows).saturating_sub(1),
        _ => 8 * rows + random.below(9),
    };
    hold_load(text, file, words, what, counts)?;
    for form in FORMS {
        let length = file_length(form, rows as u64) as usize;
        let room = match random.below(3) {
            0 => length - 1 - random.below(length),
            _ => length + random.below(9),
        };
        let form = match random.one_in(NO_FORM) {
            true => 3 * random.below(2) as u32,
            false => form,
        };
        hold_move(text, file, form, room, what, counts)?;
    }
    Ok(())
}

/// What is asked of a call over a file beside a text.
fn asked(call: &str, text: &[u8], file: &[u8], what: &str) -> String {
    format!(
        "{call}, the file {} ({what}) beside {}",
        shown(file),
        shown(text)
    )
}

/// The eight words of a fault.
fn fault_words(fault: Fault) -> [u32; 8] {
    [fault.number, 0, 1, 1, fault.block, 0, 0, 0]
}

fn hold_load(
    text: &[u8],
    file: &[u8],
    words: usize,
    what: &str,
    counts: &mut Counts,
) -> Result<(), Difference> {
    let mut memory = vec![CANARY; words];
    let answer = lent::load_beside(text, file, &mut memory);
    let (told, mut expected) = match load_beside(text, file, words / 8) {
        Ok(read) => (read.table, read.rows),
        Err(fault) => (fault_words(fault), Vec::new()),
    };
    expected.resize(words, CANARY);
    same((answer, memory), (told, expected), || {
        asked(&format!("load into {words} words"), text, file, what)
    })?;
    let number = match answer[lent::NUMBER] {
        0 | 11..=17 => "a table".to_string(),
        number => number.to_string(),
    };
    counts.add(format!("read beside, {what}, answered {number}"));
    Ok(())
}

fn hold_move(
    text: &[u8],
    file: &[u8],
    form: u32,
    room: usize,
    what: &str,
    counts: &mut Counts,
) -> Result<(), Difference> {
    let mut memory = vec![CANARY_BYTE; room];
    let answer = lent::move_file(text, file, form, &mut memory);
    let (told, mut expected) = match move_file(text, file, form, room) {
        Ok(file) => {
            let length = file.len() as u32;
            ([0, 0, 0, 0, 0, 0, length / BLOCK as u32, length], file)
        }
        Err(fault) => (fault_words(fault), Vec::new()),
    };
    expected.resize(room, CANARY_BYTE);
    same((answer, memory), (told, expected), || {
        asked(&format!("move to {form} in {room} bytes"), text, file, what)
    })?;
    counts.add(format!("moved, {what}, answered {}", answer[lent::NUMBER]));
    Ok(())
}

/// A file mended in a form, with more, just enough and too little room for file and list.
fn hold_mends(
    random: &mut Random,
    text: &[u8],
    file: &[u8],
    what: &str,
    counts: &mut Counts,
) -> Result<(), Difference> {
    let form = match random.one_in(NO_FORM) {
        true => 3 * random.below(2) as u32,
        false => 1 + random.below(2) as u32,
    };
    let rows = scan(text, usize::MAX).rows.len() as u64;
    let needed = file.len().max(file_length(form, rows) as usize);
    let room = match random.below(6) {
        0 => random.below(needed + 1),
        1 | 2 => needed,
        _ => needed + random.below(600),
    };
    let mut memory = file.to_vec();
    memory.resize(room, CANARY_BYTE);
    let most = needed / BLOCK + 2;
    let right = mend(text, form, &memory, file.len(), &vec![CANARY; most]);
    let listed = right.told[6] as usize;
    let list = match random.below(6) {
        0 => listed.saturating_sub(1),
        1 | 2 => listed,
        _ => listed + random.below(9),
    };
    hold_mend(
        text,
        form,
        &memory,
        file.len(),
        &vec![CANARY; list],
        what,
        counts,
    )
}

fn hold_mend(
    text: &[u8],
    form: u32,
    memory: &[u8],
    length: usize,
    list: &[u32],
    what: &str,
    counts: &mut Counts,
) -> Result<(), Difference> {
    let (mut file, mut blocks) = (memory.to_vec(), list.to_vec());
    let told = lent::mend(text, form, &mut file, length, &mut blocks);
    let expected = mend(text, form, memory, length, list);
    same(
        (told, &file, &blocks),
        (expected.told, &expected.file, &expected.list),
        || {
            let call = format!(
                "mend in form {form} the first {length} of {} bytes, list of {}",
                memory.len(),
                list.len()
            );
            asked(&call, text, memory, what)
        },
    )?;
    counts.add(format!("mended, {what}, answered {}", told[lent::NUMBER]));
    if told[lent::NUMBER] == 0 {
        let size = told[lent::LENGTH] as usize;
        let again = lent::mend(text, form, &mut file, size, &mut []);
        same(
            (again, &file),
            ([0, 0, 0, 0, 0, 0, 0, size as u32], &expected.file),
            || asked("mend again", text, &expected.file, what),
        )?;
        counts.add("mended again, nothing listed");
    }
    Ok(())
}
