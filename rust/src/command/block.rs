//! The blocks of a stored table, each judged by itself: what sections 13 and 14 of `docs/LANGUAGE.md` say of one block.

use spoonharbor::Form;

/// The bytes of a block.
pub const BLOCK: usize = 512;

/// The bytes of the longest file, which has 65,535 rows.
pub const LONGEST_FILE: usize = 2_237_440;

/// The bytes of a block that its check is made of.
const CHECKED: usize = 508;

/// Whether one block of a file, wherever it stands, is right.
pub fn has_right_block(file: &[u8]) -> bool {
    let mut blocks = (0..).zip(file.chunks_exact(BLOCK));
    blocks.any(|(number, block)| is_right(number, block))
}

/// How long the text is that a file's first block tells of, if that block is right.
pub fn told_length(file: &[u8]) -> Option<usize> {
    let first = file.get(..BLOCK)?;
    is_right(0, first).then(|| word(first, 8) as usize)
}

/// Whether a file's first block says form 2.
pub fn says_short(file: &[u8]) -> bool {
    file.len() >= 8 && word(file, 4) == Form::Short.number()
}

/// Whether 512 bytes are a block with this number: number, row count, filler and check are right, in one of the forms.
fn is_right(number: usize, block: &[u8]) -> bool {
    let check = (1..).zip(&block[..CHECKED]);
    let check: u32 = check.map(|(place, &byte)| place * u32::from(byte)).sum();
    let is_filler = |from| block[from..CHECKED].iter().all(|&byte| byte == 0);
    let mut forms = Form::ALL.into_iter();
    half_word(block, 0) == number
        && word(block, CHECKED) == check
        && forms.any(|form| content_end(form, number, block).is_some_and(is_filler))
}

/// Where a block's filler begins, if its row count can be right; block 0 must say the form too, so that a block of
/// zeros is none.
fn content_end(form: Form, number: usize, block: &[u8]) -> Option<usize> {
    let (head, most_rows, row) = match form {
        Form::Full => (32, 15, 32),
        Form::Short => (24, 21, 24),
    };
    let rows = half_word(block, 2);
    match number {
        0 => (rows == 0 && word(block, 4) == form.number()).then_some(head),
        _ => (1..=most_rows).contains(&rows).then_some(4 + rows * row),
    }
}

fn half_word(bytes: &[u8], at: usize) -> usize {
    usize::from(u16::from_le_bytes([bytes[at], bytes[at + 1]]))
}

fn word(bytes: &[u8], at: usize) -> u32 {
    u32::from_le_bytes([bytes[at], bytes[at + 1], bytes[at + 2], bytes[at + 3]])
}

#[cfg(test)]
mod tests {
    use super::*;
    use spoonharbor::{move_file, Document};

    /// The files of a text in both forms.
    fn files(text: &str) -> [Vec<u8>; 2] {
        let full = Document::open(text).unwrap().table().store().unwrap();
        Form::ALL.map(|form| move_file(text.as_bytes(), &full, form).unwrap())
    }

    /// Each block of a file by itself, and none where it does not stand.
    #[test]
    fn blocks_of_files_are_right() {
        for text in ["", "@", "a b", &";".repeat(43), &"x+=-1;\n".repeat(400)] {
            for file in files(text) {
                let blocks: Vec<&[u8]> = file.chunks(BLOCK).collect();
                for (number, block) in blocks.iter().enumerate() {
                    assert!(is_right(number, block), "{text} {number}");
                    assert!(!is_right(number + 1, block));
                }
                assert_eq!(told_length(&file), Some(text.len()));
            }
        }
    }

    /// A byte of a block changed, and no block is right any more.
    #[test]
    fn a_changed_byte_is_seen() {
        for file in files(";;") {
            for at in 0..file.len() {
                let mut changed = file.clone();
                changed[at] ^= 0x20;
                let from = at / BLOCK * BLOCK;
                assert!(!is_right(at / BLOCK, &changed[from..from + BLOCK]), "{at}");
                assert!(has_right_block(&changed));
            }
        }
    }

    #[test]
    fn other_bytes_are_no_blocks() {
        assert!(!has_right_block(b""));
        assert!(!has_right_block(&[0; 4 * BLOCK]));
        assert!(!has_right_block(&b"unit u{}\n".repeat(1000)));
        for file in files(";;") {
            assert!(!has_right_block(&file[..BLOCK - 1]));
            assert!(!has_right_block(&file[1..]));
            assert!(has_right_block(&file[..BLOCK]));
            assert!(!says_short(&file[..7]));
        }
    }
}
