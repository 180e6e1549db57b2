//! Stored files with their text at hand: moved from one form to the other, and mended.

use crate::form::{most_rows, Form, BLOCK};
use crate::lent;
use crate::refusal::Refusal;

/// Moves a stored file to a form, beside its text. There and back gives the same bytes, and so does a move to the form that the file has.
/// Refused are a file that is damaged (41, 42), in no form that there is (44) or without a table (43), and a text whose length, lines or
/// columns do not agree with the file's (45). A text of the same length is taken for a file of [`Form::Short`], which has no others.
///
/// # Errors
///
/// 41 to 45.
pub fn move_file(text: &[u8], file: &[u8], form: Form) -> Result<Vec<u8>, Refusal> {
    let mut moved = vec![0; form.file_length(most_rows(file.len()))];
    let answer = lent::move_file(text, file, form.number(), &mut moved);
    match Refusal::from_words(&answer) {
        Some(refusal) => Err(refusal),
        None => {
            moved.truncate(answer[lent::LENGTH] as usize);
            Ok(moved)
        }
    }
}

/// Mends a stored file: it becomes what a reading of the text stores in a form, and the numbers of the blocks that differed from that are
/// given back, from the lowest on: damaged, cut and missing ones, and last the first block of what was too much. Nothing is written over a
/// block that was right, and an empty list says that the file was right as a whole. The file may be any bytes; an empty one is written
/// whole. Refused are a text that is too long (1), not valid UTF-8 (2) or of more than [`crate::MOST_STORED_ROWS`] rows
/// (40); the file is then as it was.
///
/// # Errors
///
/// 1, 2 or 40.
pub fn mend_file(text: &[u8], file: &mut Vec<u8>, form: Form) -> Result<Vec<u32>, Refusal> {
    let length = file.len();
    let most = form.file_length(text.len() + 1);
    file.resize(length.max(most), 0);
    let mut blocks = vec![0; most / BLOCK + 1];
    let answer = lent::mend(text, form.number(), file, length, &mut blocks);
    match Refusal::from_words(&answer) {
        Some(refusal) => {
            file.truncate(length);
            Err(refusal)
        }
        None => {
            file.truncate(answer[lent::LENGTH] as usize);
            blocks.truncate(answer[lent::COUNT] as usize);
            Ok(blocks)
        }
    }
}
