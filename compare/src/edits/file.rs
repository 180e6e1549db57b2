//! The stored edits written down: numbers behind letters, and texts as they are behind their length.

use super::expected::Asked;
use super::{Call, Edits};
use crate::terms::Row;

/// Where the expectations come from; it stands at the file's head.
const HEADING: &str = "
Edits and what is expected of the calls for them. compare/README.md says how this file is read; the program `edits` of compare/
writes it, always the same.

Rows and lexical refusals (11 to 17), and the rows that stand before a 4: the unchanged Rust's reading of the new text; where a
character of two bytes or more stands outside comments and strings, its reading of what stands in front, and 11 there.
Restart places: the rule of LANGUAGE.md, over the unchanged Rust's rows of the old text.
That a call is refused with 1, 2, 3, 4, 6 or 7: compare/src/model, LANGUAGE.md written down a second time.
Edits of kind 0: numbers and restart places besides by hand, from LANGUAGE.md and DECISIONS.md (compare/src/edits/worked.rs).
";

/// The whole file.
pub fn edits_file(edits: &Edits) -> Vec<u8> {
    let mut file = format!("spoonharbor-edits 1 {}\n", edits.len()).into_bytes();
    write_part(&mut file, 'H', HEADING.as_bytes());
    for (asked, calls) in edits {
        write_edit(&mut file, asked);
        write_calls(&mut file, calls);
    }
    file
}

fn write_part(file: &mut Vec<u8>, letter: char, bytes: &[u8]) {
    file.extend(format!("{letter} {} ", bytes.len()).bytes());
    file.extend(bytes);
    file.push(b'\n');
}

fn write_numbers(file: &mut Vec<u8>, numbers: &[u32]) {
    let words: Vec<String> = numbers.iter().map(u32::to_string).collect();
    file.extend(words.join(" ").bytes());
    file.push(b'\n');
}

fn write_edit(file: &mut Vec<u8>, asked: &Asked) {
    let edit = &asked.edit;
    write_part(file, 'T', &edit.old);
    file.extend(format!("D {}", edit.damage.len()).bytes());
    for (index, word) in &edit.damage {
        file.extend(format!(" {index} {word}").bytes());
    }
    file.extend(b"\nA ");
    write_numbers(file, &[edit.kind as u32, edit.a, edit.b, edit.n]);
    write_part(file, 'N', &edit.new_bytes);
    file.extend(b"S ");
    write_numbers(file, &asked.restart());
    file.extend(format!("R {}\n", asked.count()).bytes());
    for row in asked.fresh_rows() {
        write_row(file, row);
    }
}

/// A row; its value only where it is a number's.
fn write_row(file: &mut Vec<u8>, row: &Row) {
    let mut numbers = vec![row.kind, row.start, row.end, row.line, row.column];
    if row.kind == 50 {
        numbers.extend([row.value as u32, (row.value >> 32) as u32]);
    }
    write_numbers(file, &numbers);
}

fn write_calls(file: &mut Vec<u8>, calls: &[Call]) {
    file.extend(format!("C {}\n", calls.len()).bytes());
    for call in calls {
        let lent = [call.start, call.size as u32, call.words as u32];
        write_numbers(file, &[&lent[..], &call.told].concat());
    }
}
