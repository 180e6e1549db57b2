//! The sample written down: texts as they are, numbers behind letters; of a file the bytes that are not zero.

use super::{Call, Case};
use crate::files::file::write_changes;

/// Where the expectations come from; it stands at the file's head.
const HEADING: &str = "
Texts, files, and what is expected of reading, moving and mending them with the text at hand. compare/README.md says how this file is
read; the program `forms` of compare/ writes it, always the same. Files and answers: compare/src/model, LANGUAGE.md written down a second
time.
";

/// The whole sample.
pub fn forms_file(cases: &[Case]) -> Vec<u8> {
    let heading = format!("H {} {HEADING}\n", HEADING.len());
    let mut sample = format!("spoonharbor-forms 1 {}\n{heading}", cases.len()).into_bytes();
    for case in cases {
        write_case(&mut sample, case);
    }
    sample
}

fn write_case(sample: &mut Vec<u8>, case: &Case) {
    sample.extend(format!("P {} ", case.text.len()).into_bytes());
    sample.extend(&case.text);
    let mut rest = format!("\nF {} ", case.file.len());
    write_changes(&mut rest, &vec![0; case.file.len()], &case.file);
    rest += &format!("\nC {}\n", case.calls.len());
    for call in &case.calls {
        write_call(&mut rest, call);
    }
    sample.extend(rest.into_bytes());
}

fn write_call(sample: &mut String, call: &Call) {
    let lent = [call.kind as usize, call.form as usize, call.room, call.list];
    let numbers = lent.iter().map(usize::to_string);
    let expected = call.told.iter().chain(&call.left).map(u32::to_string);
    let words: Vec<String> = numbers.chain(expected).collect();
    *sample += &format!("{}\n", words.join(" "));
}
