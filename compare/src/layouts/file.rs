//! The sample written down: texts and layouts as they are, numbers behind letters.

use super::{Call, Case};

/// Where the expectations come from; it stands at the file's head.
const HEADING: &str = "
Texts, and what is expected of laying them out. compare/README.md says how this file is read; the program `layouts` of compare/ writes it,
always the same. Layouts: compare/src/layout.rs, over the unchanged Rust's own tree.
";

/// The whole sample.
pub fn layouts_file(cases: &[Case]) -> Vec<u8> {
    let heading = format!("H {} {HEADING}\n", HEADING.len());
    let mut sample = format!("spoonharbor-layouts 1 {}\n{heading}", cases.len()).into_bytes();
    for case in cases {
        write_bytes(&mut sample, 'T', &case.text);
        write_bytes(&mut sample, 'L', &case.layout);
        sample.extend(format!("C {}\n", case.calls.len()).into_bytes());
        for call in &case.calls {
            write_call(&mut sample, call);
        }
    }
    sample
}

fn write_bytes(sample: &mut Vec<u8>, letter: char, bytes: &[u8]) {
    sample.extend(format!("{letter} {} ", bytes.len()).into_bytes());
    sample.extend(bytes);
    sample.push(b'\n');
}

fn write_call(sample: &mut Vec<u8>, call: &Call) {
    let line = format!(
        "{} {} {} {} {} {}\n",
        call.forged as u32, call.place, call.word, call.room, call.number, call.length
    );
    sample.extend(line.into_bytes());
}
