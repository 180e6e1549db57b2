//! The stored tables written down: numbers behind letters; of a file the bytes that are not zero, and of a damaged one those that are
//! other.

use super::Case;

/// Where the expectations come from; it stands at the file's head.
const HEADING: &str = "
Tables, their files, and what is expected of storing and reading them. compare/README.md says how this file is read; the program
`files` of compare/ writes it, always the same. Rows, files and answers: compare/src/model, LANGUAGE.md written down a second time.
";

/// The whole sample.
pub fn files_file(cases: &[Case]) -> Vec<u8> {
    let heading = format!("H {} {HEADING}\n", HEADING.len());
    let mut sample = format!("spoonharbor-files 1 {}\n{heading}", cases.len());
    for case in cases {
        write_case(&mut sample, case);
    }
    sample.into_bytes()
}

fn write_case(sample: &mut String, case: &Case) {
    write_numbers(sample, "T ", &case.table);
    *sample += &format!("R {}\n", case.rows.len() / 8);
    for row in case.rows.chunks(8) {
        write_numbers(sample, "", row);
    }
    *sample += &format!("F {} ", case.file.len());
    write_changes(sample, &vec![0; case.file.len()], &case.file);
    *sample += &format!("\nS {}\n", case.stores.len());
    for store in &case.stores {
        write_numbers(sample, &format!("{} ", store.room), &store.told);
    }
    *sample += &format!("L {}\n", case.loads.len());
    for load in &case.loads {
        let lent = [load.damage as usize, load.file.len(), load.words];
        *sample += &format!("{} {} {} ", lent[0], lent[1], lent[2]);
        write_changes(sample, &case.file, &load.file);
        write_numbers(sample, " ", &load.told);
    }
}

fn write_numbers(sample: &mut String, before: &str, numbers: &[u32]) {
    let words: Vec<String> = numbers.iter().map(u32::to_string).collect();
    *sample += &format!("{before}{}\n", words.join(" "));
}

/// How many bytes of a file are other than those before it, where behind these are zeros, and each of them with its place.
pub fn write_changes(sample: &mut String, before: &[u8], file: &[u8]) {
    let old = before.iter().copied().chain(std::iter::repeat(0));
    let changes: Vec<String> = (0..)
        .zip(file.iter().zip(old))
        .filter(|(_, (new, old))| **new != *old)
        .map(|(at, (new, _)): (usize, _)| format!(" {at} {new}"))
        .collect();
    *sample += &format!("{}{}", changes.len(), changes.concat());
}
