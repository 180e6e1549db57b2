//! Writes the stored sample of texts and files of both forms, crates/replay_forms/stdin, in the form that README.md describes, always
//! the same, and beside it the counts that the program must write of it. Prints these counts.

use compare::forms::cases::stored;
use compare::forms::file::forms_file;
use compare::forms::report::report;
use compare::forms::{FILE, REPORT};
use std::process::ExitCode;

fn main() -> ExitCode {
    match write_forms() {
        Ok(()) => ExitCode::SUCCESS,
        Err(error) => {
            eprintln!("{FILE}: {error}");
            ExitCode::FAILURE
        }
    }
}

fn write_forms() -> std::io::Result<()> {
    let cases = stored();
    let sample = forms_file(&cases);
    let counts = report(&cases);
    print!("{counts}");
    println!("{} bytes", sample.len());
    std::fs::write(REPORT, counts)?;
    std::fs::write(FILE, sample)
}
