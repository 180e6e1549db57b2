//! Writes the stored sample of tables and their files, crates/replay_files/stdin, in the form that README.md describes, always the same, and
//! beside it the counts that the program must write of it. Prints these counts.

use compare::files::cases::stored;
use compare::files::file::files_file;
use compare::files::report::report;
use compare::files::{FILE, REPORT};
use std::process::ExitCode;

fn main() -> ExitCode {
    match write_files() {
        Ok(()) => ExitCode::SUCCESS,
        Err(error) => {
            eprintln!("{FILE}: {error}");
            ExitCode::FAILURE
        }
    }
}

fn write_files() -> std::io::Result<()> {
    let cases = stored();
    let sample = files_file(&cases);
    let counts = report(&cases);
    print!("{counts}");
    println!("{} bytes", sample.len());
    std::fs::write(REPORT, counts)?;
    std::fs::write(FILE, sample)
}
