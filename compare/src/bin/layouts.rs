//! Writes the stored sample of layouts, crates/replay_layouts/stdin, in the form that README.md describes, always
//! the same, and beside it the counts that the program must write of it. Prints these counts.

use compare::deep::on_deep_stack;
use compare::layouts::cases::stored;
use compare::layouts::file::layouts_file;
use compare::layouts::report::report;
use compare::layouts::{FILE, REPORT};
use std::process::ExitCode;

fn main() -> ExitCode {
    match write_layouts() {
        Ok(()) => ExitCode::SUCCESS,
        Err(error) => {
            eprintln!("{FILE}: {error}");
            ExitCode::FAILURE
        }
    }
}

fn write_layouts() -> std::io::Result<()> {
    let cases = on_deep_stack(stored);
    let sample = layouts_file(&cases);
    let counts = report(&cases);
    print!("{counts}");
    println!("{} bytes", sample.len());
    std::fs::write(REPORT, counts)?;
    std::fs::write(FILE, sample)
}
