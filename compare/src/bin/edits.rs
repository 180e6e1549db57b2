//! Writes the stored sample of edits, crates/replay_edits/stdin, in the form that README.md describes, always the same file, and
//! beside it the counts that the program must write of it.
//! Prints how many calls have which answer.

use compare::deep::on_deep_stack;
use compare::edits::file::edits_file;
use compare::edits::report::report;
use compare::edits::{stored, FILE, REPORT};
use std::collections::BTreeMap;
use std::process::ExitCode;

fn main() -> ExitCode {
    match on_deep_stack(write_edits) {
        Ok(()) => ExitCode::SUCCESS,
        Err(error) => {
            eprintln!("{FILE}: {error}");
            ExitCode::FAILURE
        }
    }
}

fn write_edits() -> std::io::Result<()> {
    let edits = stored();
    let mut counts: BTreeMap<u32, usize> = BTreeMap::new();
    for (_, calls) in &edits {
        for call in calls {
            *counts.entry(call.told[0]).or_default() += 1;
        }
    }
    for (number, count) in &counts {
        println!("calls that are answered {number}: {count}");
    }
    let file = edits_file(&edits);
    println!("edits: {}", edits.len());
    println!("{} bytes", file.len());
    std::fs::write(REPORT, report(&edits))?;
    std::fs::write(FILE, file)
}
