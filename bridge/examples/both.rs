//! Whether the two sides make the same tree: `cargo run --release --offline --example both FILE..`.
//!
//! For each file a line: `same`, or what parts the compiler's own lexer and parser from Spoonharbor and the bridge.
//! Exit status: 0 all are the same, 1 some part, 2 trouble.

#[path = "../tests/held/mod.rs"]
mod held;

use compare::deep::on_deep_stack;
use held::{held, Held};
use std::process::ExitCode;

/// What is said of a text, and whether both sides are the same.
pub fn told(text: &[u8]) -> (String, bool) {
    match held(text) {
        Held::Same => ("same".to_string(), true),
        Held::BothRefuse(refusal) => (format!("same, refused by both: {refusal}"), true),
        Held::Listed { refusal, there } => {
            let number = refusal.number();
            let here = format!("refused {number} here, {refusal}");
            let listed = format!("docs/DIFFERENCES.md lists it under {number}");
            (format!("part: {here}; there {there}; {listed}"), false)
        }
        Held::Part(why) => (format!("part, and nothing lists it:\n{why}"), false),
    }
}

fn main() -> ExitCode {
    let files: Vec<String> = std::env::args().skip(1).collect();
    if files.is_empty() {
        eprintln!("usage: both FILE..");
        return ExitCode::from(2);
    }
    let mut all_same = true;
    for file in files {
        let text = match std::fs::read(&file) {
            Ok(text) => text,
            Err(error) => {
                eprintln!("both: {file}: {error}");
                return ExitCode::from(2);
            }
        };
        let (said, is_same) = on_deep_stack(|| told(&text));
        println!("{file}: {said}");
        all_same &= is_same;
    }
    match all_same {
        true => ExitCode::SUCCESS,
        false => ExitCode::FAILURE,
    }
}
