//! Holds generated texts against the compiler's own lexer and parser:
//! `cargo run --release --offline --example many [COUNT [SEED]]`, a million if nothing else is said.
//!
//! Prints what was found and how often; stops at the first text at which the two part, with status 1.

#[path = "../tests/held/mod.rs"]
mod held;

use compare::deep::on_deep_stack;
use compare::generate::characters::valid_with_characters;
use compare::generate::random::Random;
use compare::generate::{damage, nesting, probe, programs};
use held::Counts;
use std::process::ExitCode;

/// A program, mostly; now and then damaged, nested to the limit, or a long probe; each fourth with characters of two
/// bytes and more.
fn text(random: &mut Random) -> Vec<u8> {
    let size = random.pick(&[6, 12, 30, 80]);
    let text = match random.below(400) {
        0 => nesting::random_text(random),
        1 => probe::probe_text(3_000, random.below(1 << 30) as u64),
        2 => programs::text(random, 1_000),
        3..=40 => damage::text(random, size),
        _ => programs::text(random, size),
    };
    match random.one_in(4) && std::str::from_utf8(&text).is_ok_and(str::is_ascii) {
        true => valid_with_characters(random, &text),
        false => text,
    }
}

fn run(count: u64, seed: u64) -> Result<Counts, String> {
    let mut random = Random::new(seed);
    let mut counts = Counts::default();
    for _ in 0..count {
        counts.hold(&text(&mut random))?;
    }
    Ok(counts)
}

fn main() -> ExitCode {
    let mut words = std::env::args().skip(1);
    let mut number = |otherwise: u64| match words.next() {
        Some(word) => word.replace('_', "").parse().ok(),
        None => Some(otherwise),
    };
    let (Some(count), Some(seed)) = (number(1_000_000), number(1)) else {
        eprintln!("usage: many [COUNT [SEED]]");
        return ExitCode::from(2);
    };
    match on_deep_stack(|| run(count, seed)) {
        Ok(counts) => {
            print!("{counts}");
            ExitCode::SUCCESS
        }
        Err(part) => {
            println!("{part}");
            ExitCode::FAILURE
        }
    }
}
