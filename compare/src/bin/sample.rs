//! Writes the stored texts, crates/replay_texts/stdin: `sample COUNT SEED`. The file holds COUNT ASCII texts
//! and a tenth as many with characters of two bytes and more, with the original's
//! answers in the form that README.md describes; the same numbers give the same file.
//! Writes the counts that the program must write, too.
//! Prints how many texts had which outcome.

use compare::answer::answer;
use compare::deep::on_deep_stack;
use compare::generate::sample_texts;
use compare::sample::{report, sample_file, FILE, REPORT};
use compare::terms::{Answer, Parsed};
use std::collections::BTreeMap;
use std::process::ExitCode;

fn main() -> ExitCode {
    let arguments: Vec<String> = std::env::args().skip(1).collect();
    let Some((count, seed)) = count_and_seed(&arguments) else {
        eprintln!("usage: sample COUNT SEED");
        return ExitCode::FAILURE;
    };
    match on_deep_stack(|| write_sample(count, seed)) {
        Ok(()) => ExitCode::SUCCESS,
        Err(error) => {
            eprintln!("{FILE}: {error}");
            ExitCode::FAILURE
        }
    }
}

fn count_and_seed(arguments: &[String]) -> Option<(usize, u64)> {
    match arguments {
        [count, seed] => Some((count.parse().ok()?, seed.parse().ok()?)),
        _ => None,
    }
}

fn write_sample(count: usize, seed: u64) -> std::io::Result<()> {
    let texts = sample_texts(count, seed);
    let answers: Vec<Answer> = texts.iter().map(|text| answer(text)).collect();
    let cases = texts.iter().map(Vec::as_slice).zip(&answers);
    let file = sample_file(cases);
    print_counts(&answers);
    println!("{} bytes", file.len());
    std::fs::write(REPORT, report(&answers))?;
    std::fs::write(FILE, file)
}

fn print_counts(answers: &[Answer]) {
    let mut counts: BTreeMap<String, usize> = BTreeMap::new();
    for answer in answers {
        *counts.entry(outcome(answer)).or_default() += 1;
    }
    for (outcome, count) in &counts {
        println!("{outcome}: {count}");
    }
    println!("cases: {}", answers.len());
}

fn outcome(answer: &Answer) -> String {
    match answer {
        Answer::NotCompared { number } => format!("not compared, LANGUAGE.md says {number}"),
        Answer::Compared {
            ending: Some(refusal),
            ..
        } => format!("scan refused {}", refusal.number),
        Answer::Compared { parsed, .. } => match parsed {
            Parsed::NotScanned => "not scanned".to_string(),
            Parsed::NotComparable { number } => {
                format!("parse not comparable, LANGUAGE.md says {number}")
            }
            Parsed::Refused(refusal) => format!("parse refused {}", refusal.number),
            Parsed::Accepted(_) => "accepted".to_string(),
        },
    }
}
