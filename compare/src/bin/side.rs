//! Holds the proved library against the original and the model: `side PART [COUNT [SEED]]`. Prints what was compared and how
//! often; stops at the first difference with status 1.

use compare::deep::on_deep_stack;
use compare::side::{
    chains, edit, figures, files, fitting, forms, layout, pairs, parse, scan, tables, Compared,
};
use std::process::ExitCode;
use std::time::Instant;

const USAGE: &str = "\
usage: side scan [TEXTS [SEED]]      rows, values, refusals, every lent word, of so many ASCII texts and as many with characters
       side parse [TEXTS [SEED]]     nodes, refusals, every lent word, of so many ASCII texts and as many with characters
       side fitting [BEGINNINGS [SEED]]  the kinds that are told, behind every beginning of seven rows and so many longer ones
       side edit [CALLS [SEED]]      random edits at every window length, and as changes
       side small [LENGTH]           every edit of every text of at most LENGTH bytes over 16 bytes, at every window length, and as a change
       side parts [LENGTH]           the same over 11 bytes with parts of characters, old and new bytes together at most LENGTH
       side chains [EDITS [SEED]]    edits one after the other on documents of up to 60,000 bytes
       side pairs [PAIRS [SEED]]     two edits of one text, in either order, and in a row against one that covers both
       side tables [TABLES [SEED]]   tables with words changed, sets, sections
       side files [TABLES [SEED]]    tables stored and read back, of files that are sound and damaged
       side forms [TEXTS [SEED]]     files of both forms, sound and damaged, read beside a text, moved and mended
       side layout [TEXTS [SEED]]    layouts, their reading back, forged calls, of so many ASCII texts and as many with characters
       side expressions [ROWS]       layouts of every expression of at most ROWS rows
       side figures [TEXTS [SEED]]   tallies, of forged nodes too, and joined, of so many ASCII texts and as many with characters
       side full                     all of them, at length
";

/// The counts of a full run.
const FULL: [(&str, u64); 14] = [
    ("scan", 1_000_000),
    ("parse", 1_000_000),
    ("fitting", 100_000),
    ("edit", 20_000_000),
    ("small", 3),
    ("parts", 6),
    ("chains", 40_000),
    ("pairs", 1_000_000),
    ("tables", 1_000_000),
    ("files", 1_000_000),
    ("forms", 1_000_000),
    ("layout", 1_000_000),
    ("expressions", 8),
    ("figures", 1_000_000),
];

fn main() -> ExitCode {
    let arguments: Vec<String> = std::env::args().skip(1).collect();
    let Some(parts) = parts_of(&arguments) else {
        eprint!("{USAGE}");
        return ExitCode::from(2);
    };
    for (part, count, seed) in parts {
        let began = Instant::now();
        let compared = on_deep_stack(|| run(part, count, seed));
        match compared {
            Ok(counts) => {
                println!("{part}: no difference, {} s", began.elapsed().as_secs());
                print!("{counts}");
            }
            Err(difference) => {
                println!("{part}: DIFFERENCE\n{difference}");
                return ExitCode::FAILURE;
            }
        }
    }
    ExitCode::SUCCESS
}

/// The parts to run, each with its count and seed.
fn parts_of(arguments: &[String]) -> Option<Vec<(&'static str, u64, u64)>> {
    let (name, numbers) = arguments.split_first()?;
    let numbers: Vec<u64> = numbers
        .iter()
        .map(|number| number.replace('_', "").parse().ok())
        .collect::<Option<_>>()?;
    if name == "full" && numbers.is_empty() {
        return Some(FULL.map(|(part, count)| (part, count, 1)).to_vec());
    }
    let (part, full) = FULL.into_iter().find(|(part, _)| part == name)?;
    match numbers[..] {
        [] => Some(vec![(part, full, 1)]),
        [count] => Some(vec![(part, count, 1)]),
        [count, seed] => Some(vec![(part, count, seed)]),
        _ => None,
    }
}

fn run(part: &str, count: u64, seed: u64) -> Compared {
    match part {
        "scan" => scan::run(count, seed),
        "parse" => parse::run(count, seed),
        "fitting" => fitting::run(count, seed),
        "edit" => edit::run(count, seed),
        "small" => edit::run_small(count.min(6) as u32),
        "parts" => edit::run_parts(count.min(8) as u32),
        "chains" => chains::run(count, seed),
        "pairs" => pairs::run(count, seed),
        "files" => files::run(count, seed),
        "forms" => forms::run(count, seed),
        "layout" => layout::run(count, seed),
        "figures" => figures::run(count, seed),
        "expressions" => layout::run_expressions(count.min(10) as usize),
        _ => tables::run(count, seed),
    }
}
