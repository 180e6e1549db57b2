//! Prints LANGUAGE.md's edges and lister example, the examples of DECISIONS.md and
//! texts of limit length with the original's answers. The exit status is 1 if any
//! answer is not the expected one.

use compare::answer::answer;
use compare::deep::on_deep_stack;
use compare::edge_cases::{
    edge_cases, EdgeCase, LISTER_LINES, LISTER_TEXT, METHOD_SETS, SECTION_KINDS,
};
use compare::generate::lengths;
use compare::method_sets::{kind_of_section, mask_of, PROGRAM_KINDS};
use compare::show::{lister_lines, one_line};
use compare::terms::{Answer, LONGEST_TEXT};
use std::process::ExitCode;

fn main() -> ExitCode {
    let mismatches = on_deep_stack(|| {
        print_lister_example()
            + print_edge_cases()
            + print_sections()
            + print_method_sets()
            + print_limit_lengths()
    });
    println!("mismatches: {mismatches}");
    if mismatches == 0 {
        ExitCode::SUCCESS
    } else {
        ExitCode::FAILURE
    }
}

/// Each of these prints its part and gives back the number of mismatches.
fn print_lister_example() -> usize {
    let lines = lister_lines(&answer(LISTER_TEXT));
    println!("LANGUAGE, the lister's example");
    for line in &lines {
        println!("    {line}");
    }
    verdict(lines == LISTER_LINES)
}

fn print_edge_cases() -> usize {
    edge_cases().iter().map(print_edge_case).sum()
}

fn print_edge_case(case: &EdgeCase) -> usize {
    let answer = answer(&case.text);
    let met = case.is_met_by(&answer);
    println!("{}: {}", case.source, shown_text(&case.text));
    println!("    {}", one_line(&answer));
    if !met {
        println!("    expected {:?}", case.expected);
        println!("    {}", lister_lines(&answer).join("\n    "));
    }
    verdict(met)
}

/// The text with escapes, cut if it is long.
fn shown_text(text: &[u8]) -> String {
    match text.get(..60) {
        Some(beginning) => format!("`{}`.. ({} bytes)", beginning.escape_ascii(), text.len()),
        None => format!("`{}`", text.escape_ascii()),
    }
}

fn print_sections() -> usize {
    SECTION_KINDS
        .into_iter()
        .map(|(section, expected)| {
            let kind = kind_of_section(section);
            println!("DECISIONS, from_section: section `{section}` has kind {kind}");
            verdict(kind == expected)
        })
        .sum()
}

fn print_method_sets() -> usize {
    PROGRAM_KINDS
        .into_iter()
        .zip(METHOD_SETS)
        .map(|(kind, expected)| {
            let mask = mask_of(kind);
            println!(
                "DECISIONS, membership: kind {} has methods {mask:04X}",
                kind as u32
            );
            verdict(mask == expected)
        })
        .sum()
}

/// Of these a paper states only that the longer ones are 1.
fn print_limit_lengths() -> usize {
    lengths::texts()
        .map(|text| {
            let answer = answer(&text);
            println!("limit length: {}", shown_text(&text));
            println!("    {}", one_line(&answer));
            let is_refused = answer == Answer::NotCompared { number: 1 };
            verdict(is_refused == (text.len() > LONGEST_TEXT))
        })
        .sum()
}

fn verdict(met: bool) -> usize {
    println!("    {}", if met { "ok" } else { "MISMATCH" });
    usize::from(!met)
}
