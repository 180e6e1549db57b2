//! Edits that diagnostics have: made, each of them takes its diagnostic away and brings no error.

use spoonharbor::diagnostic::{diagnose, Checks, Diagnostic, Edit};

/// The cases of `messages.rs`: a line `=== name`, a text, a line `---`, and what is printed.
const CASES: &str = include_str!("messages.txt");

fn unescaped(text: &str) -> String {
    let mut parts = text.split("\\u{");
    let mut whole = parts.next().unwrap_or_default().to_string();
    for part in parts {
        let (digits, rest) = part.split_once('}').unwrap();
        whole.extend(char::from_u32(u32::from_str_radix(digits, 16).unwrap()));
        whole += rest;
    }
    whole
}

fn errors(text: &str) -> Vec<Diagnostic> {
    let told = diagnose(text.as_bytes(), &Checks::default());
    told.into_iter().filter(Diagnostic::is_error).collect()
}

fn made(text: &str, edit: &Edit) -> String {
    let mut text = text.to_string();
    text.replace_range(edit.span.clone(), &edit.text);
    text
}

/// Whether one of the diagnostics says the same of the same place.
fn has(told: &[Diagnostic], one: &Diagnostic) -> bool {
    told.iter().any(|other| {
        other.number == one.number
            && other.message == one.message
            && other.span.start == one.span.start
    })
}

#[test]
fn each_edit_takes_its_diagnostic_away() {
    let mut edits = 0;
    for case in CASES.split("=== ").skip(1) {
        let (name, case) = case.split_once('\n').unwrap();
        let (text, _) = case.split_once("\n---\n").unwrap();
        let text = unescaped(text) + "\n";
        let told = diagnose(text.as_bytes(), &Checks::default());
        for one in &told {
            let Some(edit) = &one.edit else { continue };
            let new = made(&text, edit);
            let left = diagnose(new.as_bytes(), &Checks::default());
            assert!(!has(&left, one), "{name}: {new}\n{left:?}");
            assert!(errors(&new).len() <= errors(&text).len(), "{name}: {new}");
            edits += 1;
        }
    }
    assert_eq!(edits, EDITS);
}

/// How many diagnostics of the cases have an edit.
const EDITS: usize = 48;

/// Where the words leave open what is meant there is no edit.
#[test]
fn what_is_not_clear_is_left_to_people() {
    for text in [
        "unit u { if (a + 1) { } }",
        "unit u { if (a == 1) { } }",
        "unit u { x = a < b; }",
        "unit u { x = a++ + 1; }",
        "unit u { section kprobe/read; }",
        "unit u { x = look_up(1); }",
        "unit u { x = 1.5; }",
        "map m { type: .hash; max: 8; }",
        "unit u { x = \"a; }",
    ] {
        let told = errors(text);
        assert!(
            !told.is_empty() && told[0].edit.is_none(),
            "{text}: {told:?}"
        );
    }
}
