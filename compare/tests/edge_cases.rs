//! Every edge case has the answer that its paper states, and no other would do.

use compare::answer::answer;
use compare::edge_cases::{edge_cases, METHOD_SETS, SECTION_KINDS};
use compare::method_sets::{kind_of_section, mask_of, PROGRAM_KINDS};
use compare::show::one_line;

#[test]
fn every_answer_is_the_papers() {
    for case in edge_cases() {
        let answer = answer(&case.text);
        assert!(
            case.is_met_by(&answer),
            "{}: `{}`: {}, expected {:?}",
            case.source,
            case.text.escape_ascii(),
            one_line(&answer),
            case.expected
        );
    }
}

/// An expectation is not met by the answer about `@`, which is no case's text.
#[test]
fn another_answer_is_noticed() {
    let other = answer(b"@");
    for case in edge_cases() {
        assert!(!case.is_met_by(&other), "{}", case.source);
    }
}

#[test]
fn sections_and_method_sets_are_the_papers() {
    for (section, kind) in SECTION_KINDS {
        assert_eq!(kind_of_section(section), kind, "{section}");
    }
    assert_eq!(PROGRAM_KINDS.map(mask_of), METHOD_SETS);
}
