//! The lister's example of LANGUAGE.md, word for word.

use compare::answer::answer;
use compare::edge_cases::{LISTER_LINES, LISTER_TEXT};
use compare::show::lister_lines;

#[test]
fn rows_and_nodes_are_the_papers() {
    assert_eq!(lister_lines(&answer(LISTER_TEXT)), LISTER_LINES);
}
