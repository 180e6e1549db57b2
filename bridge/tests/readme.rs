//! What the example `both` prints is what the READMEs show.

#[allow(dead_code)]
#[path = "../examples/both.rs"]
mod both;

#[test]
fn the_comparison_is_shown() {
    let files = ["examples/encoder.snx", "../rust/examples/encoder.snx"];
    let command = "cargo run --release --offline --example both";
    let mut shown = format!("    {command} {}\n\n", files.join(" "));
    for file in files {
        let (said, is_same) = both::told(&std::fs::read(file).unwrap());
        assert!(is_same);
        shown += &format!("    {file}: {said}\n");
    }
    for readme in [
        include_str!("../../README.md"),
        include_str!("../README.md"),
    ] {
        assert!(readme.contains(&shown), "a README does not show:\n{shown}");
    }
}

/// Where the two part, the difference is told, and named if it is listed.
#[test]
fn a_difference_is_told() {
    let (said, is_same) = both::told(b"event e{a:u32[-1];}");
    assert!(said.starts_with("part: refused 27 here, 1:15: "), "{said}");
    assert!(
        said.ends_with("; there a tree; docs/DIFFERENCES.md lists it under 27"),
        "{said}"
    );
    assert!(!is_same);
}
