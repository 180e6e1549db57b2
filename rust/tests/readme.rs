//! The README's worked example, run: what it prints is what the README shows.

mod shared;

use shared::{repository, run};
use std::process::Command;

#[allow(dead_code)]
#[path = "../examples/typed.rs"]
mod typed;

#[allow(dead_code)]
#[path = "../examples/outline.rs"]
mod outline;

/// Whether the README shows these lines together, set off as it sets off what is printed.
fn is_shown(printed: &str) -> bool {
    let readme = include_str!("../../README.md");
    let set_off: String = printed
        .lines()
        .map(|line| match line {
            "" => "\n".to_string(),
            line => format!("    {line}\n"),
        })
        .collect();
    readme.contains(&set_off)
}

#[test]
fn the_refused_probe_is_shown() {
    let mut command = Command::new("./check");
    command
        .arg("rust/examples/encoder.snx")
        .current_dir(repository());
    let ran = run(&mut command, b"");
    assert_eq!(ran.status, 1, "{}", ran.complaints);
    let printed = format!("./check rust/examples/encoder.snx\n\n{}", ran.out);
    assert!(is_shown(&printed), "the README does not show:\n{printed}");
}

/// The commands that build the C example.
const IN_C: &str = "\
./install --prefix \"$PWD/target/installed\"
export PKG_CONFIG_PATH=\"$PWD/target/installed/lib/pkgconfig\"
cc include/example.c $(pkg-config --cflags --libs spoonharbor) -o target/example && target/example
";

#[test]
fn the_c_example_is_built_as_shown() {
    assert!(is_shown(IN_C), "the README does not show:\n{IN_C}");
    let mut command = Command::new("sh");
    let ran = run(
        command.args(["-e", "-c", IN_C]).current_dir(repository()),
        b"",
    );
    assert_eq!(ran.status, 0, "{}", ran.complaints);
    assert_eq!(ran.out, include_str!("../../include/example.out"));
}

#[test]
fn the_edits_are_shown() {
    let printed = typed::story().unwrap();
    assert!(is_shown(&printed), "the README does not show:\n{printed}");
}

#[test]
fn what_is_not_printed_is_not_shown() {
    assert!(!is_shown("47 rows, 12 nodes\n"));
}

#[test]
fn the_outline_is_told() {
    let text = include_str!("../../examples/samples.snx");
    let told = outline::outline(text).unwrap();
    let wanted = "6-9 samples (map: ringbuf, key none, value none, max 65536)\n\
                  12-16 sample (event)\n18-31 on_sample (unit: kind tracepoint)\n";
    assert_eq!(told, wanted);
}
