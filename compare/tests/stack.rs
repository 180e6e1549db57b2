//! How much stack the library's calls take at the deepest nesting: measured by a C program, and held to a bound.

use std::path::Path;
use std::process::Command;

/// The calls, by their names without `spoonharbor_`, in the order of the report, and how much stack each may take.
const MOST: [(&str, usize); 19] = [
    ("scan", 640),
    ("parse", 20 * 1_024),
    ("layout", 20 * 1_024),
    ("tally", 512),
    ("join", 512),
    ("edit", 1_024),
    ("change", 1_024),
    ("restart", 704),
    ("well_formed", 640),
    ("spelling", 768),
    ("section_kind", 64),
    ("allows", 64),
    ("set_size", 64),
    ("store", 768),
    ("load", 1_024),
    ("move", 2 * 1_024),
    ("load_beside", 1_152),
    ("mend", 3 * 1_024),
    ("version", 64),
];

/// How many texts are measured.
const TEXTS: usize = 8;

#[test]
fn the_deepest_nesting_takes_little_stack() {
    let here = Path::new(env!("CARGO_MANIFEST_DIR"));
    let program = std::env::temp_dir().join(format!("spoonharbor-stack-{}", std::process::id()));
    let compiled = Command::new("cc")
        .args(["-O1", "-Wall", "-Wextra", "-Werror", "-I"])
        .arg(here.join("../include"))
        .arg(here.join("stack/stack.c"))
        .arg(spoonharbor::ARCHIVE_FILE)
        .arg("-o")
        .arg(&program)
        .output()
        .expect("a C compiler `cc`");
    let complaints = String::from_utf8_lossy(&compiled.stderr);
    assert!(compiled.status.success(), "{complaints}");
    let ran = Command::new(&program).output().expect("the program runs");
    let _ = std::fs::remove_file(&program);
    assert!(ran.status.success());
    let report = String::from_utf8_lossy(&ran.stdout);
    println!("{report}");
    let lines: Vec<&str> = report.lines().collect();
    assert_eq!(lines.len(), TEXTS, "{report}");
    for line in lines {
        let told = figures(line);
        let names: Vec<&str> = told.iter().map(|(call, _)| *call).collect();
        assert_eq!(names, MOST.map(|(call, _)| call), "{report}");
        for ((call, bytes), (_, most)) in told.into_iter().zip(MOST) {
            assert!(bytes <= most, "{call} takes {bytes} bytes: {report}");
        }
    }
}

/// A line of the report: each call and how much stack it takes.
fn figures(line: &str) -> Vec<(&str, usize)> {
    let told = line.split_once(": ").map_or("", |(_, told)| told);
    let pairs = told.split(", ").filter_map(|pair| {
        let mut words = pair.split(' ');
        Some((words.next()?, words.next()?.parse().ok()?))
    });
    pairs.collect()
}
