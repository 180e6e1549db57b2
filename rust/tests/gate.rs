//! The gate's ending: its last line is rt's count, and what fails behind rt is a failure.

mod shared;

use shared::{repository, run, Folder, Ran};
use std::fs;

/// Runs the gate where rt and the guard of what is shipped say this and end so.
fn gate(name: &str, rt: (&str, i32), shipped: (&str, i32)) -> Ran {
    let folder = Folder::new(name);
    for part in ["bin", "tools", ".ci"] {
        fs::create_dir_all(folder.0.join(part)).unwrap();
    }
    for (path, (said, status)) in [
        ("bin/rt", rt),
        ("tools/shipped", shipped),
        ("tools/proved", ("noted", 0)),
    ] {
        let script = format!("#!/bin/sh\ncat <<'END'\n{said}\nEND\nexit {status}\n");
        folder.executable(path, script);
    }
    folder.executable(".ci/run", fs::read(repository().join(".ci/run")).unwrap());
    let mut paths = vec![folder.0.join("bin")];
    paths.extend(std::env::split_paths(&std::env::var_os("PATH").unwrap()));
    let mut command = folder.program("bash");
    command
        .arg(".ci/run")
        .env("PATH", std::env::join_paths(paths).unwrap());
    run(&mut command, b"")
}

const PROVED: &str = "rt: rules proved\nrt: ok; handles allowed: none; must-fail edits: 219 refused, \
                      1 of them only by a limit; every proof and must-fail edit was done in this run\n220 passed, 0 failed";

#[test]
fn the_gates_last_line_is_rts_count() {
    let ran = gate("well", (PROVED, 0), ("shipped: all is well (9 s)", 0));
    assert_eq!(
        ran.out,
        format!("{PROVED}\nnoted\nshipped: all is well (9 s)\n220 passed, 0 failed\n")
    );
    assert_eq!((ran.complaints.as_str(), ran.status), ("", 0));
}

#[test]
fn what_fails_behind_rt_is_a_failure() {
    let ran = gate(
        "fails",
        (PROVED, 0),
        ("shipped: FAILED: clippy layout (9 s)", 2),
    );
    assert!(ran.out.ends_with("(9 s)\n220 passed, 2 failed\n"));
    assert_eq!(ran.status, 1);
}

#[test]
fn where_rt_fails_nothing_follows() {
    let refused = "rt: FAILED: rules\n219 passed, 1 failed";
    let ran = gate("refused", (refused, 1), ("shipped: all is well (9 s)", 0));
    assert_eq!((ran.out, ran.status), (format!("{refused}\n"), 1));
    let ran = gate("refused", (refused, 0), ("shipped: all is well (9 s)", 0));
    assert!(!ran.out.ends_with(" passed, 0 failed\n"));
    assert_eq!(ran.status, 1);
    let ran = gate(
        "nothing",
        ("nothing is said", 0),
        ("shipped: all is well (9 s)", 0),
    );
    assert!(ran.out.ends_with(" 1 failed\n"));
    assert_eq!(ran.status, 1);
}

/// What rt cannot apply or read of the must-fail edits it passes, and this does not; nor does it an ending without that count.
#[test]
fn a_bad_edit_is_a_failure() {
    let well = ("shipped: all is well (9 s)", 0);
    for (edits, bad) in [
        ("219 refused, 3 bad", 3),
        ("219 refused, 1 of them only by a limit, 1 bad", 1),
        ("0 refused, 12 bad", 12),
    ] {
        let said = format!(
            "rt: ok; handles allowed: none; must-fail edits: {edits}; done in this run: 1 of the 2 proofs\n\
             220 passed, 0 failed"
        );
        let ran = gate("bad", (&said, 0), well);
        assert_eq!(
            (ran.out, ran.status),
            (format!("{said}\n220 passed, {bad} failed\n"), 1)
        );
    }
    let ran = gate(
        "silent",
        ("rt: rules proved\n220 passed, 0 failed", 0),
        well,
    );
    assert!(ran.out.ends_with(" 1 failed\n"), "{}", ran.out);
    assert_eq!(ran.status, 1);
}
