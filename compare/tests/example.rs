//! The C example, compiled with the header and linked with the archive, prints what it should.

use std::path::Path;
use std::process::Command;

#[test]
fn the_c_example_prints_what_it_should() {
    let include = Path::new(env!("CARGO_MANIFEST_DIR")).join("../include");
    let program = std::env::temp_dir().join(format!("spoonharbor-example-{}", std::process::id()));
    let compiled = Command::new("cc")
        .args([
            "-std=c11",
            "-O1",
            "-Wall",
            "-Wextra",
            "-Werror",
            "-pedantic",
        ])
        .arg("-I")
        .arg(&include)
        .arg(include.join("example.c"))
        .arg(spoonharbor::ARCHIVE_FILE)
        .arg("-o")
        .arg(&program)
        .output()
        .expect("a C compiler `cc`");
    let complaints = String::from_utf8_lossy(&compiled.stderr);
    assert!(compiled.status.success(), "{complaints}");
    let ran = Command::new(&program).output().expect("the example runs");
    let _ = std::fs::remove_file(&program);
    assert!(ran.status.success());
    let expected = std::fs::read_to_string(include.join("example.out")).unwrap();
    assert_eq!(String::from_utf8_lossy(&ran.stdout), expected);
}
