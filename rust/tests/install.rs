//! The installed library, linked by C and C++ programs, and archives that this crate refuses.

mod shared;

use shared::{repository, run, Folder, Ran};
use std::ffi::OsStr;
use std::fs;
use std::process::Command;

/// What pkg-config says of the library that is installed below this folder.
fn told_of(folder: &Folder, words: &[&str]) -> String {
    let mut command = folder.program("pkg-config");
    command
        .env("PKG_CONFIG_PATH", folder.0.join("there/lib/pkgconfig"))
        .args(words)
        .arg("spoonharbor");
    succeeded(&mut command).out.trim().to_string()
}

/// Runs a command that must succeed.
fn succeeded(command: &mut Command) -> Ran {
    let ran = run(command, b"");
    assert_eq!(ran.status, 0, "{command:?}: {}{}", ran.out, ran.complaints);
    ran
}

#[test]
fn c_and_cpp_programs_link_by_pkg_config() {
    let folder = Folder::new("install");
    let installed = succeeded(
        folder
            .program(repository().join("install"))
            .args(["--prefix", "there"]),
    );
    assert_eq!(installed.out, "");
    let version = env!("CARGO_PKG_VERSION");
    assert!(installed
        .complaints
        .contains(&format!("install: version {version} is in ")));
    assert_eq!(told_of(&folder, &["--modversion"]), version);
    let flags = told_of(&folder, &["--cflags", "--libs"]);
    fs::copy(
        repository().join("include/example.c"),
        folder.0.join("example.c"),
    )
    .unwrap();
    let expected = fs::read_to_string(repository().join("include/example.out")).unwrap();
    let strict = ["-Wall", "-Wextra", "-Werror", "-pedantic", "-o", "example"];
    for (compiler, language) in [
        ("cc", ["-std=c99", "-xc"]),
        ("c++", ["-std=c++11", "-xc++"]),
    ] {
        let mut command = folder.program(compiler);
        command.args(strict).args(language);
        command.args(["example.c", "-xnone"]).args(flags.split(' '));
        succeeded(&mut command);
        let ran = succeeded(&mut folder.program(folder.0.join("example")));
        assert_eq!(ran.out, expected, "{compiler}");
    }
}

/// What the example in Python prints.
const IN_PYTHON: &str = "\
14 rows, refused 21 at 3:1
change 0
15 rows, 6 nodes, names ctx load_u64 az dome
change 6
15 rows, 6 nodes, names ctx load_u64 az dome
";

/// The shared library, of the name that has its version: linked by pkg-config, and opened from Python.
#[test]
fn the_shared_library_is_used_from_c_and_python() {
    let folder = Folder::new("shared");
    succeeded(
        folder
            .program(repository().join("install"))
            .args(["--prefix", "there"]),
    );
    let version = env!("CARGO_PKG_VERSION");
    let (minor, _) = version.rsplit_once('.').unwrap();
    let library = folder.0.join("there/lib");
    let names = [
        (
            "libspoonharbor.so".to_string(),
            format!("libspoonharbor.so.{minor}"),
        ),
        (
            format!("libspoonharbor.so.{minor}"),
            format!("libspoonharbor.so.{version}"),
        ),
    ];
    for (link, to) in names {
        assert_eq!(
            fs::read_link(library.join(link)).unwrap(),
            std::path::Path::new(&to)
        );
    }
    let mut pkg_config = folder.program("pkg-config");
    pkg_config
        .env("PKG_CONFIG_PATH", library.join("pkgconfig"))
        .args(["--cflags", "--libs", "spoonharbor-shared"]);
    let flags = succeeded(&mut pkg_config).out.trim().to_string();
    let example = repository().join("include/example.c");
    let mut compile = folder.program("cc");
    compile
        .arg(example)
        .args(flags.split(' '))
        .args(["-o", "example"]);
    succeeded(&mut compile);
    let mut run_example = folder.program(folder.0.join("example"));
    let ran = succeeded(run_example.env("LD_LIBRARY_PATH", &library));
    assert_eq!(ran.out, include_str!("../../include/example.out"));
    let without = run(&mut folder.program(folder.0.join("example")), b"");
    assert!(
        without
            .complaints
            .contains(&format!("libspoonharbor.so.{minor}")),
        "{}",
        without.complaints
    );
    let mut python = folder.program("python3");
    python.arg(repository().join("include/example.py"));
    let ran = succeeded(python.arg(library.join("libspoonharbor.so")));
    assert_eq!(ran.out, format!("version {version}\n{IN_PYTHON}"));
}

/// Every paper that the header names is installed.
#[test]
fn the_papers_of_the_header_are_installed() {
    let folder = Folder::new("papers");
    succeeded(
        folder
            .program(repository().join("install"))
            .args(["--prefix", "there"]),
    );
    let header = include_str!("../../include/spoonharbor.h");
    let mut named = 0;
    for part in header.split("docs/").skip(1) {
        let paper = part.split_inclusive(".md").next().unwrap();
        let installed = folder.0.join("there/share/doc/spoonharbor").join(paper);
        assert!(installed.is_file(), "{paper}");
        named += 1;
    }
    assert!(named >= 3);
}

/// The crate as it would be published: packed, unpacked and built, with the archive that its variable names.
#[test]
fn the_crate_is_packaged() {
    let folder = Folder::new("packaged");
    let own = std::path::Path::new(spoonharbor::ARCHIVE_FILE)
        .parent()
        .unwrap();
    let mut command = folder.program(env!("CARGO"));
    command.args([
        "package",
        "--offline",
        "--quiet",
        "--allow-dirty",
        "--manifest-path",
    ]);
    command.arg(repository().join("rust/Cargo.toml"));
    command.arg("--target-dir").arg(folder.0.join("target"));
    let ran = succeeded(command.env("SPOONHARBOR_ARCHIVE", own));
    assert!(!ran.complaints.contains("warning"), "{}", ran.complaints);
    let packed = format!(
        "target/package/spoonharbor-{}.crate",
        env!("CARGO_PKG_VERSION")
    );
    assert!(folder.0.join(packed).is_file());
}

#[test]
fn a_staged_install_names_its_last_place() {
    let folder = Folder::new("staged");
    let mut command = folder.program(repository().join("install"));
    succeeded(
        command
            .args(["--prefix=/opt/probes"])
            .env("DESTDIR", &folder.0),
    );
    let there = folder.0.join("opt/probes");
    let told = fs::read_to_string(there.join("lib/pkgconfig/spoonharbor.pc")).unwrap();
    assert!(told.starts_with("prefix=/opt/probes\n"));
    assert!(there.join("include/spoonharbor.h").is_file());
    assert!(there.join("include/spoonharbor_messages.h").is_file());
    assert!(there.join("lib/libspoonharbor.a").is_file());
    for wrong in [["--prefix"].as_slice(), &["--prefix", ""], &["there"]] {
        let ran = run(
            folder.program(repository().join("install")).args(wrong),
            b"",
        );
        assert_eq!(ran.status, 2);
        assert!(ran.complaints.starts_with("install: "));
    }
}

/// What building this crate with the archive of a folder complains of, and its status.
fn built_with(folder: &Folder, archive: impl AsRef<OsStr>) -> Ran {
    let mut command = folder.program(env!("CARGO"));
    command.args(["check", "--offline", "--quiet", "--lib", "--manifest-path"]);
    command.arg(repository().join("rust/Cargo.toml"));
    command.arg("--target-dir").arg(folder.0.join("target"));
    run(command.env("SPOONHARBOR_ARCHIVE", archive), b"")
}

#[test]
fn an_archive_of_another_version_is_refused() {
    let folder = Folder::new("version-of-archive");
    let version = env!("CARGO_PKG_VERSION");
    let archives = [
        (
            "int spoonharbor_version(void) { return 7 * 65536 + 8 * 256 + 9; }",
            "is version 7.8.9",
        ),
        (
            "int spoonharbor_scan(void) { return 0; }",
            "tells no version",
        ),
    ];
    for (code, complaint) in archives {
        folder.file("other.c", code);
        succeeded(folder.program("cc").args(["-c", "other.c"]));
        succeeded(
            folder
                .program("ar")
                .args(["rcs", "libspoonharbor.a", "other.o"]),
        );
        let ran = built_with(&folder, &folder.0);
        let said = format!("libspoonharbor.a {complaint}, and this crate needs {version}\n");
        assert!(ran.complaints.contains(&said), "{}", ran.complaints);
        assert_ne!(ran.status, 0);
    }
    let ran = built_with(&folder, folder.0.join("nowhere"));
    assert!(
        ran.complaints
            .contains("nowhere/libspoonharbor.a is not there"),
        "{}",
        ran.complaints
    );
    let own = std::path::Path::new(spoonharbor::ARCHIVE_FILE)
        .parent()
        .unwrap();
    let ran = built_with(&folder, own);
    assert_eq!((ran.complaints.as_str(), ran.status), ("", 0));
}
