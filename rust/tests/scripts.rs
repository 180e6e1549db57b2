//! The repository's own commands, run as a new user runs them: from any folder, through a link, without a toolchain.

mod shared;

use shared::{repository, run, Folder, Ran};
use std::fs;
use std::os::unix::fs::symlink;
use std::path::PathBuf;
use std::process::Command;

const PROBE: &str = "unit u{\n x+=-1;\n}\n";

/// The same with a section and a license, so that nothing is told of it.
const SOUND: &str = "unit u{\n section \"xdp\"; license \"GPL\";\n x+=-1;\n}\n";

fn script(name: &str) -> PathBuf {
    repository().join(name)
}

fn run_in(folder: &Folder, name: &str, arguments: &[&str]) -> Ran {
    run(folder.program(script(name)).args(arguments), b"")
}

#[test]
fn the_first_command_checks_files() {
    let folder = Folder::new("first");
    folder.file("good.snx", SOUND);
    folder.file("bad.snx", "unit u{\n x+=-1\n}\n");
    let ran = run_in(&folder, "check", &["good.snx"]);
    let ok = "good.snx: ok, 0 maps, 0 events, 1 unit (checked: syntax, sections, methods)\n";
    assert_eq!((ran.out.as_str(), ran.status), (ok, 0));
    let ran = run_in(&folder, "check", &["good.snx", "bad.snx"]);
    assert!(ran.out.starts_with(&format!(
        "{ok}error[21]: expected ';' after this\n --> bad.snx:2:7\n"
    )));
    assert!(ran.out.ends_with("bad.snx: refused, 1 error\n"));
    assert_eq!(ran.status, 1);
    let ran = run_in(&folder, "check", &["."]);
    assert!(ran.out.starts_with("error[21]"), "{}", ran.out);
    assert!(
        ran.out.ends_with(&ok.replace("good", "./good")),
        "{}",
        ran.out
    );
    let ran = run_in(&folder, "check", &["missing.snx"]);
    assert!(ran.complaints.contains("missing.snx"));
    assert_eq!((ran.out.as_str(), ran.status), ("", 2));
    let ran = run(folder.program(script("check")).arg("-"), PROBE.as_bytes());
    assert_eq!(ran.status, 0);
}

/// A link to a command, and a link to that, work from a folder of their own.
#[test]
fn commands_work_through_links() {
    let folder = Folder::new("links");
    folder.file("good.snx", PROBE);
    for name in ["check", "list", "install"] {
        let to = format!("to-{name}");
        symlink(script(name), folder.0.join(&to)).unwrap();
        symlink(&to, folder.0.join(name)).unwrap();
    }
    let ran = run(folder.program("./check").arg("good.snx"), b"");
    assert_eq!(ran.status, 0, "{}", ran.complaints);
    for name in ["./check", "./list", "./install"] {
        let ran = run(folder.program(name).arg("--help"), b"");
        assert!(ran.out.starts_with(&format!("usage: {name} ")));
        assert_eq!((ran.complaints.as_str(), ran.status), ("", 0));
    }
    let ran = run(Command::new("../check").arg("examples/encoder.snx"), b"");
    assert_eq!(ran.status, 1);
}

#[test]
fn wrong_calls_are_told_before_anything_is_built() {
    let folder = Folder::new("wrong");
    let calls: [(&str, &[&str], &str); 5] = [
        ("check", &[], "check: a file is missing\n"),
        ("list", &["a", "b"], "list: one file is wanted\n"),
        ("list", &["missing"], "list: there is no file missing\n"),
        ("list", &["."], "list: there is no file .\n"),
        (
            "install",
            &["--prefix"],
            "install: --prefix wants a folder\n",
        ),
    ];
    for (name, arguments, complaint) in calls {
        let ran = run_in(&folder, name, arguments);
        assert!(ran.complaints.starts_with(complaint), "{}", ran.complaints);
        assert_eq!((ran.out.as_str(), ran.status), ("", 2));
    }
}

/// The lister, where it is proved already: a file as an argument and on standard input.
#[test]
fn the_lister_lists() {
    if !repository().join("target/bin/lister").is_file() {
        return;
    }
    let folder = Folder::new("lister");
    folder.file("text", PROBE);
    let listed = fs::read_to_string(repository().join("crates/lister/stdout")).unwrap();
    let given = run_in(&folder, "list", &["text"]);
    let read = run(&mut folder.program(script("list")), PROBE.as_bytes());
    for ran in [given, read] {
        assert_eq!((ran.out.as_str(), ran.status), (listed.as_str(), 0));
    }
}

/// A repository with nothing built, and a PATH that has only these of the system's programs.
fn bare(name: &str, more: &[&str]) -> Folder {
    let folder = Folder::new(name);
    for part in ["bin", "crates", "rust/src", "tools"] {
        fs::create_dir_all(folder.0.join(part)).unwrap();
    }
    for file in [
        "check",
        "list",
        "install",
        "tools/archive",
        "tools/below.awk",
        "tools/prove",
        "tools/proved",
        "tools/took",
    ] {
        folder.executable(file, fs::read(script(file)).unwrap());
    }
    folder.file("crates.txt", fs::read(script("crates.txt")).unwrap());
    for file in ["rust/build.rs", "rust/Cargo.toml", "rust/Cargo.lock"] {
        folder.file(file, "");
    }
    let tools = [
        "awk", "cat", "date", "dirname", "find", "head", "mkdir", "readlink", "sed", "sh", "uname",
    ];
    for tool in tools {
        let found = std::env::split_paths(&std::env::var_os("PATH").unwrap())
            .map(|path| path.join(tool))
            .find(|path| path.is_file());
        symlink(found.expect(tool), folder.0.join("bin").join(tool)).unwrap();
    }
    for tool in more {
        folder.executable(&format!("bin/{tool}"), "#!/bin/sh\nexit 1\n");
    }
    folder.file("probe", PROBE);
    folder
}

fn run_bare(folder: &Folder, arguments: &[&str]) -> Ran {
    let mut command = folder.program(arguments[0]);
    command
        .args(&arguments[1..])
        .env("PATH", folder.0.join("bin"))
        .env_remove("SPOONHARBOR_ARCHIVE")
        .env_remove("RATTLE_HOME");
    run(&mut command, b"")
}

/// One sentence says what is missing.
#[test]
fn a_missing_toolchain_is_told() {
    let nothing = bare("no-toolchain", &[]);
    let no_rt = bare("no-rt", &["cargo"]);
    let calls: [(&Folder, &[&str], &str); 4] = [
        (&nothing, &["./check", "probe"], "check: Rust is missing: "),
        (
            &no_rt,
            &["./check", "probe"],
            "check: the Rattle toolchain is missing: ",
        ),
        (
            &nothing,
            &["./list", "probe"],
            "list: the Rattle toolchain is missing: ",
        ),
        (
            &nothing,
            &["./install", "--prefix", "there"],
            "install: the Rattle toolchain is missing: ",
        ),
    ];
    for (folder, arguments, complaint) in calls {
        let ran = run_bare(folder, arguments);
        assert!(ran.complaints.starts_with(complaint), "{}", ran.complaints);
        assert_eq!(ran.complaints.lines().count(), 1, "{}", ran.complaints);
        assert_eq!((ran.out.as_str(), ran.status), ("", 2));
    }
}

/// How long a step takes is what was measured here, and for crates that of the most crates.
#[test]
fn times_are_measured() {
    let folder = bare("took", &[]);
    let took = |arguments: &[&str]| {
        let mut command = folder.program("tools/took");
        run(command.args(arguments), b"").out
    };
    let unknown = "how long it takes is not yet measured on this machine";
    assert_eq!(took(&["prove"]), unknown);
    assert!(run(folder.program("./check").arg("--help"), b"")
        .out
        .contains(unknown));
    took(&["prove", "443", "60"]);
    let known = "443 s for 60 crates when last measured on this machine";
    assert_eq!(took(&["prove"]), known);
    took(&["prove", "7", "2"]);
    assert_eq!(took(&["prove"]), known);
    for name in ["./check", "./list", "./install"] {
        let ran = run(folder.program(name).arg("--help"), b"");
        assert!(ran.out.contains(known), "{name}: {}", ran.out);
    }
    took(&["prove", "500", "60"]);
    assert!(took(&["prove"]).starts_with("500 s"));
    took(&["command", "9"]);
    took(&["command", "8"]);
    assert_eq!(took(&["command"]), "8 s when last measured on this machine");
}

/// A repository whose command is a script: a built command is run as it is, and built anew if something that it is made of is newer.
#[test]
fn the_command_is_built_only_if_it_is_old() {
    let folder = bare("old", &[]);
    folder.executable("bin/cargo", "#!/bin/sh\necho built >&2\n");
    folder.executable("bin/touch", "#!/bin/sh\nexit 0\n");
    fs::create_dir_all(folder.0.join("rust/target/release")).unwrap();
    fs::create_dir_all(folder.0.join("crates/a/specs")).unwrap();
    folder.file("crates/a/specs/Lib.antt", "");
    let later = std::time::SystemTime::now() + std::time::Duration::from_secs(60);
    let program = "rust/target/release/spoonharbor";
    folder.executable(program, "#!/bin/sh\necho \"$@\"\n");
    let dated = |file: &str| {
        let file = fs::File::options().append(true).open(folder.0.join(file));
        file.unwrap().set_modified(later).unwrap();
    };
    dated(program);
    let checked = |link: &str| {
        let mut command = folder.program(link);
        command
            .arg("probe")
            .env("PATH", folder.0.join("bin"))
            .env("SPOONHARBOR_ARCHIVE", "there");
        let ran = run(&mut command, b"");
        assert_eq!((ran.out.as_str(), ran.status), ("check probe\n", 0));
        ran.complaints
    };
    assert_eq!(checked("./check"), "");
    symlink("check", folder.0.join("link")).unwrap();
    assert_eq!(checked("./link"), "");
    let later = later + std::time::Duration::from_secs(1);
    let sources = fs::File::open(folder.0.join("crates/a/specs")).unwrap();
    sources.set_modified(later).unwrap();
    let said = checked("./check");
    assert!(
        said.starts_with("check: building the command: ") && said.ends_with("built\n"),
        "{said}"
    );
}

/// Every example is sound and in style, and nothing is warned of.
#[test]
fn every_example_is_ok() {
    let mut examples: Vec<String> = fs::read_dir(script("examples"))
        .unwrap()
        .map(|entry| entry.unwrap().file_name().into_string().unwrap())
        .collect();
    examples.sort();
    assert_eq!(examples.len(), 5);
    for example in examples {
        let mut command = Command::new(env!("CARGO_BIN_EXE_spoonharbor"));
        command
            .current_dir(script("examples"))
            .args(["check", "--style", "--deny", "warnings", &example]);
        let ran = run(&mut command, b"");
        assert!(
            ran.out.starts_with(&format!("{example}: ok, ")),
            "{}",
            ran.out
        );
        assert_eq!((ran.out.lines().count(), ran.status), (1, 0));
    }
}

/// The programs of the page by example are sound, and what it says is refused is, with the number beside it.
#[test]
fn the_page_by_example_is_right() {
    let page = fs::read_to_string(script("docs/BY-EXAMPLE.md")).unwrap();
    let mut blocks = page.split("```");
    let (mut sound, mut refused) = (0, 0);
    while let (Some(_), Some(block)) = (blocks.next(), blocks.next()) {
        let (kind, text) = block.split_once('\n').unwrap();
        let tree = spoonharbor::Document::open(text)
            .unwrap()
            .tree()
            .map(|_| ());
        match kind.strip_prefix("refused ") {
            Some(number) => {
                assert_eq!(tree.unwrap_err().number().to_string(), number, "{text}");
                refused += 1;
            }
            None => {
                assert_eq!((kind, tree), ("solnix", Ok(())), "{text}");
                sound += 1;
            }
        }
    }
    assert!(sound >= 8 && refused >= 8, "{sound} {refused}");
}

/// A toolchain that says what `rt` says: each crate that it proves has its line, and one that is not proved is trouble.
#[test]
fn each_crate_is_told() {
    let folder = bare("told", &["cargo"]);
    for part in ["scan/src", "rules/out/rlib"] {
        fs::create_dir_all(folder.0.join("crates").join(part)).unwrap();
    }
    let says = |lines: &str, status: i32| {
        let told = format!("#!/bin/sh\npwd\ncat <<'END'\n{lines}\nEND\nexit {status}\n");
        folder.executable("bin/rt", told);
        let mut command = folder.program("tools/prove");
        command.args(["check", "scan"]);
        run(command.env("PATH", folder.0.join("bin")), b"")
    };
    let said = "rt: chose --jobs 2 for laws\nfn laws::f: proved\nlogic=proved functions=1 sum=0\n\
                rt: chose --jobs 1 for scan\nlogic=proved functions=9 sum=0";
    let ran = says(said, 0);
    let lines: Vec<&str> = ran.complaints.lines().collect();
    let told = lines[0].strip_prefix("check: proving ").unwrap();
    let (total, _) = told.split_once(" crates, with a line for each: ").unwrap();
    assert!(total.parse::<usize>().unwrap() > 3, "{told}");
    let without_times = |line: &str| line.split(" (").next().unwrap().to_string();
    assert_eq!(
        lines[1..]
            .iter()
            .map(|line| without_times(line))
            .collect::<Vec<_>>(),
        [
            format!("check: 1 of {total}: laws proved"),
            format!("check: 2 of {total}: scan proved")
        ]
    );
    assert!(lines[2].ends_with(" s)"), "{}", lines[2]);
    let measured = fs::read_to_string(folder.0.join("target/took/prove")).unwrap();
    assert!(measured.ends_with(" 2\n"), "{measured}");
    let whole = fs::read_to_string(folder.0.join("target/prove.say")).unwrap();
    assert!(whole.starts_with(&format!("{}\n", folder.0.join("crates/scan").display())));
    assert_eq!((ran.out.as_str(), ran.status), ("", 0));

    // One of the crates was proved before.
    folder.file("crates/rules/out/rlib/stamp", "");
    let ran = says(said, 0);
    let lines: Vec<&str> = ran.complaints.lines().collect();
    assert!(lines[0].starts_with(&format!(
        "check: proving what has changed of {total} crates, 1 of which were proved before; "
    )));
    assert!(lines[1].starts_with(&format!("check: 2 of {total}: laws proved (")));

    let ran = says(
        "rt: chose --jobs 2 for rules\nfn rules::f: not proved\nlogic=not-proved\n\
                    rt: the library rules did not build, so nothing above it was checked",
        1,
    );
    for said in [
        "check: rules NOT PROVED\n",
        "check: the library rules did not build, so nothing above it was checked\n",
        "target/prove.say",
    ] {
        assert!(ran.complaints.contains(said), "{}", ran.complaints);
    }
    assert_eq!(ran.status, 2);
}
