//! How the archive is compiled: all that the toolchain says to its compiler is kept, and what is said besides is of
//! functions that are there.

mod shared;

use shared::{repository, run, Folder, Ran};
use std::fs;

/// A module as the toolchain writes it, with a function of every name that `tools/inlined.txt` lists.
fn module() -> String {
    let list = include_str!("../../tools/inlined.txt");
    let mut module = "target datalayout = \"e-m:e-p270:32:32\"\n\
                      target triple = \"x86_64-unknown-linux-gnu\"\n"
        .to_string();
    for line in list.lines() {
        let words: Vec<&str> = line.split('#').next().unwrap().split_whitespace().collect();
        let (name, body) = match words[..] {
            [] => continue,
            ["into", caller, name] => (caller, format!("  call void @\"{name}\"(i32 %a0)\n")),
            [_, name] => (name, "  ret void\n".to_string()),
            _ => panic!("{line}"),
        };
        let name = name.replace('*', "some_name");
        module += &format!("define internal void @\"{name}\"(i32 %a0) #0 {{\n{body}}}\n");
    }
    module + "attributes #0 = { nounwind \"target-cpu\"=\"x86-64\" }\n"
}

/// A compiler that gives the module back as text when it is asked for text, and otherwise says what it was told, a
/// word to a line.
const COMPILER: &str = "#!/bin/sh
for word in \"$@\"; do [ \"$word\" != module.bc.ll ] || { cp text module.bc.ll; exit 0; }; done
printf '%s\\n' \"$@\"
";

/// What the toolchain says to its compiler for x86-64.
const WORDS: [&str; 21] = [
    "--target=x86_64-unknown-linux-gnu",
    "-march=x86-64",
    "-ffunction-sections",
    "-fdata-sections",
    "-mllvm",
    "-trap-unreachable",
    "-mllvm",
    "-no-trap-after-noreturn",
    "--no-default-config",
    "-no-canonical-prefixes",
    "-fintegrated-cc1",
    "-fno-crash-diagnostics",
    "-Werror",
    "-c",
    "-x",
    "ir",
    "module.bc",
    "-o",
    "module.o",
    "-fPIC",
    "-O3",
];

/// A folder with the tools that compile, the compiler above and a module.
fn room(name: &str, list: &str, module: &str) -> Folder {
    let folder = Folder::new(name);
    fs::create_dir(folder.0.join("tools")).unwrap();
    for tool in ["compile", "mark.awk", "retarget"] {
        let path = format!("tools/{tool}");
        folder.executable(&path, fs::read(repository().join(&path)).unwrap());
    }
    folder.file("tools/inlined.txt", list);
    folder.file("text", module);
    folder.executable("clang", COMPILER);
    folder
}

/// What it says for a processor, where it compiles in one step.
fn words(processor: &str) -> Vec<&'static str> {
    let arm = |word| match word {
        "--target=x86_64-unknown-linux-gnu" => "--target=aarch64-unknown-linux-gnu",
        "-march=x86-64" => "-march=armv8-a",
        word => word,
    };
    match processor {
        "x86_64" => WORDS.to_vec(),
        _ => WORDS.map(arm).to_vec(),
    }
}

/// What it says in the first of two steps, which gives it text, and in the second, in which it compiles what it made of that.
fn steps() -> [Vec<&'static str>; 2] {
    let mut first = words("aarch64");
    first.retain(|word| *word != "-c");
    let at = first.iter().position(|word| *word == "module.o").unwrap();
    first[at] = "printed.ll";
    first.extend(["-S", "-emit-llvm", "-Xclang", "-emit-llvm-uselists"]);
    let mut second = words("aarch64");
    let at = second.iter().position(|word| *word == "module.bc").unwrap();
    second[at] = "rewritten.ll";
    second.extend(["-Xclang", "-disable-llvm-passes"]);
    [first, second]
}

fn compiled_by(folder: &Folder, processor: &str, words: &[&str]) -> Ran {
    let mut command = folder.program("tools/compile");
    command.args(["./clang", processor]).args(words);
    run(&mut command, b"")
}

fn compiled(folder: &Folder, processor: &str) -> Ran {
    compiled_by(folder, processor, &words(processor))
}

fn listed() -> &'static str {
    include_str!("../../tools/inlined.txt")
}

#[test]
fn all_that_the_toolchain_says_is_kept() {
    let folder = room("kept", listed(), &module());
    let [first, second] = steps();
    for (processor, words) in [
        ("x86_64", words("x86_64")),
        ("aarch64", words("aarch64")),
        ("aarch64", first),
        ("aarch64", second),
    ] {
        let ran = compiled_by(&folder, processor, &words);
        assert_eq!((ran.complaints.as_str(), ran.status), ("", 0));
        let told: Vec<&str> = ran.out.lines().collect();
        let kept: Vec<&str> = words
            .iter()
            .map(|word| match *word {
                "module.bc" => "module.bc.own.ll",
                word => word,
            })
            .collect();
        assert_eq!(told[..words.len()], kept, "{processor}");
        assert!(told.len() > words.len());
        let branches = told.contains(&"-mbranches-within-32B-boundaries");
        assert_eq!(branches, processor == "x86_64");
    }
}

#[test]
fn what_is_listed_is_marked() {
    let folder = room("marked", listed(), &module());
    for processor in ["x86_64", "aarch64"] {
        compiled(&folder, processor);
        let own = fs::read_to_string(folder.0.join("module.bc.own.ll")).unwrap();
        assert!(own.contains("@\"scan_runs::read_word\"(i32 %a0) alwaysinline #0 {"));
        assert!(own.contains("@\"parse_expr::some_name\"(i32 %a0) inlinehint #0 {"));
        assert!(own.contains("call void @\"scan_walk::walk\"(i32 %a0) alwaysinline\n"));
        let marks = [" alwaysinline", " inlinehint"];
        let unmarked = marks.iter().fold(own, |own, mark| own.replace(mark, ""));
        assert_eq!(unmarked, module());
        fs::remove_file(folder.0.join("module.bc.own.ll")).unwrap();
    }
}

/// What the toolchain made itself of the first step's text has no more functions to be marked.
#[test]
fn the_second_step_is_not_marked() {
    let folder = room("second", listed(), "");
    let [first, second] = steps();
    assert_eq!(compiled_by(&folder, "aarch64", &first).status, 1);
    let kept = folder.0.join("kept.ll");
    let mut command = folder.program("tools/compile");
    command.args(["./clang", "aarch64"]).args(&second);
    let ran = run(command.env("SPOONHARBOR_MODULE", &kept), b"");
    assert_eq!((ran.complaints.as_str(), ran.status), ("", 0));
    assert!(ran.out.contains("\nrewritten.ll\n"));
    assert!(!kept.exists());
}

#[test]
fn the_marked_module_is_kept_where_that_is_asked() {
    let folder = room("kept-module", listed(), &module());
    for processor in ["x86_64", "aarch64"] {
        let kept = folder.0.join(format!("{processor}.ll"));
        let mut command = folder.program("tools/compile");
        command.args(["./clang", processor]).args(words(processor));
        let ran = run(command.env("SPOONHARBOR_MODULE", &kept), b"");
        assert_eq!((ran.complaints.as_str(), ran.status), ("", 0));
        let kept = fs::read_to_string(kept).unwrap();
        assert!(kept.contains("target triple = \"x86_64-unknown-linux-gnu\"\n"));
        assert!(kept.contains("@\"scan_runs::read_word\"(i32 %a0) alwaysinline #0 {"));
    }
}

#[test]
fn a_name_that_is_nowhere_is_an_error() {
    for (line, said) in [
        ("always scan::gone", "always scan::gone"),
        ("rather gone_*::*", "rather gone_*::*"),
        ("into scan::scan scan::gone", "into scan::scan scan::gone"),
        (
            "into scan::gone scan_walk::walk",
            "into scan::gone scan_walk::walk",
        ),
        ("sometimes scan::scan", "sometimes scan::scan"),
    ] {
        let list = format!("{}{line}\n", listed());
        let folder = room("nowhere", &list, &module());
        let ran = compiled(&folder, "x86_64");
        assert!(ran.complaints.contains(said), "{}", ran.complaints);
        assert_eq!((ran.out.as_str(), ran.status), ("", 1));
    }
}

/// The toolchain names a module and its target, and writes an archive for two kinds of processor.
#[test]
fn what_the_toolchain_does_not_say_is_an_error() {
    let folder = room("unsaid", listed(), &module());
    for (word, said) in [
        ("ir", "compile: the toolchain names no module: "),
        (WORDS[0], "compile: the toolchain names no target: "),
    ] {
        let mut words = WORDS.to_vec();
        words.retain(|other| *other != word);
        let ran = compiled_by(&folder, "x86_64", &words);
        assert!(ran.complaints.starts_with(said), "{}", ran.complaints);
        assert_eq!((ran.out.as_str(), ran.status), ("", 1));
    }
}

/// Nothing is proved, let alone compiled, for a processor that the toolchain knows nothing of.
#[test]
fn a_processor_of_another_kind_is_told() {
    let folder = room("unknown", listed(), &module());
    folder.executable(
        "tools/archive",
        fs::read(repository().join("tools/archive")).unwrap(),
    );
    let ran = run(folder.program("tools/archive").arg("riscv64"), b"");
    assert_eq!(
        ran.complaints,
        "archive: the toolchain writes no archive for riscv64\n"
    );
    assert_eq!((ran.out.as_str(), ran.status), ("", 2));
}

/// A module for x86-64 that is at hand as text, compiled for another processor.
#[test]
fn a_module_that_speaks_of_another_processor_is_not_retargeted() {
    let retargeted = |folder: &Folder, processor: &str| {
        let mut command = folder.program("tools/retarget");
        command.args(["./clang", processor, "text"]).args(WORDS);
        run(&mut command, b"")
    };
    let more = module() + "declare <2 x i64> @llvm.x86.sse2.psad.bw(<16 x i8>, <16 x i8>)\n";
    let folder = room("speaks", listed(), &more);
    assert_eq!(compiled(&folder, "x86_64").status, 0);
    let ran = retargeted(&folder, "aarch64");
    assert!(ran
        .complaints
        .ends_with("retarget: the module speaks of x86-64\n"));
    assert_eq!((ran.out.as_str(), ran.status), ("", 1));
    let folder = room("unknown-retargeted", listed(), &module());
    let ran = retargeted(&folder, "riscv64");
    assert_eq!(ran.complaints, "retarget: no module is made for riscv64\n");
    assert_eq!((ran.out.as_str(), ran.status), ("", 1));
}
