//! Every call of the C face has all that a call has: an instance of `Tight`, a theorem over its own contract, that its
//! export has this contract, a row in PROMISES, a line in the header, a function in `lent`, and a bound of its stack. It is
//! read from the repository's files, so that none of it is forgotten of the next call.

use std::collections::BTreeSet;
use std::fs;
use std::path::{Path, PathBuf};

/// Calls of whose contract no theorem is asked, each with the reason.
const PLAIN: [(&str, &str); 1] = [(
    "spoonharbor_version",
    "its contract is one number, and there is nothing else to say of it",
)];

fn repository() -> PathBuf {
    Path::new(env!("CARGO_MANIFEST_DIR")).join("..")
}

fn text(file: &str) -> String {
    let path = repository().join(file);
    fs::read_to_string(&path).unwrap_or_else(|error| panic!("{}: {error}", path.display()))
}

/// The files below a folder that end so.
fn files_below(folder: &Path, ending: &str) -> Vec<PathBuf> {
    let mut found = Vec::new();
    for entry in fs::read_dir(folder).unwrap() {
        let path = entry.unwrap().path();
        if path.is_dir() {
            found.extend(files_below(&path, ending));
        } else if path.to_string_lossy().ends_with(ending) {
            found.push(path);
        }
    }
    found.sort();
    found
}

/// The functions that are marked `#[unsafe(no_mangle)]`, in any crate.
fn calls() -> BTreeSet<String> {
    let mut calls = BTreeSet::new();
    for crate_folder in fs::read_dir(repository().join("crates")).unwrap() {
        for file in files_below(&crate_folder.unwrap().path().join("src"), ".rt") {
            let source = fs::read_to_string(&file).unwrap();
            for marked in source.split("#[unsafe(no_mangle)]").skip(1) {
                let named = marked.split_once("extern \"C\" fn ").map(|(_, rest)| rest);
                let name = named.and_then(|rest| rest.split_once('('));
                let (name, _) =
                    name.unwrap_or_else(|| panic!("{}: a mark without a call", file.display()));
                calls.insert(name.to_string());
            }
        }
    }
    calls
}

/// A text's words, with one blank between.
fn in_one_line(text: &str) -> String {
    text.split_whitespace().collect::<Vec<_>>().join(" ")
}

/// What a proof file states in public: each signature up to where its name stands again, behind the telescopes of the
/// modules around it, in one line.
fn statements(proofs: &str) -> Vec<String> {
    let lines: Vec<&str> = proofs.lines().collect();
    let mut modules: Vec<(usize, String)> = Vec::new();
    let mut found = Vec::new();
    for (at, line) in lines.iter().enumerate() {
        let stated = line.trim_start();
        if stated.is_empty() {
            continue;
        }
        let depth = line.len() - stated.len();
        modules.retain(|(around, _)| *around < depth);
        if stated.starts_with("module ") {
            let open = lines[at..]
                .iter()
                .take_while(|line| !line.ends_with(" where"));
            let whole = lines[at..at + open.count() + 1].join(" ");
            modules.push((depth, in_one_line(&whole)));
        } else if let Some(stated) = stated.strip_prefix("pub ") {
            let name = stated.split(' ').next().unwrap_or_default();
            let rest = lines[at + 1..].iter().map(|line| line.trim_start());
            let rest = rest.take_while(|line| !ends_signature(line, name));
            let around = modules.iter().map(|(_, module)| module.as_str());
            let whole: Vec<&str> = around.chain([stated]).chain(rest).collect();
            found.push(in_one_line(&whole.join(" ")));
        }
    }
    found
}

/// Whether a line is behind the signature of this name: the name's own definition, or something else.
fn ends_signature(line: &str, name: &str) -> bool {
    let first = line.split(' ').next().unwrap_or_default();
    line.is_empty() || ["pub", "unfolding", "--", "module", name].contains(&first)
}

/// The names under which a file brings in this one of a module's, where the module's path is right.
fn brought_in(file: &str, name: &str, is_path: impl Fn(&str) -> bool) -> Vec<String> {
    let brought = file.lines().filter_map(|line| {
        let (path, names) = line.strip_prefix("use ")?.split_once(".{")?;
        is_path(path).then_some(names)
    });
    let names = brought.flat_map(|names| names.trim_end_matches('}').split(", "));
    let named = names.filter_map(|brought| match brought.split_once(" as ") {
        Some((own, other)) if own == name => Some(other.to_string()),
        None if brought == name => Some(name.to_string()),
        _ => None,
    });
    named.collect()
}

/// The names of a call's contract, `Post`, in a file.
fn names_of_post(file: &str, call: &str) -> Vec<String> {
    let path = format!(".{call}.Reads");
    let mut names = brought_in(file, "Post", |brought| brought.ends_with(&path));
    names.push(format!("{call}.Reads.Post"));
    names
}

fn speaks_of(text: &str, names: &[String]) -> bool {
    let mut words = text.split([' ', '\n', '(', ')', '{', '}']);
    words.any(|word| names.iter().any(|name| name == word))
}

/// A file of a crate's definitions or proofs: the crate, the module, the text.
struct File {
    of: String,
    module: String,
    text: String,
}

/// The definitions (`specs`) or proofs of all crates.
fn files_of(part: &str) -> Vec<File> {
    let mut found = Vec::new();
    for entry in fs::read_dir(repository().join("crates")).unwrap() {
        let folder = entry.unwrap().path();
        if !folder.join(part).is_dir() {
            continue;
        }
        for path in files_below(&folder.join(part), ".antt") {
            found.push(File {
                of: folder.file_name().unwrap().to_string_lossy().into_owned(),
                module: path.file_stem().unwrap().to_string_lossy().into_owned(),
                text: fs::read_to_string(&path).unwrap(),
            });
        }
    }
    found
}

/// What is defined in public with a call's contract in it, as the call as it was made: crate, module and name.
fn made_of_post<'a>(call: &str, specs: &'a [File]) -> Vec<(&'a File, &'a str)> {
    let mut found = Vec::new();
    for file in specs.iter().filter(|file| file.text.contains(call)) {
        let posts = names_of_post(&file.text, call);
        for block in file.text.split("\n\n") {
            let Some((_, defined)) = block.split_once("pub ") else {
                continue;
            };
            let defined = defined.strip_prefix("data ").unwrap_or(defined);
            if speaks_of(block, &posts) {
                found.push((file, defined.split(' ').next().unwrap_or_default()));
            }
        }
    }
    found
}

/// Whether a public statement speaks of a call's own contract, by itself or by what is defined with it.
fn has_theorem(call: &str, specs: &[File], proofs: &[File]) -> bool {
    let made = made_of_post(call, specs);
    proofs.iter().any(|proof| {
        let mut names = names_of_post(&proof.text, call);
        for (file, name) in &made {
            let (of, module) = (format!("Rattle.{}", file.of), format!(".{}", file.module));
            names.extend(brought_in(&proof.text, name, |path| {
                let own = path.strip_prefix(&of);
                own.is_some_and(|rest| rest.starts_with('.')) && path.ends_with(&module)
            }));
        }
        let mut stated = statements(&proof.text).into_iter();
        stated.any(|stated| speaks_of(&stated, &names))
    })
}

/// Whether there is a public function of `lent` that makes the call.
fn is_lent(call: &str, lent: &str) -> bool {
    let Some((before, _)) = lent.split_once(&format!("ffi::{call}(")) else {
        return false;
    };
    let function = before.lines().rev().find(|line| line.contains("fn "));
    function.is_some_and(|line| line.starts_with("pub fn "))
}

/// Whether PROMISES has a row of the call, with a promise and wrong programs.
fn is_promised(call: &str, promises: &str) -> bool {
    promises.lines().any(|line| {
        let cells: Vec<&str> = line.split(" | ").collect();
        cells.len() >= 3
            && cells[0] == format!("| `{call}`")
            && cells.iter().all(|cell| !cell.trim().is_empty())
    })
}

/// Whether the header declares the call.
fn is_declared(call: &str, header: &str) -> bool {
    ["void", "uint32_t"].iter().any(|answer| {
        let line = format!("{answer} {call}(");
        header.lines().any(|declared| declared.starts_with(&line))
    })
}

#[test]
fn every_call_has_all_that_a_call_has() {
    let (specs, proofs) = (files_of("specs"), files_of("proofs"));
    let tight = statements(&text("crates/spoonharbor/proofs/Tight.antt"));
    let same = statements(&text("crates/spoonharbor_c/proofs/Same.antt"));
    let is_stated = |stated: String| same.contains(&stated);
    let promises = text("docs/PROMISES.md");
    let header = text("include/spoonharbor.h");
    let lent = text("rust/src/lent.rs");
    let stack = text("compare/tests/stack.rs");

    let calls = calls();
    assert!(calls.len() >= 16, "{calls:?}");
    let mut lacks = Vec::new();
    for call in &calls {
        let short = call.strip_prefix("spoonharbor_").unwrap_or(call);
        let instance = format!(
            ": Tight {call}.Kinds.ps {call}.Kinds.r {call}.Reads.Asked {call}.Reads.Learnt"
        );
        let plain = PLAIN.iter().any(|(name, _)| name == call);
        let parts = [
            (
                "no instance of Tight in crates/spoonharbor/proofs/Tight.antt",
                tight.iter().any(|stated| stated.ends_with(&instance)),
            ),
            (
                "no theorem over its Post in crates/*/proofs",
                plain || has_theorem(call, &specs, &proofs),
            ),
            (
                "no export with its contract in crates/spoonharbor_c/proofs/Same.antt",
                is_stated(format!(
                    "same_{short}_asked : exported_{short}.Pre ≡ of_{short}.Pre"
                )) && is_stated(format!(
                    "same_{short} : exported_{short}.Post ≡ of_{short}.Post"
                )),
            ),
            ("no row in docs/PROMISES.md", is_promised(call, &promises)),
            (
                "no line in include/spoonharbor.h",
                is_declared(call, &header),
            ),
            ("no function in rust/src/lent.rs", is_lent(call, &lent)),
            (
                "no bound in compare/tests/stack.rs",
                stack.contains(&format!("    (\"{short}\", ")),
            ),
        ];
        let missing = parts.iter().filter(|(_, there)| !there);
        lacks.extend(missing.map(|(what, _)| format!("{call}: {what}")));
    }
    assert!(lacks.is_empty(), "\n{}", lacks.join("\n"));

    for (call, reason) in PLAIN {
        assert!(calls.contains(call), "{call} is no call");
        assert!(
            !has_theorem(call, &specs, &proofs),
            "{call} has a theorem and needs no exception ({reason})"
        );
    }
}

/// What is read of a proof file is what it states.
#[test]
fn statements_are_read_whole() {
    let proofs = "use Rattle.x.proofs.spoonharbor_a.Reads.{Post as APost}\n\
        -- APost is spoken of\n\
        module _ {a : b}\n    (s : Made a) where\n  \
          pub one : APost a →\n      b\n  one p = p\n\n  \
          pub four : b\n  unfolding APost\n  four = 1\n\n\
        two : b\n\
        pub three : (p : b) → c\n\
        three APost = 1\n";
    let around = "module _ {a : b} (s : Made a) where";
    let stated = [
        format!("{around} one : APost a → b"),
        format!("{around} four : b"),
        "three : (p : b) → c".to_string(),
    ];
    assert_eq!(statements(proofs), stated);
}

/// A theorem is found where it names the contract, and where it names what is defined with it.
#[test]
fn theorems_are_found_by_what_they_name() {
    let file = |of: &str, module: &str, text: &str| File {
        of: of.to_string(),
        module: module.to_string(),
        text: text.to_string(),
    };
    let post = "use Rattle.x.proofs.spoonharbor_a.Reads.{Post as APost}\n\n";
    let specs = [file(
        "y",
        "Calls",
        &format!("{post}-- made\npub data Made : Type 0 where\n  made : APost → Made\n"),
    )];
    let brings = "use Rattle.y.specs.Calls.{Made, made}\n\n";
    let other = "use Rattle.z.specs.Calls.{Made}\n\n";
    for (proofs, found) in [
        (format!("{post}pub t : APost → b\nt = 1\n"), true),
        (format!("{post}pub t : b\nt = APost\n"), false),
        (format!("{brings}pub t : Made → b\nt = 1\n"), true),
        (
            format!("{brings}module _ (s : Made) where\n  pub t : b\n  t = 1\n"),
            true,
        ),
        (format!("{other}pub t : Made → b\nt = 1\n"), false),
        ("pub t : Made → APost\nt = 1\n".to_string(), false),
    ] {
        let proofs = [file("y", "P", &proofs)];
        let has = has_theorem("spoonharbor_a", &specs, &proofs);
        assert_eq!(has, found, "{}", proofs[0].text);
        assert!(!has_theorem("spoonharbor_b", &specs, &proofs));
    }
}
