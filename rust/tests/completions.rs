//! Completions of shells: they know each verb and option that the command tells of.

mod shared;

use shared::{repository, run, Folder};
use std::collections::BTreeSet;
use std::fs;
use std::process::Command;

/// The verbs that the command tells, in its order.
fn verbs(folder: &Folder) -> Vec<String> {
    let told = folder.run(&["--help"]).out;
    let mut verbs: Vec<String> = Vec::new();
    for line in told.lines() {
        let words = line.split("spoonharbor ").nth(1).unwrap_or_default();
        let verb = words.split(' ').next().unwrap_or_default();
        let is_verb = !verb.is_empty() && verb.chars().all(|letter| letter.is_ascii_lowercase());
        if is_verb && !verbs.iter().any(|known| known == verb) {
            verbs.push(verb.to_string());
        }
    }
    verbs
}

/// The options of a verb, as its usage line has them.
fn options(folder: &Folder, verb: &str) -> BTreeSet<String> {
    let told = folder.run(&[verb, "--help"]).out;
    let usage = told.lines().next().unwrap_or_default();
    let words = usage.split(|letter: char| " []".contains(letter));
    let is_option = |word: &&str| word.starts_with('-') && *word != "--" && *word != "-";
    let named = words.filter(is_option).map(str::to_string);
    named.chain(["--help".to_string()]).collect()
}

/// What bash offers for some words, the last of them being typed.
fn offered(words: &[&str]) -> Vec<String> {
    let file = repository().join("tools/completions/spoonharbor.bash");
    let script = format!(
        ". '{}'; COMP_WORDS=(\"$@\") COMP_CWORD=$(($# - 1)); _spoonharbor; printf '%s\\n' \"${{COMPREPLY[@]}}\"",
        file.display()
    );
    let mut command = Command::new("bash");
    command.args(["--norc", "-c", &script, "bash"]).args(words);
    let ran = run(&mut command, b"");
    assert_eq!((ran.complaints.as_str(), ran.status), ("", 0));
    let lines = ran.out.lines().filter(|line| !line.is_empty());
    lines.map(str::to_string).collect()
}

#[test]
fn bash_knows_verbs_and_options() {
    let folder = Folder::new("bash");
    let verbs = verbs(&folder);
    assert_eq!(verbs.len(), 10);
    let more = ["--help", "--version"].map(str::to_string);
    assert_eq!(offered(&["spoonharbor", ""]), [&verbs[..], &more].concat());
    assert_eq!(offered(&["spoonharbor", "ex"]), ["explain"]);
    for verb in &verbs {
        let known: BTreeSet<String> = offered(&["spoonharbor", verb, "-"]).into_iter().collect();
        assert_eq!(known, options(&folder, verb), "{verb}");
    }
    let colour = offered(&["spoonharbor", "check", "--color", "a"]);
    assert_eq!(colour, ["auto", "always"]);
}

/// Of fish and zsh, which need not be here, the files are read.
#[test]
fn fish_and_zsh_know_verbs_and_options() {
    let folder = Folder::new("shells");
    let read = |name: &str| fs::read_to_string(repository().join("tools/completions").join(name));
    let (fish, zsh) = (
        read("spoonharbor.fish").unwrap(),
        read("_spoonharbor").unwrap(),
    );
    for verb in verbs(&folder) {
        assert!(fish.contains(&format!(" -a {verb} ")), "{verb} in fish");
        assert!(zsh.contains(&format!("'{verb}:")), "{verb} in zsh");
        for option in options(&folder, &verb) {
            let word = option.trim_start_matches('-');
            let in_fish = [format!(" -l {word} "), format!(" -s {word} ")];
            assert!(
                in_fish.iter().any(|text| fish.contains(text)),
                "{option} in fish"
            );
            assert!(zsh.contains(&format!("'{option}[")), "{option} in zsh");
        }
    }
}
