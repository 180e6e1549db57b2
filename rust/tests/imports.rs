//! The crate's files stand in layers: none imports itself, through however many others.

use std::collections::{BTreeMap, BTreeSet};
use std::fs;
use std::path::Path;

/// The files below `src`, each with those that its code names, tests left aside.
fn imports() -> BTreeMap<String, BTreeSet<String>> {
    let sources = Path::new(env!("CARGO_MANIFEST_DIR")).join("src");
    let entries = fs::read_dir(sources).unwrap().map(Result::unwrap);
    let files = entries.filter_map(|entry| {
        let name = entry.file_name().into_string().ok()?;
        let source = fs::read_to_string(entry.path()).ok()?;
        let code = source.split("#[cfg(test)]").next()?;
        let named = code.split("crate::").skip(1).filter_map(|rest| {
            let end = rest.find(|letter: char| !letter.is_ascii_lowercase() && letter != '_')?;
            Some(rest[..end].to_string())
        });
        Some((name.strip_suffix(".rs")?.to_string(), named.collect()))
    });
    files.collect()
}

#[test]
fn no_file_imports_itself() {
    let imports = imports();
    assert!(imports["lent"].contains("ffi") && imports["table"].contains("form"));
    for file in imports.keys() {
        let mut reached = BTreeSet::new();
        let mut waiting = vec![file];
        while let Some(next) = waiting.pop() {
            let named = imports.get(next).into_iter().flatten();
            waiting.extend(named.filter(|name| reached.insert(*name)));
        }
        assert!(!reached.contains(file), "{file} imports itself");
    }
}
