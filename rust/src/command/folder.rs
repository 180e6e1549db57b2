//! The probes that an argument of `check`, `layout` or `figures` names: a file, or all `*.snx` in a folder and those in it.

use super::source::Trouble;
use std::ffi::{OsStr, OsString};
use std::fs;
use std::io;
use std::path::Path;

/// The files that an argument stands for, those of a folder in the order of their names. Links to folders are not
/// followed.
pub fn probes(argument: &OsStr) -> Result<Vec<OsString>, Trouble> {
    if argument == "-" || !Path::new(argument).is_dir() {
        return Ok(vec![argument.to_os_string()]);
    }
    let mut found = Vec::new();
    let mut waiting = vec![Path::new(argument).to_path_buf()];
    while let Some(folder) = waiting.pop() {
        let entries = fs::read_dir(&folder).and_then(Iterator::collect::<io::Result<Vec<_>>>);
        let entries = entries.map_err(|error| Trouble::new(folder.as_os_str(), error))?;
        for entry in entries {
            let path = entry.path();
            if entry.file_type().is_ok_and(|kind| kind.is_dir()) {
                waiting.push(path);
            } else if path.extension() == Some(OsStr::new("snx")) {
                found.push(path.into_os_string());
            }
        }
    }
    found.sort();
    match found.is_empty() {
        true => Err(Trouble::new(
            argument,
            io::Error::other("no *.snx file is in this folder"),
        )),
        false => Ok(found),
    }
}
