//! `spoonharbor store` and `load`: a text's table into a file, and a file's rows listed, with their text at hand or without.

use super::block::{says_short, BLOCK, LONGEST_FILE};
use super::source::{Source, Trouble};
use super::writing::write_table;
use super::{message, rows, Outcome};
use spoonharbor::{Document, Reason, Refusal, Table};
use std::ffi::OsStr;
use std::io::{self, Write};
use std::path::Path;

/// Stores the table of a text at a path, or says why it cannot be written. If the text scans only up to a place, it
/// stores the rows up to there and tells the refusal.
pub fn store(
    source: &Source,
    output: &OsStr,
    is_forced: bool,
    out: &mut impl Write,
) -> io::Result<Result<Outcome, Trouble>> {
    let table = match Document::open(source.bytes.clone()) {
        Ok(document) => document.table().clone(),
        Err(refusal) => return refused(source, &refusal, out).map(Ok),
    };
    let file = match table.store() {
        Ok(file) => file,
        Err(refusal) if refusal.reason == Reason::TextTooLong => {
            return refused(source, &refusal, out).map(Ok);
        }
        Err(refusal) => {
            writeln!(out, "{}: {refusal}", source.name)?;
            return Ok(Ok(Outcome::Refused));
        }
    };
    if let Err(trouble) = write_table(output, &file, source, is_forced) {
        return Ok(Err(trouble));
    }
    let rows = match table.rows().len() {
        1 => "1 row".to_string(),
        rows => format!("{rows} rows"),
    };
    let name = Path::new(output).display();
    writeln!(out, "{}: {rows} stored in {name}", source.name)?;
    match table.refusal() {
        None => Ok(Ok(Outcome::Fine)),
        Some(refusal) => refused(source, &refusal, out).map(Ok),
    }
}

/// Tells a text's refusal.
fn refused(source: &Source, refusal: &Refusal, out: &mut impl Write) -> io::Result<Outcome> {
    message::refused(source, refusal, out)?;
    Ok(Outcome::Refused)
}

/// Lists the rows of a stored table, read beside its text where that is given.
pub fn load(source: &Source, text: Option<&Source>, out: &mut impl Write) -> io::Result<Outcome> {
    let table = match loaded(&source.bytes, text) {
        Ok(table) => table,
        Err(complaint) => {
            writeln!(out, "{}: {complaint}", source.name)?;
            return Ok(Outcome::Refused);
        }
    };
    rows::print_unspelt(&table, out)?;
    match table.refusal() {
        None => Ok(Outcome::Fine),
        Some(refusal) => {
            writeln!(out, "{}: its text is refused at {refusal}", source.name)?;
            Ok(Outcome::Refused)
        }
    }
}

/// The table that a file holds, or what is wrong with the file. Of one that is too long not all was read.
fn loaded(file: &[u8], text: Option<&Source>) -> Result<Table, String> {
    if let Some(complaint) = too_long(file) {
        return Err(complaint);
    }
    let loaded = match text {
        Some(text) => Table::load_beside(&text.bytes, file),
        None => Table::load(file),
    };
    loaded.map_err(|refusal| match (refusal.reason, text) {
        (Reason::OtherForm, None) if says_short(file) => {
            "stored in form 2, which is read beside its text: --text names it".to_string()
        }
        _ => complaint(&refusal),
    })
}

/// What is said of a file that is longer than any.
pub fn too_long(file: &[u8]) -> Option<String> {
    (file.len() > LONGEST_FILE)
        .then(|| "longer than any stored table, which is at most 2,237,440 bytes".to_string())
}

/// What is said of a refused file; a damaged block is told with its bytes.
pub fn complaint(refusal: &Refusal) -> String {
    match refusal.reason {
        Reason::BadBlock(block) => damaged(block),
        _ => refusal.to_string(),
    }
}

/// What is said of a damaged block.
pub fn damaged(block: u32) -> String {
    let from = block as usize * BLOCK;
    format!(
        "{} (bytes {from} to {})",
        Reason::BadBlock(block),
        from + BLOCK - 1
    )
}
