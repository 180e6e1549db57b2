//! `spoonharbor rows`: a line for each row: its number, place, bytes, kind, spelling and value, and the comments before it.

use super::columns::shown;
use spoonharbor::{Document, Kind, Refusal, Row, Table};
use std::io::{self, Write};

/// Prints the rows; gives back the refusal that they end in.
pub fn print(document: &Document, out: &mut impl Write) -> io::Result<Result<(), Refusal>> {
    for (number, row) in document.rows().enumerate() {
        let spelling = document.spelling(number).unwrap_or_default();
        print_row(number, &row, &told(&row, spelling), out)?;
    }
    Ok(document.refusal().map_or(Ok(()), Err))
}

/// Prints the rows of a table whose text is not at hand, so that there are no spellings.
pub fn print_unspelt(table: &Table, out: &mut impl Write) -> io::Result<()> {
    for (number, row) in table.rows().enumerate() {
        let told = match row.kind {
            Kind::Number => format!("{} = {}", row.kind, row.value),
            kind => kind.to_string(),
        };
        print_row(number, &row, &told, out)?;
    }
    Ok(())
}

fn print_row(number: usize, row: &Row, told: &str, out: &mut impl Write) -> io::Result<()> {
    let place = format!("{}:{}", row.line, row.column);
    let bytes = format!("{}..{}", row.start, row.end);
    let comments = match row.comments {
        0 => String::new(),
        1 => ", 1 comment before".to_string(),
        count => format!(", {count} comments before"),
    };
    writeln!(out, "{number:>5}  {place:<9} {bytes:<13} {told}{comments}")
}

/// The kind, and what it does not say itself.
fn told(row: &Row, spelling: &str) -> String {
    match row.kind {
        Kind::Number => format!("{} {spelling} = {}", row.kind, row.value),
        Kind::Identifier | Kind::StringLiteral => {
            format!("{} {}", row.kind, shown(spelling))
        }
        kind => kind.to_string(),
    }
}
