//! Figures for programs: a JSON object on a line, or a line of CSV.

use super::Figures;
use crate::command::json::quoted;
use spoonharbor::Figure;
use std::io::{self, Write};

/// Prints figures as one JSON object: the file's name, or how many files they are of and how many were left out; then every count.
pub fn print_json(figures: &Figures, out: &mut impl Write) -> io::Result<()> {
    let head = match figures.name {
        Some(name) => format!("\"file\":{}", quoted(name)),
        None => format!(
            "\"files\":{},\"left_out\":{}",
            figures.files, figures.left_out
        ),
    };
    let counts = figures.tally.figures();
    let counts: Vec<String> = counts
        .map(|(figure, count)| format!("\"{}\":{count}", figure.name()))
        .collect();
    writeln!(out, "{{{head},{}}}", counts.join(","))
}

/// Prints the names of the columns.
pub fn print_csv_head(out: &mut impl Write) -> io::Result<()> {
    let names = Figure::ALL.map(Figure::name);
    writeln!(out, "file,files,{}", names.join(","))
}

/// Prints figures as a line; the name of the sum is empty.
pub fn print_csv(figures: &Figures, out: &mut impl Write) -> io::Result<()> {
    let counts = figures.tally.counts().map(|count| count.to_string());
    let name = figures.name.map_or(String::new(), cell);
    writeln!(out, "{name},{},{}", figures.files, counts.join(","))
}

/// A text as a cell of CSV: in quotes, which are doubled inside, where it has a comma, a quote or the end of a line.
fn cell(text: &str) -> String {
    match text.contains([',', '"', '\n', '\r']) {
        true => format!("\"{}\"", text.replace('"', "\"\"")),
        false => text.to_string(),
    }
}

#[cfg(test)]
mod tests {
    use super::*;

    #[test]
    fn cells_are_quoted_where_they_must_be() {
        assert_eq!(cell("a b.snx"), "a b.snx");
        assert_eq!(cell("a,b"), "\"a,b\"");
        assert_eq!(cell("a\"b"), "\"a\"\"b\"");
        assert_eq!(cell("a\nb"), "\"a\nb\"");
    }
}
