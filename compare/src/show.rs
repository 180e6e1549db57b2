//! Answers as text: LANGUAGE.md's lister form, and a short form on one line.

use crate::chart::kinds;
use crate::nodes::{Node, Tree, Word};
use crate::terms::{Answer, Parsed, Refusal, Row};

/// The rows and nodes, or the refusal, as the lister prints them; `?` where the
/// original does not say a word.
pub fn lister_lines(answer: &Answer) -> Vec<String> {
    match answer {
        Answer::NotCompared { number } => vec![format!("not compared {number}")],
        Answer::Compared {
            rows,
            ending,
            parsed,
        } => {
            let mut lines = row_lines(rows);
            match ending {
                Some(refusal) => lines.push(refused_line(refusal)),
                None => lines.extend(parsed_lines(parsed)),
            }
            lines
        }
    }
}

fn row_lines(rows: &[Row]) -> Vec<String> {
    let mut lines = vec![format!("rows {}", rows.len())];
    for (index, row) in rows.iter().enumerate() {
        lines.push(format!("{index} {}", row_numbers(row)));
    }
    lines
}

fn row_numbers(row: &Row) -> String {
    format!(
        "{} {} {} {} {} {}",
        row.kind, row.start, row.end, row.line, row.column, row.value
    )
}

fn parsed_lines(parsed: &Parsed) -> Vec<String> {
    match parsed {
        Parsed::NotScanned => Vec::new(),
        Parsed::NotComparable { number } => vec![format!("not comparable {number}")],
        Parsed::Refused(refusal) => vec![refused_line(refusal)],
        Parsed::Accepted(tree) => node_lines(tree),
    }
}

fn refused_line(refusal: &Refusal) -> String {
    let place = refusal.place;
    format!(
        "refused {} {} {} {}",
        refusal.number, place.offset, place.line, place.column
    )
}

fn node_lines(tree: &Tree) -> Vec<String> {
    let nodes: Vec<&Node> = all_nodes(tree).collect();
    let mut lines = vec![format!("nodes {}", nodes.len())];
    for (index, node) in nodes.into_iter().enumerate() {
        lines.push(format!("{index} {}", node_words(node)));
    }
    lines
}

/// The nodes of all declarations, then the program's.
fn all_nodes(tree: &Tree) -> impl Iterator<Item = &Node> {
    tree.declarations
        .iter()
        .flatten()
        .chain(std::iter::once(&tree.program))
}

/// A node's eight words with blanks between.
pub fn node_words(node: &Node) -> String {
    node.words().map(word_or_mark).join(" ")
}

/// A word in decimal, or `?` where the original does not say it.
pub fn word_or_mark(word: Word) -> String {
    word.map_or("?".to_string(), |word| word.to_string())
}

/// The answer on one line: the kinds of few rows or the count of many, then the outcome.
pub fn one_line(answer: &Answer) -> String {
    match answer {
        Answer::NotCompared { number } => format!("not compared, LANGUAGE.md says {number}"),
        Answer::Compared {
            rows,
            ending,
            parsed,
        } => {
            let outcome = match ending {
                Some(refusal) => refusal_told(refusal),
                None => parsed_told(parsed),
            };
            format!("{}, {outcome}", rows_told(rows))
        }
    }
}

fn rows_told(rows: &[Row]) -> String {
    if rows.len() > 12 {
        return format!("{} rows", rows.len());
    }
    let kinds: Vec<String> = rows.iter().map(|row| row.kind.to_string()).collect();
    format!("rows [{}]", kinds.join(" "))
}

fn parsed_told(parsed: &Parsed) -> String {
    match parsed {
        Parsed::NotScanned => "not scanned".to_string(),
        Parsed::NotComparable { number } => {
            format!("not comparable, LANGUAGE.md says {number}")
        }
        Parsed::Refused(refusal) => refusal_told(refusal),
        Parsed::Accepted(tree) => format!("accepted with {} nodes", all_nodes(tree).count()),
    }
}

fn refusal_told(refusal: &Refusal) -> String {
    let place = refusal.place;
    let told = match refusal.number {
        21 => format!(" fitting {} found {}", kinds_told(refusal), refusal.found),
        22 | 23 | 25 | 30 => format!(" fitting {}", kinds_told(refusal)),
        29 => format!(" field {}", refusal.told[0]),
        _ => String::new(),
    };
    format!(
        "refused {} at {} {}:{}{told}",
        refusal.number, place.offset, place.line, place.column
    )
}

/// The kinds that would have fitted.
fn kinds_told(refusal: &Refusal) -> String {
    let kinds: Vec<String> = kinds(refusal.set()).map(|kind| kind.to_string()).collect();
    format!("[{}]", kinds.join(" "))
}
