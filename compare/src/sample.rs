//! Answers written down for a simple program to read: whitespace separated
//! decimal numbers behind letters. README.md describes the form.

use crate::nodes::Tree;
use crate::show::node_words;
use crate::terms::{Answer, Parsed, Refusal, Row};

/// Where the sample stands.
pub const FILE: &str = concat!(env!("CARGO_MANIFEST_DIR"), "/../crates/replay_texts/stdin");

/// Where it stands what the program writes of it.
pub const REPORT: &str = concat!(env!("CARGO_MANIFEST_DIR"), "/../crates/replay_texts/stdout");

/// The whole file for these texts; each must be one that the original is asked about.
pub fn sample_file<'a>(cases: impl ExactSizeIterator<Item = (&'a [u8], &'a Answer)>) -> String {
    let mut file = format!("spoonharbor-sample 1 {}\n", cases.len());
    for (text, answer) in cases {
        write_case(&mut file, text, answer);
    }
    file
}

/// What `replay_texts` writes of these answers where all agree.
pub fn report(answers: &[Answer]) -> String {
    let (mut rows, mut refusals, mut uncompared) = (0, 0, 0);
    let (mut programs, mut declarations, mut nodes, mut unsaid) = (0, 0, 0, 0);
    for answer in answers {
        let Answer::Compared {
            rows: own, parsed, ..
        } = answer
        else {
            continue;
        };
        rows += own.len();
        match parsed {
            Parsed::NotScanned | Parsed::NotComparable { .. } => uncompared += 1,
            Parsed::Refused(_) => refusals += 1,
            Parsed::Accepted(tree) => {
                programs += 1;
                declarations += tree.declarations.len();
                for node in tree.declarations.iter().flatten() {
                    nodes += 1;
                    unsaid += node.words().iter().filter(|word| word.is_none()).count();
                }
            }
        }
    }
    let cases = answers.len();
    let line = |what: &str, count: usize| format!("{what} {count}, agreed {count}\n");
    [
        format!("cases {cases} of {cases}\nbytes behind the last case 0\n"),
        line("row counts", cases),
        line("rows", rows),
        line("endings", cases),
        line("parse refusals", refusals),
        line("programs", programs),
        line("declarations", declarations),
        line("nodes", nodes),
        line("parses that only the language answers", uncompared),
        format!("words that the sample does not say {unsaid}\ndiffering cases 0\n"),
    ]
    .concat()
}

fn write_case(file: &mut String, text: &[u8], answer: &Answer) {
    let Answer::Compared {
        rows,
        ending,
        parsed,
    } = answer
    else {
        panic!("a text that is not compared has no place in a sample");
    };
    write_text(file, text);
    write_rows(file, rows);
    write_ending(file, ending);
    write_parsed(file, parsed);
}

fn write_text(file: &mut String, text: &[u8]) {
    file.push_str(&format!("T {}", text.len()));
    for byte in text {
        file.push_str(&format!(" {byte}"));
    }
    file.push('\n');
}

fn write_rows(file: &mut String, rows: &[Row]) {
    file.push_str(&format!("R {}\n", rows.len()));
    for row in rows {
        let (low, high) = (row.value as u32, (row.value >> 32) as u32);
        file.push_str(&format!(
            "{} {} {} {} {} {low} {high}\n",
            row.kind, row.start, row.end, row.line, row.column
        ));
    }
}

fn write_ending(file: &mut String, ending: &Option<Refusal>) {
    match ending {
        Some(refusal) => file.push_str(&format!("E {}\n", number_and_place(refusal))),
        None => file.push_str("E 0 0 0 0\n"),
    }
}

fn number_and_place(refusal: &Refusal) -> String {
    let place = refusal.place;
    format!(
        "{} {} {} {}",
        refusal.number, place.offset, place.line, place.column
    )
}

fn write_parsed(file: &mut String, parsed: &Parsed) {
    match parsed {
        Parsed::NotScanned | Parsed::NotComparable { .. } => file.push_str("P 0\n"),
        Parsed::Refused(refusal) => {
            let [a, b] = refusal.told;
            file.push_str(&format!("P 1 {} {a} {b} 1\n", number_and_place(refusal)));
        }
        Parsed::Accepted(tree) => write_tree(file, tree),
    }
}

fn write_tree(file: &mut String, tree: &Tree) {
    file.push_str(&format!("P 2 {}\n", tree.declarations.len()));
    for nodes in &tree.declarations {
        file.push_str(&format!("D {}\n", nodes.len()));
        for node in nodes {
            file.push_str(&node_words(node));
            file.push('\n');
        }
    }
}

#[cfg(test)]
mod tests {
    use super::*;
    use crate::answer::answer;

    fn written(text: &[u8]) -> String {
        sample_file([(text, &answer(text))].into_iter())
    }

    #[test]
    fn each_outcome_has_its_form() {
        assert_eq!(
            written(b""),
            "spoonharbor-sample 1 1\nT 0\nR 1\n52 0 0 1 1 0 0\nE 0 0 0 0\nP 2 0\n"
        );
        assert_eq!(
            written(b"-1@"),
            "spoonharbor-sample 1 1\nT 3 45 49 64\nR 1\n\
             50 0 2 1 1 4294967295 4294967295\nE 11 2 1 3\nP 0\n"
        );
        assert_eq!(
            written(b"unit"),
            "spoonharbor-sample 1 1\nT 4 117 110 105 116\nR 2\n0 0 4 1 1 0 0\n\
             52 4 4 1 5 0 0\nE 0 0 0 0\nP 1 21 4 1 5 0 65536 1\n"
        );
        assert!(written(b"unit u{license \"\";if guard(a){}}").ends_with(
            "P 2 1\nD 4\n1 9 9 0 0 0 0 0\n21 ? 4294967295 0 0 0 0 0\n\
             20 7 4294967295 2 0 0 0 0\n25 0 1 ? 10 ? 0 0\n"
        ));
    }
}
