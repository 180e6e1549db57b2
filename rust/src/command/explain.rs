//! `spoonharbor explain`: what a number means, with an example on either side of its edge.

use super::{complain, Outcome};
use spoonharbor::diagnostic::{explain, explained, Explained};
use std::ffi::{OsStr, OsString};
use std::io::{self, Write};

/// The most letters of a line that is printed.
const LONGEST_LINE: usize = 100;

/// Explains each number, or lists them if none is given.
pub fn explain_all(numbers: &[OsString], out: &mut impl Write) -> io::Result<Outcome> {
    let mut outcome = Outcome::Fine;
    for number in numbers {
        match known(number) {
            Some(one) => print(one, out)?,
            None => {
                out.flush()?;
                complain(&format!(
                    "explain: there is no number {}",
                    number.to_string_lossy()
                ));
                outcome = Outcome::Trouble;
            }
        }
    }
    if numbers.is_empty() {
        for one in explained() {
            writeln!(out, "{:>4}  {}", one.number, one.title)?;
        }
    }
    Ok(outcome)
}

fn known(number: &OsStr) -> Option<&'static Explained> {
    explain(number.to_str()?.parse().ok()?)
}

fn print(one: &Explained, out: &mut impl Write) -> io::Result<()> {
    writeln!(out, "{}: {}\n", one.number, one.title)?;
    writeln!(out, "{}\n", wrapped(one.meaning))?;
    let beside = if one.number < 100 {
        "refused"
    } else {
        "warned of"
    };
    writeln!(
        out,
        "{beside}:\n{}\nfine:\n{}",
        set_off(one.refused),
        set_off(one.fine)
    )
}

/// A text in lines of so many letters at most.
fn wrapped(text: &str) -> String {
    let mut lines = vec![String::new()];
    for word in text.split(' ') {
        match lines.last_mut() {
            Some(line) if line.is_empty() => *line += word,
            Some(line) if line.len() + word.len() < LONGEST_LINE => *line += &format!(" {word}"),
            _ => lines.push(word.to_string()),
        }
    }
    lines.join("\n")
}

/// An example, set off from the words around it; a carriage return shows.
fn set_off(example: &str) -> String {
    let shown = example.replace('\r', "\\r");
    shown.lines().map(|line| format!("    {line}\n")).collect()
}
