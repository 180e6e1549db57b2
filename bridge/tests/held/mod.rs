//! A text held against the compiler's own lexer and parser: the same tree by its whole `Debug` text, or the same
//! refusal, or a difference that docs/DIFFERENCES.md lists.
#![allow(dead_code)]

pub mod expressions;

use bridge::{error, program};
use compare::answer::answer;
use compare::lexer::Lexer;
use compare::parser::{parse_program, ParseError, Parser};
use compare::quiet::caught;
use compare::terms::{Answer, Parsed};
use spoonharbor::{Document, Refusal};
use std::collections::BTreeMap;
use std::fmt;

/// What comes of a text on both sides.
#[derive(Debug, Clone, PartialEq, Eq)]
pub enum Held {
    /// The same tree.
    Same,
    /// No tree on either side, and the same place.
    BothRefuse(Refusal),
    /// A refusal here, and something else there: a difference that is listed under the refusal's number.
    Listed { refusal: Refusal, there: String },
    /// The two part, and nothing lists it.
    Part(String),
}

/// The compiler's own answer: the `Debug` text of its tree, its error, or its panic.
enum Old {
    Tree(String),
    Refused(ParseError),
    Panicked(String),
}

/// Asks both sides about a text. It takes a deep stack: `Debug` goes down the whole tree, and so does the old parser.
pub fn held(text: &[u8]) -> Held {
    let new = Document::open(text).and_then(|document| program(&document));
    let old = std::str::from_utf8(text).map_or(None, |text| Some(old(text)));
    match (old, new) {
        (Some(Old::Tree(old)), Ok(new)) => match first_difference(&format!("{new:?}"), &old) {
            None => Held::Same,
            Some(difference) => Held::Part(difference),
        },
        (Some(Old::Refused(error)), Ok(_)) => Held::Part(format!("there {}", shown(&error))),
        (Some(Old::Panicked(panic)), Ok(_)) => Held::Part(format!("there a panic: {panic}")),
        (None, Ok(_)) => Held::Part("here a tree of bytes that are no UTF-8".to_string()),
        (old, Err(refusal)) => refused(text, old, refusal),
    }
}

/// The compiler's two calls.
fn old(text: &str) -> Old {
    let asked = caught(|| {
        let tokens = Lexer::new(text).tokenize()?;
        parse_program(&mut Parser::new(tokens)?)
    });
    match asked {
        Ok(Ok(program)) => Old::Tree(format!("{program:?}")),
        Ok(Err(error)) => Old::Refused(error),
        Err(panic) => Old::Panicked(panic),
    }
}

/// Of a text that is refused here: whether the compiler refuses it too, or which difference is listed.
fn refused(text: &[u8], old: Option<Old>, refusal: Refusal) -> Held {
    let place = refusal.place;
    let told = [place.offset, place.line, place.column];
    let wanted = match answer(text) {
        Answer::NotCompared { number } => Wanted::Number(number),
        Answer::Compared {
            ending: Some(ending),
            ..
        } => Wanted::Refusal(ending),
        Answer::Compared { parsed, .. } => match parsed {
            Parsed::Refused(refusal) => Wanted::Refusal(refusal),
            Parsed::NotComparable { number } => Wanted::Number(number),
            Parsed::Accepted(_) | Parsed::NotScanned => {
                return Held::Part(format!("here refused, {refusal}"))
            }
        },
    };
    let is_listed = match &wanted {
        Wanted::Number(number) => *number == refusal.number(),
        Wanted::Refusal(wanted) => {
            let place = wanted.place;
            let place = [place.offset, place.line, place.column].map(|part| part as usize);
            (wanted.number, place) == (refusal.number(), told)
        }
    };
    if !is_listed {
        return Held::Part(format!("here refused, {refusal}; wanted {wanted:?}"));
    }
    let there = match old {
        Some(Old::Refused(old)) if is_same_place(&old, &error(&refusal)) => {
            return Held::BothRefuse(refusal)
        }
        Some(Old::Refused(error)) => shown(&error),
        Some(Old::Panicked(panic)) => format!("a panic: {panic}"),
        Some(Old::Tree(_)) => "a tree".to_string(),
        None => "no text, since it is no UTF-8".to_string(),
    };
    Held::Listed { refusal, there }
}

/// What is wanted where this side refuses: by the listed differences a number, else the compiler's number and place.
#[derive(Debug)]
enum Wanted {
    Number(u32),
    Refusal(compare::terms::Refusal),
}

/// Whether two errors stand at one place. The compiler gives the text's end line 0 and column 0.
fn is_same_place((old, _): &ParseError, (new, _): &bridge::parser::ParseError) -> bool {
    let lines = (old.line, old.column);
    old.offset == new.offset && (lines == (0, 0) || lines == (new.line, new.column))
}

fn shown((loc, message): &ParseError) -> String {
    format!("{}:{}: {message}", loc.line, loc.column)
}

/// Where two `Debug` texts part, with some letters of both.
pub fn first_difference(here: &str, there: &str) -> Option<String> {
    if here == there {
        return None;
    }
    let same = here
        .bytes()
        .zip(there.bytes())
        .take_while(|(here, there)| here == there)
        .count();
    let part = |text: &str| {
        let from = same.saturating_sub(60);
        let to = text.len().min(same + 60);
        String::from_utf8_lossy(&text.as_bytes()[from..to]).into_owned()
    };
    Some(format!("here  {}\nthere {}", part(here), part(there)))
}

/// How often what was found.
#[derive(Debug, Default)]
pub struct Counts(pub BTreeMap<String, u64>);

impl Counts {
    /// Holds a text and counts it; an error tells the text at which the two part.
    pub fn hold(&mut self, text: &[u8]) -> Result<(), String> {
        let what = match held(text) {
            Held::Same => "the same tree".to_string(),
            Held::BothRefuse(_) => "refused by both at one place".to_string(),
            Held::Listed { refusal, there } => {
                let there = there.split(':').next().unwrap_or_default();
                let there = match there {
                    "a tree" | "a panic" => there,
                    _ => "another error",
                };
                format!("listed: {} here, {there} there", refusal.number())
            }
            Held::Part(why) => {
                let text = text.escape_ascii();
                return Err(format!("{text}\npart: {why}"));
            }
        };
        *self.0.entry(what).or_default() += 1;
        Ok(())
    }

    pub fn get(&self, what: &str) -> u64 {
        self.0.get(what).copied().unwrap_or(0)
    }
}

impl fmt::Display for Counts {
    fn fmt(&self, out: &mut fmt::Formatter<'_>) -> fmt::Result {
        for (what, count) in &self.0 {
            writeln!(out, "{count:>12}  {what}")?;
        }
        Ok(())
    }
}
