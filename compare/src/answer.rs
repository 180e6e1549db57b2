//! The original's answer about one text, in LANGUAGE.md's terms.
//!
//! What is compared, and what is not:
//!
//! - Rows: kind, start, end, line, column and value, up to the end or the
//!   lexical refusal. Line and column are the original's own, except Eof's: the
//!   original has 0:0 there, so the position counted in the text stands instead.
//!   The original has no comments; they are counted in the gaps between its rows.
//! - The lexical refusal: number and place. 15 is a panic of the original;
//!   `scan` says how its place is found. Where a character of two bytes or more
//!   stands outside comments and strings, the original is asked about what stands
//!   in front of it, and 11 stands there (`differences`).
//! - The parse: its refusal with number, place and what is told (21: the found
//!   kind, 29: the field), or its nodes. `parse` says how the places of
//!   the panics 28, 29 (type) and 31 are found, `nodes` which words are known.
//!   Of the kinds that would have fitted the original tells one, for 21; the
//!   chart tells all of them, and that one must be among them.
//! - Not compared: texts that LANGUAGE.md answers with 1 or 2, and parse
//!   outcomes of texts that it refuses with 27 or 32 (`differences`).

use crate::deep::on_deep_stack;
use crate::parse::parse;
use crate::scan::scan;
use crate::terms::{Answer, Parsed, LONGEST_TEXT};

/// Asks the original about a text.
pub fn answer(text: &[u8]) -> Answer {
    if text.len() > LONGEST_TEXT {
        return Answer::NotCompared { number: 1 };
    }
    match std::str::from_utf8(text) {
        Ok(text) => on_deep_stack(|| ask(text)),
        Err(_) => Answer::NotCompared { number: 2 },
    }
}

fn ask(text: &str) -> Answer {
    let scanned = scan(text);
    let parsed = match scanned.ending {
        Some(_) => Parsed::NotScanned,
        None => parse(&scanned.tokens, &scanned.rows),
    };
    Answer::Compared {
        rows: scanned.rows,
        ending: scanned.ending,
        parsed,
    }
}
