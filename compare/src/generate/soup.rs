//! Token soup: tokens in no order, alone or inside a declaration's braces.

use super::random::Random;
use super::spelling::{any_token, joined, Spellings};

/// A declaration's beginning, and what its inside is made of: tokens, and a few
/// phrases of more than one so that some soup goes deeper into the grammar.
struct Pot {
    beginning: &'static [&'static str],
    inside: &'static [&'static str],
}

const UNIT: Pot = Pot {
    beginning: &["unit", "u", "{"],
    inside: &[
        "a",
        "b",
        "1",
        "-1",
        "(",
        ")",
        "(",
        ")",
        ".",
        ".m(",
        ".f",
        "*",
        "+",
        "-",
        "<<",
        ">>",
        "/",
        "%",
        "=",
        "+=",
        ";",
        ";",
        ";",
        ",",
        "return",
        "reg a=",
        "imm",
        "heap b",
        "if guard(a){",
        "if",
        "guard",
        "}else{",
        "else",
        "{",
        "}",
        "section \"xdp\";",
        "license",
        "\"q\"",
    ],
};

const MAP: Pot = Pot {
    beginning: &["map", "m", "{"],
    inside: &[
        "type:.",
        "type:.hash;",
        "type:.ringbuf;",
        "type",
        "key:",
        "key",
        "value:",
        "max:",
        "max",
        ":",
        ".",
        ";",
        ";",
        ";",
        "hash",
        "q",
        "u32",
        "u32;",
        "i64;",
        "1",
        "1;",
        "-1",
        "64",
        "<<",
        ">>",
        "}",
        "}",
    ],
};

const EVENT: Pot = Pot {
    beginning: &["event", "e", "{"],
    inside: &[
        "a", "a:", "b:", ":", "u32", "u64;", "i32", "i64", "bytes", "bytes[", "[", "]", "];", "8",
        "-1", ";", ";", "}",
    ],
};

/// A text of 1 to `most_tokens` tokens, and a declaration's beginning before
/// most of them.
pub fn text(random: &mut Random, most_tokens: usize) -> Vec<u8> {
    let count = 1 + random.below(most_tokens);
    let tokens = match random.below(5) {
        0 => (0..count).map(|_| any_token(random).to_string()).collect(),
        1 | 2 => from_pot(random, &UNIT, count),
        3 => from_pot(random, &MAP, count),
        _ => from_pot(random, &EVENT, count),
    };
    joined(random, &tokens)
}

fn from_pot(random: &mut Random, pot: &Pot, count: usize) -> Spellings {
    let mut tokens: Spellings = pot
        .beginning
        .iter()
        .map(|token| token.to_string())
        .collect();
    for _ in 0..count {
        let token = if random.one_in(20) {
            any_token(random)
        } else {
            random.pick(pot.inside)
        };
        tokens.push(token.to_string());
    }
    tokens
}
