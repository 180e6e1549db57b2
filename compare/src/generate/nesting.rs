//! Nesting at its limit: 63, 64 and 65 open constructs, of one sort and mixed.

use super::damage::damage_bytes;
use super::random::Random;

/// A construct that counts towards the limit of 64, and how it is spelt.
#[derive(Debug, Clone, Copy, PartialEq, Eq)]
pub enum Construct {
    Then,
    Else,
    Group,
    Arguments,
    Star,
}

use Construct::*;

impl Construct {
    fn opening(self) -> &'static str {
        match self {
            Then => "if guard(a){",
            Else => "if guard(a){}else{",
            Group => "(",
            Arguments => "z.w(",
            Star => "*",
        }
    }

    fn closing(self) -> &'static str {
        match self {
            Then | Else => "}",
            Group | Arguments => ")",
            Star => "",
        }
    }

    fn is_body(self) -> bool {
        matches!(self, Then | Else)
    }
}

/// A unit with these constructs one inside the other around `core`: an
/// expression if the last construct is one, statements if it is a body. Bodies
/// come before all others.
pub fn nested(constructs: &[Construct], core: &str) -> String {
    let bodies = constructs
        .iter()
        .take_while(|construct| construct.is_body())
        .count();
    let (bodies, wraps) = constructs.split_at(bodies);
    let semicolon = if wraps.is_empty() { "" } else { ";" };
    format!(
        "{}{core}{}{semicolon}{}}}",
        opened(constructs),
        closed(wraps),
        closed(bodies)
    )
}

/// The beginning of such a unit, up to the innermost construct's opening.
pub fn opened(constructs: &[Construct]) -> String {
    let openings: String = constructs.iter().map(|each| each.opening()).collect();
    format!("unit u{{{openings}")
}

fn closed(constructs: &[Construct]) -> String {
    constructs.iter().rev().map(|each| each.closing()).collect()
}

/// `count` constructs, taken from `pattern` again and again, bodies first.
pub fn repeated(pattern: &[Construct], count: usize) -> Vec<Construct> {
    let mut constructs: Vec<Construct> = pattern.iter().copied().cycle().take(count).collect();
    constructs.sort_by_key(|construct| !construct.is_body());
    constructs
}

const PATTERNS: [&[Construct]; 8] = [
    &[Group],
    &[Arguments],
    &[Star],
    &[Then],
    &[Else],
    &[Star, Group],
    &[Star, Arguments, Group],
    &[Then, Else, Group, Star, Star, Group, Star],
];

/// What may follow where 64 stars and groups are open: some of it opens no more.
const AT_THE_LIMIT: [&str; 12] = [
    "z.w()", "z.w(1)", "z.w(", "(", "(1)", "*", "*x", "a.b.c()", "a.b.c(1)", "1.m()", "x*y", "x+",
];

/// Each pattern at 63, 64 and 65, and what may follow at 64.
pub fn texts() -> Vec<Vec<u8>> {
    let at_each_depth = PATTERNS.iter().flat_map(|pattern| {
        [63, 64, 65].map(|count| {
            let constructs = repeated(pattern, count);
            let last_is_body = constructs[count - 1].is_body();
            nested(&constructs, if last_is_body { "" } else { "x" })
        })
    });
    let full = repeated(&[Star, Star, Star, Group], 64);
    let at_the_limit = AT_THE_LIMIT.iter().map(|core| nested(&full, core));
    let left_again = [
        "unit u{*(a)+*(b);}".to_string(),
        format!("unit u{{{}a+*b;}}", "*".repeat(64)),
        format!("unit u{{{}a.b*(c);}}", "*".repeat(64)),
        format!("unit u{{{}a.b(c);}}", "*".repeat(64)),
    ];
    at_each_depth
        .chain(at_the_limit)
        .chain(left_again)
        .map(String::into_bytes)
        .collect()
}

/// Stars, groups and argument lists in any order, 62 to 66 deep, around a core
/// that may open more; half of them damaged.
pub fn random_text(random: &mut Random) -> Vec<u8> {
    let depth = 62 + random.below(5);
    let constructs: Vec<Construct> = (0..depth)
        .map(|_| random.pick(&[Star, Star, Group, Arguments]))
        .collect();
    let mut text = nested(&constructs, random.pick(&AT_THE_LIMIT)).into_bytes();
    if random.one_in(2) {
        damage_bytes(random, &mut text);
    }
    text
}
