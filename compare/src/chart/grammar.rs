//! The grammar of LANGUAGE.md 4 as plain rules, with kinds of rows as letters. The checks beside it, and the nesting, are left aside.

use std::collections::HashMap;
use std::sync::LazyLock;

/// A thing, an arrow, and what it may be. Things begin with a capital; `name`, `string`, `number` and `end` are the kinds 48, 49, 50
/// and 52, and all else stands for itself.
const RULES: &str = "
Program -> Declarations end
Declarations -> | Declarations Declaration
Declaration -> unit name { Things } | map name { MapFields } | event name { EventFields }
Things -> | Things Thing
Thing -> Statement | section string ; | license string ;
MapFields -> | MapFields MapField ;
MapField -> type : . name | key : Type | value : Type | max : Max
Max -> number | Max << number | Max >> number
Type -> u32 | u64 | i32 | i64
EventFields -> | EventFields EventField ;
EventField -> name : Type | name : Type [ number ] | name : bytes [ number ]
Statements -> | Statements Statement
Statement -> reg name = Add ; | imm name = Add ; | heap name = Add ; | return Add ;
Statement -> Add ; | Add = Add ; | Add += Add ;
Statement -> If | If else { Statements }
If -> if guard ( name ) { Statements }
Add -> Shift | Add + Mul | Add - Mul
Shift -> Mul | Shift << Mul | Shift >> Mul
Mul -> Unary | Mul * Unary | Mul / Unary | Mul % Unary
Unary -> * Unary | Prim
Prim -> number | name | ( Add ) | Prim . name | Prim . name ( ) | Prim . name ( Arguments )
Arguments -> Add | Arguments , Add
";

/// What stands for each kind in the rules, at its number; for those that are never made, nothing that a rule has.
pub const LETTERS: [&str; 53] = [
    "unit", "section", "license", "return", "reg", "imm", "map", "type", "key", "value", "max",
    "if", "else", "guard", "heap", "event", "", "", "", "", "", "u32", "u64", "i32", "i64", "{",
    "}", "(", ")", ":", ".", ",", ";", "[", "]", "=", "+=", "-=", "*=", "/=", "%=", "+", "-", "*",
    "/", "%", ">>", "<<", "name", "string", "number", "bytes", "end",
];

/// A part of what a thing may be.
#[derive(Debug, Clone, Copy, PartialEq, Eq)]
pub enum Part {
    Row(u32),
    Thing(usize),
}

/// One of the ways in which a thing is made.
#[derive(Debug)]
pub struct Rule {
    pub thing: usize,
    pub parts: Vec<Part>,
}

/// The rules, the first of which makes a program, and for each thing the numbers of its own.
#[derive(Debug)]
pub struct Grammar {
    pub rules: Vec<Rule>,
    pub ways: Vec<Vec<usize>>,
}

pub static GRAMMAR: LazyLock<Grammar> = LazyLock::new(|| read(RULES));

impl Grammar {
    /// Whether a thing may be nothing at all: here that is always said by an empty rule of its own.
    pub fn may_be_empty(&self, thing: usize) -> bool {
        self.ways[thing]
            .iter()
            .any(|&way| self.rules[way].parts.is_empty())
    }
}

/// Each line of the rules has the arrow once.
fn lines(text: &str) -> impl Iterator<Item = (&str, &str)> {
    text.lines().filter_map(|line| line.split_once(" ->"))
}

fn read(text: &str) -> Grammar {
    let mut things = HashMap::new();
    for (thing, _) in lines(text) {
        let next = things.len();
        things.entry(thing).or_insert(next);
    }
    let part = |word: &str| match things.get(word) {
        Some(&thing) => Part::Thing(thing),
        None => Part::Row(kind_of(word)),
    };
    let mut ways = vec![Vec::new(); things.len()];
    let mut rules = Vec::new();
    for (thing, may_be) in lines(text) {
        for way in may_be.split('|') {
            let thing = things[thing];
            ways[thing].push(rules.len());
            let parts = way.split_whitespace().map(part).collect();
            rules.push(Rule { thing, parts });
        }
    }
    Grammar { rules, ways }
}

/// The kind that stands so in the rules.
pub fn kind_of(letter: &str) -> u32 {
    let found = LETTERS.iter().position(|known| *known == letter);
    found.unwrap_or_else(|| panic!("no kind is written {letter}")) as u32
}

#[cfg(test)]
mod tests {
    use super::*;

    /// Every thing is used and makes some rows, so that what the chart is about to read always belongs to a program.
    #[test]
    fn no_thing_is_idle() {
        let grammar = &*GRAMMAR;
        let mut makes = vec![false; grammar.ways.len()];
        for _ in 0..makes.len() {
            for rule in &grammar.rules {
                let made = rule.parts.iter().all(|part| match part {
                    Part::Row(_) => true,
                    Part::Thing(thing) => makes[*thing],
                });
                makes[rule.thing] |= made;
            }
        }
        assert!(makes.into_iter().all(|makes| makes));
        let parts = || grammar.rules.iter().flat_map(|rule| &rule.parts);
        for thing in 1..grammar.ways.len() {
            assert!(parts().any(|part| *part == Part::Thing(thing)), "{thing}");
        }
    }

    /// A thing that may be nothing has an empty rule, and no rule is made of such things alone.
    #[test]
    fn what_may_be_empty_says_so() {
        let grammar = &*GRAMMAR;
        for rule in grammar.rules.iter().filter(|rule| !rule.parts.is_empty()) {
            assert!(rule.parts.iter().any(|part| match part {
                Part::Row(_) => true,
                Part::Thing(thing) => !grammar.may_be_empty(*thing),
            }));
        }
    }
}
