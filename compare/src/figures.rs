//! Figures counted a second time: over the original's own tree, by its lists and bodies, and over the words of any nodes, by their
//! kinds. The library counts nodes alone, in one pass. Sums are made in 128 bits.

use crate::ast::{MapType, Program, Stmt, StmtKind};
use crate::method_sets::PROGRAM_KINDS;

/// Units by kind, maps by type, events, statements, the sum of max, methods.
pub type Counts = [u64; 20];

/// Where each count stands.
const MAPS: usize = 11;
const EVENTS: usize = 16;
const STATEMENTS: usize = 17;
const MAX: usize = 18;
const METHODS: usize = 19;

/// How many nodes a tally may be of.
pub const MOST_NODES: u32 = 131_074;

/// The words of a node.
pub const NODE_WORDS: usize = 8;

/// The tally of a program that the original accepts.
pub fn tally(program: &Program) -> Counts {
    let mut counts = [0; 20];
    for unit in &program.units {
        counts[unit.kind as usize] += 1;
        counts[STATEMENTS] += statements(&unit.body);
        counts[METHODS] += unit.kind.allowed_ctx_methods().len() as u64;
    }
    for map in &program.maps {
        counts[MAPS + index(map.map_type)] += 1;
        counts[MAX] += u64::from(map.max_entries.expect("an accepted map has a max"));
    }
    counts[EVENTS] = program.events.len() as u64;
    counts
}

/// How many statements a list has, with those in its bodies.
fn statements(list: &[Stmt]) -> u64 {
    let inside = |statement: &Stmt| match &statement.kind {
        StmtKind::IfGuard(guarded) => {
            let other = guarded.else_body.as_deref().unwrap_or_default();
            statements(&guarded.then_body) + statements(other)
        }
        _ => 0,
    };
    list.iter().map(|statement| 1 + inside(statement)).sum()
}

fn index(map_type: MapType) -> usize {
    match map_type {
        MapType::Hash => 0,
        MapType::Array => 1,
        MapType::Ringbuf => 2,
        MapType::LruHash => 3,
        MapType::ProgArray => 4,
    }
}

/// What is told of the first `count` nodes of some words, whatever they are: a number and the tally.
pub fn tally_of_nodes(words: &[u32], count: u32) -> (u32, Counts) {
    let needed = u64::from(count) * NODE_WORDS as u64;
    if count > MOST_NODES || needed > words.len() as u64 {
        return (3, [0; 20]);
    }
    let nodes = words[..needed as usize].chunks(NODE_WORDS);
    let mut counts = [0; 20];
    for node in nodes {
        let (kind, first, last) = (node[0], node[4] as usize, node[7]);
        match kind {
            25 if first < PROGRAM_KINDS.len() => {
                counts[first] += 1;
                counts[METHODS] += PROGRAM_KINDS[first].allowed_ctx_methods().len() as u64;
            }
            28 if (1..=5).contains(&first) => {
                counts[MAPS + first - 1] += 1;
                counts[MAX] += u64::from(last);
            }
            27 => counts[EVENTS] += 1,
            13..=20 => counts[STATEMENTS] += 1,
            1..=12 | 21..=24 | 26 | 29 => {}
            _ => return (3, [0; 20]),
        }
    }
    (0, counts)
}

/// What is told of a joining: a number and the tally.
pub fn join(first: &Counts, second: &Counts) -> (u32, Counts) {
    let mut joined = [0; 20];
    for (index, sum) in joined.iter_mut().enumerate() {
        let whole = u128::from(first[index]) + u128::from(second[index]);
        match u64::try_from(whole) {
            Ok(fits) => *sum = fits,
            Err(_) => return (70, *first),
        }
    }
    (0, joined)
}

#[cfg(test)]
mod tests {
    use super::*;
    use crate::parse::accepted;
    use crate::scan::scan;

    fn counted(text: &str) -> Counts {
        tally(&accepted(&scan(text).tokens).unwrap())
    }

    #[test]
    fn a_program_is_counted() {
        let text = "map m{type:.lru_hash;key:u32;value:u64;max:3;}map n{type:.hash;key:u32;value:u64;max:4294967295;}\
            event e{}unit u{section \"xdp\";if guard(a){x;}else{if guard(b){}}}unit v{}";
        let mut wanted = [0; 20];
        (wanted[0], wanted[10]) = (1, 1);
        (wanted[11], wanted[14]) = (1, 1);
        (wanted[16], wanted[17], wanted[18], wanted[19]) = (1, 3, 4_294_967_298, 8);
        assert_eq!(counted(text), wanted);
        assert_eq!(counted(""), [0; 20]);
    }

    #[test]
    fn the_first_is_kept() {
        let (mut first, second) = ([1; 20], [2; 20]);
        assert_eq!(join(&first, &second), (0, [3; 20]));
        first[19] = u64::MAX - 1;
        assert_eq!(join(&first, &second), (70, first));
        assert_eq!(join(&second, &first), (70, second));
    }
}
