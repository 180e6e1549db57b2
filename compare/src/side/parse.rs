//! The library's parse against the original's and the model's: nodes, refusals, and every lent word.

use super::{same, shown, Compared, Counts, Difference, Memory, CANARY};
use crate::agree::agree;
use crate::answer::answer;
use crate::generate::characters::with_characters;
use crate::generate::random::Random;
use crate::generate::{damage, fixed_texts, lengths, nesting, programs, random_text, soup};
use crate::model::parse::{parse, NodeWords};
use crate::model::refusal_words;
use crate::model::table::Lent;
use crate::terms::{Answer, Parsed, Refusal};
use spoonharbor::lent::{self, Words};

/// Every fixed text, the texts of limit length, and random programs, whole and damaged, up to `count`; then as many with characters of
/// two bytes and more.
pub fn run(count: u64, seed: u64) -> Compared {
    let mut counts = Counts::default();
    let mut memory = Memory::default();
    for text in fixed_texts() {
        hold(&text, &mut memory, &mut counts)?;
    }
    for text in lengths::texts().filter(|text| text.len() <= 65_536) {
        hold(&text, &mut memory, &mut counts)?;
    }
    let mut random = Random::new(seed);
    while counts.get("texts") < count {
        let text = program(&mut random);
        hold(&text, &mut memory, &mut counts)?;
    }
    for _ in 0..count {
        let text = program(&mut random);
        let text = with_characters(&mut random, &text);
        hold(&text, &mut memory, &mut counts)?;
        counts.add("texts with characters");
    }
    Ok(counts)
}

/// A program or what is nearly one.
fn program(random: &mut Random) -> Vec<u8> {
    let size = [6, 12, 30, 80][random.below(4)];
    match random.below(20) {
        0 => nesting::random_text(random),
        1 => random_text(random),
        2..=4 => soup::text(random, size),
        5..=11 => programs::text(random, size),
        _ => damage::text(random, size),
    }
}

/// A scanned text: its rows' words and what stands beside them.
struct Scanned {
    rows: Vec<u32>,
    table: Words,
}

fn scanned(text: &[u8]) -> Scanned {
    let mut rows = vec![0; (text.len() + 1) * 8];
    let table = lent::scan(text, &mut rows);
    rows.truncate(table[lent::COUNT] as usize * 8);
    Scanned { rows, table }
}

/// What a parse answers and leaves in lent memory of so many words.
fn expected(parsed: &Result<Vec<NodeWords>, Refusal>, words: usize) -> (Words, Vec<u32>) {
    let (answer, mut memory) = match parsed {
        Ok(nodes) => ([0, 0, 0, 0, 0, 0, nodes.len() as u32, 0], nodes.concat()),
        Err(refusal) => (refusal_words(Some(*refusal)), Vec::new()),
    };
    memory.resize(words, CANARY);
    (answer, memory)
}

/// Holds the parse of one text with node room for its rows, for more, for one too few and for none.
fn hold(text: &[u8], memory: &mut Memory, counts: &mut Counts) -> Result<(), Difference> {
    let Scanned { rows, table } = scanned(text);
    let lent_table = Lent {
        rows: &rows,
        table: &table,
    };
    let count = rows.len() / 8;
    for words in [count * 8, count * 8 + 13, (count * 8).saturating_sub(1), 0] {
        let parsed = parse(text, lent_table, words / 8);
        let (expected_answer, expected_memory) = expected(&parsed, words);
        let nodes = memory.fresh(words);
        let answer = lent::parse(text, &rows, &table, nodes);
        let asked = || format!("parse, {words} node words, {}", shown(text));
        same(answer, expected_answer, asked)?;
        same(&*nodes, &expected_memory[..], asked)?;
        counts.add("calls");
    }
    counts.add("texts");
    let parsed = parse(text, lent_table, count);
    hold_against_original(text, &parsed, counts)
}

/// Holds what the library answered, which is what the model answers, against the original.
fn hold_against_original(
    text: &[u8],
    parsed: &Result<Vec<NodeWords>, Refusal>,
    counts: &mut Counts,
) -> Result<(), Difference> {
    let asked = || format!("parse, as the original, {}", shown(text));
    let (ending, original) = match answer(text) {
        Answer::Compared { ending, parsed, .. } => (ending, parsed),
        Answer::NotCompared { number: told } => {
            counts.add(format!("not asked, refused {told}"));
            return same(number(parsed), told, asked);
        }
    };
    match original {
        Parsed::NotScanned => {
            counts.add(format!("not scanned, refused {}", number(parsed)));
            same(parsed.clone().err(), ending, asked)
        }
        Parsed::NotComparable { number: named } => {
            counts.add(format!("named difference {named}"));
            same(number(parsed), named, asked)
        }
        Parsed::Refused(refusal) => {
            counts.add(format!("refused {}", refusal.number));
            same(parsed.clone().err(), Some(refusal), asked)
        }
        Parsed::Accepted(tree) => match parsed {
            Ok(nodes) => {
                counts.add("accepted");
                if !text.is_ascii() {
                    counts.add("accepted, with characters");
                }
                counts.add_many("nodes", nodes.len() as u64);
                same(agree(nodes, &tree), Ok(()), asked)
            }
            Err(_) => same(number(parsed), 0, asked),
        },
    }
}

/// The refusal's number, 0 if there is none.
fn number(parsed: &Result<Vec<NodeWords>, Refusal>) -> u32 {
    parsed.as_ref().err().map_or(0, |refusal| refusal.number)
}
