//! What the compiler's tree of a text costs: `cargo run --profile plain --offline --example cost [ROUNDS]`.
//!
//! 60,000 bytes of probes become the tree by Spoonharbor's calls and the bridge, and by the compiler's own lexer and
//! parser. Every side is given the text as it is in memory. It takes all memory that it needs inside its time and gives
//! all of it back there but the tree, which is what was asked for. Each round runs every side once, in an order that is
//! drawn for the round. The figures are medians; the last is that of the old side's time over the new one's in the same
//! round.

use bridge::ast::Program;
use bridge::lexer::Lexer;
use bridge::parser::{parse_program, Parser};
use bridge::program;
use compare::generate::probe::probe_text;
use compare::generate::random::Random;
use spoonharbor::Document;
use std::hint::black_box;
use std::time::Instant;

const BYTES: usize = 60_000;
const SEED: u64 = 7;
/// Rounds that are not counted.
const WARM: usize = 20;

/// A side's name and its work on a text, up to the tree.
type Side = (&'static str, fn(&str) -> Made);

/// What a side leaves.
#[allow(dead_code)]
enum Made {
    Tree(Program),
    Document(Document),
}

const SIDES: [Side; 4] = [
    ("the compiler's lexer and parser", old),
    ("Spoonharbor and the bridge", new),
    ("of that the rows", rows),
    ("of that the rows and the nodes", nodes),
];

fn old(text: &str) -> Made {
    let tokens = Lexer::new(text).tokenize().expect("a probe scans");
    let mut parser = Parser::new(tokens).expect("tokens end with Eof");
    Made::Tree(parse_program(&mut parser).expect("a probe parses"))
}

fn new(text: &str) -> Made {
    let document = Document::open(text).expect("a probe is UTF-8");
    Made::Tree(program(&document).expect("a probe parses"))
}

fn rows(text: &str) -> Made {
    Made::Document(Document::open(text).expect("a probe is UTF-8"))
}

fn nodes(text: &str) -> Made {
    let document = Document::open(text).expect("a probe is UTF-8");
    document.tree().expect("a probe parses");
    Made::Document(document)
}

fn main() {
    let rounds = std::env::args().nth(1).and_then(|word| word.parse().ok());
    let rounds: usize = rounds.unwrap_or(1_001);
    let text = String::from_utf8(probe_text(BYTES, SEED)).expect("a probe is UTF-8");
    let mut random = Random::new(SEED);
    let mut times: [Vec<f64>; 4] = Default::default();
    for round in 0..WARM + rounds {
        for side in order(&mut random) {
            let began = Instant::now();
            let made = black_box(SIDES[side].1(black_box(&text)));
            let took = began.elapsed().as_secs_f64() * 1e6;
            drop(made);
            if round >= WARM {
                times[side].push(took);
            }
        }
    }
    println!("{BYTES} bytes of probes, medians of {rounds} rounds");
    for (side, times) in SIDES.iter().zip(&times) {
        println!("  {:<34} {:>9.1} us", side.0, median(times));
    }
    let ratios: Vec<f64> = times[0]
        .iter()
        .zip(&times[1])
        .map(|(old, new)| old / new)
        .collect();
    println!("  {:<34} {:>9.2}", "times as fast", median(&ratios));
}

/// The sides in an order of their own for each round.
fn order(random: &mut Random) -> [usize; 4] {
    let mut order = [0, 1, 2, 3];
    for last in (1..order.len()).rev() {
        order.swap(last, random.below(last + 1));
    }
    order
}

fn median(times: &[f64]) -> f64 {
    let mut times = times.to_vec();
    times.sort_by(f64::total_cmp);
    times[times.len() / 2]
}
