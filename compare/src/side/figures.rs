//! The library's tallies against those of the original's tree (`crate::figures`), of forged nodes, and joined in every order.

use super::{same, shown, Compared, Counts, Difference, CANARY};
use crate::figures::{join, tally, tally_of_nodes, Counts as Tally, MOST_NODES, NODE_WORDS};
use crate::generate::characters::valid_with_characters;
use crate::generate::random::Random;
use crate::generate::{damage, fixed_texts, lengths, nesting, programs, random_text, sample_texts};
use crate::parse::accepted;
use crate::scan::scan;
use crate::terms::LONGEST_TEXT;
use spoonharbor::lent::{self, COUNT, NUMBER, ROW_WORDS};

/// How many tallies are joined at once.
const JOINED: usize = 6;

/// Every fixed text, those of limit length, the stored samples', and random programs up to `count`, some damaged; then as many with
/// characters of two bytes and more. Beside each its forged nodes, and joinings.
pub fn run(count: u64, seed: u64) -> Compared {
    let mut side = Side {
        random: Random::new(seed),
        counts: Counts::default(),
        waiting: Vec::new(),
    };
    side.hold_most_nodes()?;
    for text in fixed_texts().into_iter().chain(lengths::texts()) {
        side.hold(&text)?;
    }
    for text in sample_texts(4_000, 1) {
        side.hold(&text)?;
        side.counts.add("stored texts");
    }
    while side.counts.get("texts") < count {
        let text = program(&mut side.random);
        side.hold(&text)?;
    }
    for _ in 0..count {
        let text = program(&mut side.random);
        let text = valid_with_characters(&mut side.random, &text);
        side.hold(&text)?;
        side.counts.add("texts with characters");
    }
    Ok(side.counts)
}

/// A program, or seldom what is nearly one.
fn program(random: &mut Random) -> Vec<u8> {
    let size = [6, 12, 30, 80][random.below(4)];
    match random.below(20) {
        0 => nesting::random_text(random),
        1 => random_text(random),
        2 => damage::text(random, size),
        _ => programs::text(random, size),
    }
}

/// The original's tally of a text, if it is a program.
fn original_tally(text: &[u8]) -> Option<Tally> {
    if text.len() > LONGEST_TEXT {
        return None;
    }
    let scanned = scan(std::str::from_utf8(text).ok()?);
    if scanned.ending.is_some() {
        return None;
    }
    Some(tally(&accepted(&scanned.tokens)?))
}

/// The words of a text's nodes, if the library parses it.
fn nodes_of(text: &[u8]) -> Option<Vec<u32>> {
    let mut rows = vec![0; (text.len() + 1) * ROW_WORDS];
    let table = lent::scan(text, &mut rows);
    rows.truncate(table[COUNT] as usize * ROW_WORDS);
    let mut nodes = vec![0; rows.len()];
    let parsed = lent::parse(text, &rows, &table, &mut nodes);
    nodes.truncate(parsed[COUNT] as usize * NODE_WORDS);
    (parsed[NUMBER] == 0).then_some(nodes)
}

struct Side {
    random: Random,
    counts: Counts,
    /// Tallies that are still to be joined.
    waiting: Vec<Tally>,
}

impl Side {
    /// Holds the tally of one text, of forged nodes, and now and then joinings.
    fn hold(&mut self, text: &[u8]) -> Result<(), Difference> {
        self.counts.add("texts");
        let asked = || format!("tally of {}", shown(text));
        let (nodes, expected) = (nodes_of(text), original_tally(text));
        same(nodes.is_some(), expected.is_some(), asked)?;
        let (Some(nodes), Some(expected)) = (nodes, expected) else {
            self.counts.add("no program");
            return Ok(());
        };
        let count = (nodes.len() / NODE_WORDS) as u32;
        same(lent::tally(&nodes, count), (0, expected), asked)?;
        // What is lent after the nodes plays no part.
        let longer = [&nodes[..], &[CANARY; 11]].concat();
        same(lent::tally(&longer, count), (0, expected), asked)?;
        self.counts.add("tallies");
        self.hold_forged(&nodes)?;
        self.waiting.push(expected);
        if self.waiting.len() == JOINED {
            let tallies = std::mem::take(&mut self.waiting);
            self.hold_sum(&tallies)?;
            self.hold_large(&tallies)?;
        }
        Ok(())
    }

    /// Nodes with words changed, or fewer of them lent, or more asked for.
    fn hold_forged(&mut self, nodes: &[u32]) -> Result<(), Difference> {
        for _ in 0..4 {
            let mut words = nodes.to_vec();
            let mut count = (words.len() / NODE_WORDS) as u32;
            let how = match self.random.below(8) {
                0..=2 => {
                    let node = self.random.below(count as usize) * NODE_WORDS;
                    words[node] = self
                        .random
                        .pick(&[0, 1, 13, 20, 21, 25, 28, 29, 30, 77, CANARY]);
                    "a kind"
                }
                3..=5 => {
                    let node = self.random.below(count as usize) * NODE_WORDS;
                    words[node] = self.random.pick(&[25, 28]);
                    words[node + 4] = self.random.pick(&[0, 1, 5, 6, 10, 11, u32::MAX]);
                    words[node + 7] = self.random.pick(&[0, 1, 1 << 31, u32::MAX]);
                    "a unit's kind or a map's type"
                }
                6 => {
                    words.truncate(self.random.below(words.len()));
                    "words that are not lent"
                }
                _ => {
                    count = self
                        .random
                        .pick(&[0, count - 1, count + 1, MOST_NODES + 1, u32::MAX]);
                    "a count"
                }
            };
            let expected = tally_of_nodes(&words, count);
            let asked = || format!("tally with {how} changed of {count} nodes {words:?}");
            same(lent::tally(&words, count), expected, asked)?;
            self.counts
                .add(format!("forged, {how}, answered {}", expected.0));
        }
        Ok(())
    }

    /// As many nodes as may be, and one more; a wrong one as the last.
    fn hold_most_nodes(&mut self) -> Result<(), Difference> {
        let map = [28, 0, 0, 0, 5, 0, 0, u32::MAX];
        let mut words = vec![map; MOST_NODES as usize + 1].concat();
        let last = MOST_NODES as usize * NODE_WORDS;
        for wrong in [false, true] {
            if wrong {
                words[last - NODE_WORDS] = 0;
            }
            for count in [MOST_NODES - 1, MOST_NODES, MOST_NODES + 1] {
                let expected = tally_of_nodes(&words, count);
                same(lent::tally(&words, count), expected, || {
                    format!("tally of {count} maps")
                })?;
                self.counts
                    .add(format!("most nodes, answered {}", expected.0));
            }
        }
        Ok(())
    }

    /// Joins tallies in a random order and grouping, which all come to one sum.
    fn hold_sum(&mut self, tallies: &[Tally]) -> Result<(), Difference> {
        let expected = std::array::from_fn(|index| tallies.iter().map(|one| one[index]).sum());
        for _ in 0..4 {
            let mut left = tallies.to_vec();
            // The empty tally, wherever it is joined, changes nothing.
            left.push([0; 20]);
            while left.len() > 1 {
                let first = left.swap_remove(self.random.below(left.len()));
                let second = left.swap_remove(self.random.below(left.len()));
                left.push(self.joined(&first, &second)?);
            }
            same(left[0], expected, || format!("the sum of {tallies:?}"))?;
            self.counts.add("sums");
        }
        Ok(())
    }

    /// Joins tallies with one that has a count near the most.
    fn hold_large(&mut self, tallies: &[Tally]) -> Result<(), Difference> {
        for tally in tallies {
            let mut large = self.random.pick(tallies);
            let counted: Vec<usize> = (0..20).filter(|&index| tally[index] > 0).collect();
            let at = match counted.is_empty() {
                true => self.random.below(20),
                false => self.random.pick(&counted),
            };
            // The most, one less, just what fits, and one more than fits.
            let room = self
                .random
                .pick(&[0, 1, tally[at], tally[at].saturating_sub(1)]);
            large[at] = u64::MAX - room;
            self.joined(tally, &large)?;
            self.joined(&large, tally)?;
        }
        Ok(())
    }

    /// What the library joins two tallies to, held to the second joining.
    fn joined(&mut self, first: &Tally, second: &Tally) -> Result<Tally, Difference> {
        let expected = join(first, second);
        let asked = || format!("{first:?} and {second:?} joined");
        same(lent::join(first, second), expected, asked)?;
        self.counts
            .add(format!("joinings, answered {}", expected.0));
        Ok(expected.1)
    }
}
