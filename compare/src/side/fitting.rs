//! The kinds that the library's parse tells against the chart's, over rows of every kind: which row is refused, and with what set.

use super::{same, Compared, Counts, Difference};
use crate::chart::grammar::LETTERS;
use crate::chart::{has, kinds, Chart, Set};
use crate::generate::programs;
use crate::generate::random::Random;
use crate::model::scan::scan;
use spoonharbor::lent;

/// The rows of the beginnings of which every one is asked about, and the most of a longer one.
const EVERY: usize = 7;
const MOST: usize = 60;

const UNIT: u32 = 0;
const COLON: u32 = 29;
const EOF: u32 = 52;

/// Every beginning of at most seven rows with every kind behind it; then so many longer ones with every kind behind each.
pub fn run(count: u64, seed: u64) -> Compared {
    let mut counts = Counts::default();
    hold_every(&mut Chart::default(), &mut Vec::new(), &mut counts)?;
    let mut random = Random::new(seed);
    for _ in 0..count {
        let beginning = beginning(&mut random);
        let mut chart = Chart::default();
        assert!(beginning.iter().all(|&kind| chart.read(kind)));
        hold_each_kind_behind(&mut chart, &beginning, &mut counts)?;
        counts.add("longer beginnings");
    }
    Ok(counts)
}

/// Every beginning that goes on from one, up to seven rows.
fn hold_every(
    chart: &mut Chart,
    beginning: &mut Vec<u32>,
    counts: &mut Counts,
) -> Result<(), Difference> {
    hold_each_kind_behind(chart, beginning, counts)?;
    counts.add("beginnings of at most seven rows");
    if beginning.len() == EVERY {
        return Ok(());
    }
    for kind in kinds(chart.fitting()).filter(|&kind| kind != EOF) {
        assert!(chart.read(kind));
        beginning.push(kind);
        hold_every(chart, beginning, counts)?;
        beginning.pop();
        chart.take_back();
    }
    Ok(())
}

/// A longer beginning: a way through the chart, or a part of a program that keeps to the checks.
fn beginning(random: &mut Random) -> Vec<u32> {
    if random.one_in(2) {
        return way(random);
    }
    let mut kinds: Vec<u32> = loop {
        let rows = scan(&programs::text(random, MOST), usize::MAX).rows;
        if rows.len() > EVERY + 1 {
            break rows.iter().map(|row| row.kind).collect();
        }
    };
    kinds.truncate(EVERY + 1 + random.below(kinds.len() - EVERY - 1));
    kinds
}

/// Kinds that fit one behind the other, units more often than not.
fn way(random: &mut Random) -> Vec<u32> {
    let mut chart = Chart::default();
    let length = EVERY + 1 + random.below(MOST - EVERY);
    let mut way = Vec::new();
    while way.len() < length {
        let fitting: Vec<u32> = kinds(chart.fitting()).filter(|&kind| kind != EOF).collect();
        let kind = if fitting.contains(&UNIT) && !random.one_in(4) {
            UNIT
        } else {
            random.pick(&fitting)
        };
        assert!(chart.read(kind));
        way.push(kind);
    }
    way
}

fn hold_each_kind_behind(
    chart: &mut Chart,
    beginning: &[u32],
    counts: &mut Counts,
) -> Result<(), Difference> {
    for kind in (0..=EOF).filter(|&kind| !LETTERS[kind as usize].is_empty()) {
        let mut rows = beginning.to_vec();
        rows.extend((kind != EOF).then_some(kind));
        hold(&rows, said(chart, kind), counts)?;
    }
    Ok(())
}

/// What is said of some rows with Eof behind them.
#[derive(Debug, Clone, Copy, PartialEq, Eq)]
enum Said {
    Program,
    /// So many rows begin a program, and these kinds fit behind them.
    Lost {
        row: usize,
        set: Set,
    },
}

/// What the chart says of the rows that it has read with one more of this kind.
fn said(chart: &mut Chart, kind: u32) -> Said {
    let is_read = kind != EOF && chart.read(kind);
    let (row, set) = (chart.rows(), chart.fitting());
    if is_read {
        chart.take_back();
    }
    let is_at_the_end = is_read || kind == EOF;
    if is_at_the_end && has(set, EOF) {
        return Said::Program;
    }
    Said::Lost { row, set }
}

/// Holds the library's parse of a text with rows of these kinds. A check that comes first is counted, and says nothing of the grammar.
fn hold(rows: &[u32], expected: Said, counts: &mut Counts) -> Result<(), Difference> {
    let text = rows.iter().map(|&kind| spelt(kind)).collect::<String>();
    let (words, table) = scanned(text.as_bytes());
    let mut nodes = vec![0; words.len()];
    let answer = lent::parse(text.as_bytes(), &words, &table, &mut nodes);
    let asked = || format!("kinds that fit, `{text}`");
    counts.add("calls");
    let number = answer[lent::NUMBER];
    counts.add(format!("answered {number}"));
    let told = match number {
        0 => Said::Program,
        21 | 22 | 23 | 25 | 30 => {
            let row = lost_row(number, &words, answer[lent::OFFSET]);
            let found = if number == 21 { words[row * 8] } else { 0 };
            same(answer[lent::LENGTH], found, asked)?;
            let [low, high] = [answer[lent::FIRST], answer[lent::SECOND]].map(Set::from);
            let set = high << 32 | low;
            Said::Lost { row, set }
        }
        24 | 26..=29 | 31 | 32 => return Ok(()),
        _ => return same(number, 21, asked),
    };
    same(told, expected, asked)
}

fn scanned(text: &[u8]) -> (Vec<u32>, lent::Words) {
    let mut rows = vec![0; (text.len() + 1) * 8];
    let table = lent::scan(text, &mut rows);
    rows.truncate(table[lent::COUNT] as usize * 8);
    (rows, table)
}

/// The row that a refusal at this offset is about: of 25 the one that should have been the type, which stands in front unless it is Eof.
fn lost_row(number: u32, words: &[u32], offset: u32) -> usize {
    let at = words.chunks(8).position(|row| row[1] == offset);
    let at = at.expect("refusals of the grammar stand at rows");
    match number {
        25 if words[(at - 2) * 8] == COLON => at - 1,
        _ => at,
    }
}

/// A row of this kind, and a blank. Names are a map type's, so that 24 does not come first.
fn spelt(kind: u32) -> String {
    let letter = LETTERS[kind as usize];
    let spelling = match letter {
        "name" => "hash",
        "string" => "\"s\"",
        "number" => "1",
        _ => letter,
    };
    format!("{spelling} ")
}
