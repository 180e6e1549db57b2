//! The library's layout against the second one (`crate::layout`), and its reading back against the original's trees; every byte of
//! lent room.

use super::{same, shown, Compared, Counts, Difference};
use crate::generate::characters::valid_with_characters;
use crate::generate::random::Random;
use crate::generate::{damage, fixed_texts, lengths, nesting, programs, random_text, sample_texts};
use crate::layout::{layout, without_places};
use crate::parse::accepted;
use crate::scan::scan;
use crate::terms::LONGEST_TEXT;
use spoonharbor::lent::{self, Scratch, Words, COUNT, LENGTH, NUMBER, ROW_WORDS};
use std::collections::HashMap;

/// What stands in lent room before a call.
const FILLED: u8 = 0xA5;

/// The library's side: a scratch that stays as the last call left it, and room.
struct Library {
    scratch: Box<Scratch>,
    room: Vec<u8>,
}

/// A text with what a scan and a parse of it told and left.
#[derive(Clone)]
struct Read {
    text: Vec<u8>,
    rows: Vec<u32>,
    table: Words,
    nodes: Vec<u32>,
    count: u32,
    /// The parse's refusal, or 0.
    number: u32,
}

impl Read {
    fn of(text: &[u8]) -> Read {
        let mut rows = vec![0; (text.len() + 1) * ROW_WORDS];
        let table = lent::scan(text, &mut rows);
        rows.truncate(table[COUNT] as usize * ROW_WORDS);
        let mut nodes = vec![0; rows.len()];
        let parsed = lent::parse(text, &rows, &table, &mut nodes);
        nodes.truncate(parsed[COUNT] as usize * ROW_WORDS);
        Read {
            text: text.to_vec(),
            rows,
            table,
            nodes,
            count: parsed[COUNT],
            number: parsed[NUMBER],
        }
    }
}

impl Library {
    fn new() -> Library {
        let mut scratch = lent::scratch();
        scratch.fill(super::CANARY);
        Library {
            scratch,
            room: Vec::new(),
        }
    }

    /// What a call with so many bytes of room answers; the room holds what it left.
    fn laid(&mut self, read: &Read, room: usize) -> Words {
        self.room.clear();
        self.room.resize(room, FILLED);
        lent::layout(
            &read.text,
            &read.rows,
            &read.table,
            &read.nodes,
            read.count,
            &mut self.scratch,
            &mut self.room,
        )
    }

    /// Holds a call to a refusal, which leaves the room untouched.
    fn hold_refused(
        &mut self,
        read: &Read,
        room: usize,
        number: u32,
        asked: impl Fn() -> String,
    ) -> Result<(), Difference> {
        let answer = self.laid(read, room);
        same(answer, [number, 0, 1, 1, 0, 0, 0, 0], &asked)?;
        same(&self.room[..], &vec![FILLED; room][..], &asked)
    }

    /// Holds calls with room in plenty, just enough and too little to a layout.
    fn hold_laid(&mut self, read: &Read, expected: &[u8]) -> Result<(), Difference> {
        let long = expected.len();
        let asked = |room: usize| format!("layout in {room} bytes of {}", shown(&read.text));
        for room in [long, long + 1 + long % 7] {
            let answer = self.laid(read, room);
            same(answer, [0, 0, 0, 0, 0, 0, 0, long as u32], || asked(room))?;
            same(&self.room[..long], expected, || asked(room))?;
            let rest = vec![FILLED; room - long];
            same(&self.room[long..], &rest[..], || asked(room))?;
        }
        for room in [long.saturating_sub(1), long / 2, 0] {
            if room < long {
                self.hold_refused(read, room, 4, || asked(room))?;
            }
        }
        Ok(())
    }
}

/// Every fixed text, those of limit length, the stored samples', and random programs up to `count`, some damaged; then as many with
/// characters of two bytes and more.
pub fn run(count: u64, seed: u64) -> Compared {
    let mut counts = Counts::default();
    let mut library = Library::new();
    let mut random = Random::new(seed);
    let limit = lengths::texts();
    for text in fixed_texts().into_iter().chain(limit).chain(long_layouts()) {
        hold(&text, &mut library, &mut random, &mut counts)?;
    }
    for text in sample_texts(4_000, 1) {
        hold(&text, &mut library, &mut random, &mut counts)?;
        counts.add("stored texts");
    }
    while counts.get("texts") < count {
        let text = program(&mut random);
        hold(&text, &mut library, &mut random, &mut counts)?;
    }
    for _ in 0..count {
        let text = program(&mut random);
        let text = valid_with_characters(&mut random, &text);
        hold(&text, &mut library, &mut random, &mut counts)?;
        counts.add("texts with characters");
    }
    Ok(counts)
}

/// Texts whose layouts have just the most bytes, one less and one more, and some far more.
fn long_layouts() -> impl Iterator<Item = Vec<u8>> {
    let names = ["u", "uu", "uuu"];
    let units = names.map(|name| format!("unit {name}{{{}}}", "x;".repeat(16_381)));
    let chains = [
        format!("unit u{{a{};}}", "+a".repeat(30_000)),
        format!("unit u{{a{};}}", ".b".repeat(30_000)),
    ];
    let texts = units.into_iter().chain(chains);
    texts.map(String::into_bytes)
}

/// A program, or seldom what is nearly one.
fn program(random: &mut Random) -> Vec<u8> {
    let size = [6, 12, 30, 80][random.below(4)];
    match random.below(20) {
        0 => nesting::random_text(random),
        1 => random_text(random),
        2 | 3 => damage::text(random, size),
        _ => programs::text(random, size),
    }
}

/// Holds the layout of one text, its reading back, its own layout, and forged calls.
fn hold(
    text: &[u8],
    library: &mut Library,
    random: &mut Random,
    counts: &mut Counts,
) -> Result<(), Difference> {
    counts.add("texts");
    let read = Read::of(text);
    let expected = original_layout(text);
    let asked = || format!("layout of {}", shown(text));
    same(read.number == 0, expected.is_some(), asked)?;
    let Some((expected, tree)) = expected else {
        counts.add("no program");
        for room in [0, 40] {
            library.hold_refused(&read, room, 3, asked)?;
        }
        return Ok(());
    };
    hold_forged(&read, library, random, counts)?;
    if expected.len() > LONGEST_TEXT {
        counts.add("layouts that are too long");
        for room in [LONGEST_TEXT, 2 * LONGEST_TEXT] {
            library.hold_refused(&read, room, 4, asked)?;
        }
        return Ok(());
    }
    counts.add("layouts");
    library.hold_laid(&read, expected.as_bytes())?;
    hold_read_back(expected.as_bytes(), &tree, library, counts)
}

/// The second layout of a text, and the original's tree without places, if it is a program.
fn original_layout(text: &[u8]) -> Option<(String, String)> {
    if text.len() > LONGEST_TEXT {
        return None;
    }
    let scanned = scan(std::str::from_utf8(text).ok()?);
    if scanned.ending.is_some() {
        return None;
    }
    let program = accepted(&scanned.tokens)?;
    Some((layout(&program, &scanned.tokens), without_places(&program)))
}

/// A layout reads back as the same tree but for places, and its own layout is itself.
fn hold_read_back(
    laid: &[u8],
    tree: &str,
    library: &mut Library,
    counts: &mut Counts,
) -> Result<(), Difference> {
    let asked = || format!("reading of {}", shown(laid));
    let (again, back) = original_layout(laid).unwrap_or_default();
    same(back.as_str(), tree, asked)?;
    counts.add("read back by the original");
    let read = Read::of(laid);
    same(read.number, 0, asked)?;
    let answer = library.laid(&read, laid.len());
    same(
        (answer[NUMBER], answer[LENGTH]),
        (0, laid.len() as u32),
        asked,
    )?;
    same(&library.room[..], laid, asked)?;
    same(again.as_bytes(), laid, asked)?;
    counts.add("laid out twice");
    Ok(())
}

/// Calls that are lent what is not the text's tree: one word of the rows, the nodes or the table changed, a count one off, words missing,
/// another text.
fn hold_forged(
    read: &Read,
    library: &mut Library,
    random: &mut Random,
    counts: &mut Counts,
) -> Result<(), Difference> {
    for _ in 0..4 {
        let (how, forged) = forged(read, random);
        let asked = || format!("layout with {how} of {}", shown(&read.text));
        let room = [0, 1, 300][random.below(3)];
        library.hold_refused(&forged, room, 3, asked)?;
        counts.add(format!("forged, {how}"));
    }
    Ok(())
}

fn forged(read: &Read, random: &mut Random) -> (&'static str, Read) {
    let mut forged = read.clone();
    let how = match random.below(12) {
        0..=3 => {
            change_word(&mut forged.rows, random);
            "a word of a row changed"
        }
        4..=6 => {
            change_word(&mut forged.nodes, random);
            "a word of a node changed"
        }
        7 => {
            let word = [NUMBER, COUNT, LENGTH][random.below(3)];
            forged.table[word] = changed(forged.table[word], random);
            "a word of the table changed"
        }
        8 => {
            forged.count = forged.count.wrapping_add([1, u32::MAX][random.below(2)]);
            "a count one off"
        }
        9 => {
            forged.nodes.extend([0; ROW_WORDS]);
            forged.count += 1;
            "a node more"
        }
        10 => {
            let words = match random.one_in(2) {
                true => &mut forged.rows,
                false => &mut forged.nodes,
            };
            words.truncate(random.below(words.len()));
            "words that are not lent"
        }
        _ => match another_text(&read.text) {
            Some(text) => {
                forged.text = text;
                "another text"
            }
            None => {
                forged.nodes.clear();
                "no nodes"
            }
        },
    };
    (how, forged)
}

/// The text with its first number begun by a letter, so that its rows are others. A name's letters are in no row and no node: with one of
/// them changed the lent tree would be the other text's too.
fn another_text(text: &[u8]) -> Option<Vec<u8>> {
    let scanned = scan(std::str::from_utf8(text).ok()?);
    let number = scanned.rows.iter().find(|row| row.kind == 50)?;
    let mut other = text.to_vec();
    other[number.start as usize] = b'a';
    Some(other)
}

/// Changes one of some words, of which there is at least one.
fn change_word(words: &mut [u32], random: &mut Random) {
    let at = random.below(words.len());
    words[at] = changed(words[at], random);
}

/// Another number: a near one, one that differs in a bit, or any small one.
fn changed(word: u32, random: &mut Random) -> u32 {
    let other = match random.below(4) {
        0 => word.wrapping_add(1),
        1 => word.wrapping_sub(1),
        2 => word ^ 1 << random.below(32),
        _ => random.below(64) as u32,
    };
    match other == word {
        true => word ^ 1,
        false => other,
    }
}

// ---- every short expression

/// Every expression of at most so many rows: its layout against the second one, read back, and among all expressions with the same tree
/// the one that has the fewest rows; no other has as few.
pub fn run_expressions(most: usize) -> Compared {
    let mut counts = Counts::default();
    let mut library = Library::new();
    let mut by_tree: HashMap<String, Fewest> = HashMap::new();
    for expression in expressions(most) {
        let text = unit_of(&expression);
        let Some((expected, tree)) = original_layout(&text) else {
            counts.add("not programs: a call on no variable");
            continue;
        };
        counts.add("expressions");
        library.hold_laid(&Read::of(&text), expected.as_bytes())?;
        hold_read_back(expected.as_bytes(), &tree, &mut library, &mut counts)?;
        let fewest = by_tree.entry(tree).or_insert(Fewest {
            laid: expected.into_bytes(),
            rows: usize::MAX,
            with_as_few: Vec::new(),
        });
        fewest.meet(expression);
    }
    for fewest in by_tree.values() {
        let only = match &fewest.with_as_few[..] {
            [only] => unit_of(only),
            _ => Vec::new(),
        };
        let asked = || format!("the fewest rows of {}", shown(&fewest.laid));
        same(&spelt(&fewest.laid), &spelt(&only), asked)?;
    }
    counts.add_many("trees", by_tree.len() as u64);
    Ok(counts)
}

/// What is known of the expressions with one tree: its layout, and those with the fewest rows.
struct Fewest {
    laid: Vec<u8>,
    rows: usize,
    with_as_few: Vec<Vec<&'static str>>,
}

impl Fewest {
    fn meet(&mut self, expression: Vec<&'static str>) {
        if expression.len() < self.rows {
            self.rows = expression.len();
            self.with_as_few.clear();
        }
        if expression.len() == self.rows {
            self.with_as_few.push(expression);
        }
    }
}

/// A text's rows as they are spelt.
fn spelt(text: &[u8]) -> Vec<String> {
    let text = String::from_utf8_lossy(text);
    let rows = scan(&text).tokens.into_iter();
    rows.map(|token| token.lexeme).collect()
}

/// A unit with one expression as its statement.
fn unit_of(expression: &[&str]) -> Vec<u8> {
    format!("unit u{{{};}}", expression.join(" ")).into_bytes()
}

/// Expressions by the lines of the grammar, those of n rows at place n.
#[derive(Default)]
struct Lines {
    sums: Vec<Vec<Vec<&'static str>>>,
    shifts: Vec<Vec<Vec<&'static str>>>,
    products: Vec<Vec<Vec<&'static str>>>,
    dereferences: Vec<Vec<Vec<&'static str>>>,
    operands: Vec<Vec<Vec<&'static str>>>,
    arguments: Vec<Vec<Vec<&'static str>>>,
}

/// Every expression of at most so many rows, over one name, one negative number, two signs of each level, fields and calls.
fn expressions(most: usize) -> Vec<Vec<&'static str>> {
    let mut lines = Lines::default();
    for rows in 0..=most {
        lines.grow(rows);
    }
    lines.sums.concat()
}

impl Lines {
    /// Adds those of so many rows, all shorter ones being there.
    fn grow(&mut self, rows: usize) {
        let mut operands: Vec<Vec<&'static str>> = Vec::new();
        if rows == 1 {
            operands.extend([vec!["x"], vec!["-1"]]);
        }
        if rows >= 3 {
            let inner = &self.sums[rows - 2];
            operands.extend(inner.iter().map(|inner| around("(", inner, ")")));
            let bases = &self.operands[rows - 2];
            operands.extend(bases.iter().map(|base| with(base, &[".", "f"])));
        }
        for base in 1..rows.saturating_sub(3) {
            let arguments = &self.arguments[rows - 4 - base];
            operands.extend(
                pairs(&self.operands[base], &[".", "f", "("], arguments)
                    .map(|call| with(&call, &[")"])),
            );
        }
        self.operands.push(operands);
        let mut dereferences = self.operands[rows].clone();
        if rows >= 1 {
            dereferences.extend(
                self.dereferences[rows - 1]
                    .iter()
                    .map(|inner| around("*", inner, "")),
            );
        }
        self.dereferences.push(dereferences);
        let products = joined(&self.products, &["*", "/"], &self.dereferences, rows);
        self.products
            .push([&self.dereferences[rows][..], &products].concat());
        let shifts = joined(&self.shifts, &["<<", ">>"], &self.products, rows);
        self.shifts
            .push([&self.products[rows][..], &shifts].concat());
        let sums = joined(&self.sums, &["+", "-"], &self.products, rows);
        self.sums.push([&self.shifts[rows][..], &sums].concat());
        let mut arguments = joined(&self.arguments, &[","], &self.sums, rows);
        arguments.extend(self.sums[rows].iter().cloned());
        if rows == 0 {
            arguments.push(Vec::new());
        }
        self.arguments.push(arguments);
    }
}

/// Left parts, a sign and right parts, so many rows together; the left ones are not empty.
fn joined(
    left: &[Vec<Vec<&'static str>>],
    signs: &[&'static str],
    right: &[Vec<Vec<&'static str>>],
    rows: usize,
) -> Vec<Vec<&'static str>> {
    let mut found = Vec::new();
    for size in 1..rows.saturating_sub(1) {
        for sign in signs {
            found.extend(pairs(&left[size], &[*sign], &right[rows - 1 - size]));
        }
    }
    found
}

fn pairs<'a>(
    left: &'a [Vec<&'static str>],
    between: &'a [&'static str],
    right: &'a [Vec<&'static str>],
) -> impl Iterator<Item = Vec<&'static str>> + 'a {
    left.iter().flat_map(move |left| {
        right
            .iter()
            .map(move |right| [left, between, right].concat())
    })
}

fn with(expression: &[&'static str], rows: &[&'static str]) -> Vec<&'static str> {
    [expression, rows].concat()
}

fn around(before: &'static str, inner: &[&'static str], behind: &'static str) -> Vec<&'static str> {
    let rows = [&[before], inner, &[behind]].concat();
    rows.into_iter().filter(|row| !row.is_empty()).collect()
}
