//! The kinds with which some program goes on behind some rows, by a chart (Earley's): for each row, all rules of the grammar that are under way
//! behind it, together with where each began. No parser that reads from the top down has a part in it, so it serves to judge one.

pub mod grammar;

use grammar::{Grammar, Part, GRAMMAR};

/// A set of kinds: bit k for kind k.
pub type Set = u64;

/// Whether a kind is in a set.
pub fn has(set: Set, kind: u32) -> bool {
    set >> kind & 1 == 1
}

/// The kinds of a set.
pub fn kinds(set: Set) -> impl Iterator<Item = u32> {
    (0..Set::BITS).filter(move |&kind| has(set, kind))
}

/// A rule under way: how many of its parts have been read, and behind how many rows it began.
#[derive(Debug, Clone, Copy, PartialEq, Eq)]
struct Item {
    rule: usize,
    read: usize,
    began: usize,
}

impl Item {
    fn one_on(self) -> Item {
        let read = self.read + 1;
        Item { read, ..self }
    }
}

/// Some rows with which programs begin, and for each number of them what is under way behind so many.
pub struct Chart {
    grammar: &'static Grammar,
    columns: Vec<Vec<Item>>,
}

impl Default for Chart {
    fn default() -> Chart {
        let mut chart = Chart {
            grammar: &GRAMMAR,
            columns: Vec::new(),
        };
        let program = Item {
            rule: 0,
            read: 0,
            began: 0,
        };
        chart.add_column(vec![program]);
        chart
    }
}

impl Chart {
    /// How many rows have been read.
    pub fn rows(&self) -> usize {
        self.columns.len() - 1
    }

    /// The kinds with which some program goes on. Every thing of the grammar makes some rows, so each row that is awaited is one.
    pub fn fitting(&self) -> Set {
        let awaited = self.columns[self.rows()].iter().map(|item| self.next(item));
        awaited.fold(0, |set, part| match part {
            Some(Part::Row(kind)) => set | 1 << kind,
            _ => set,
        })
    }

    /// Reads a row of this kind, if it fits; whether it does.
    pub fn read(&mut self, kind: u32) -> bool {
        let awaiting = |item: &&Item| self.next(item) == Some(Part::Row(kind));
        let column = self.columns[self.rows()].iter();
        let read: Vec<Item> = column.filter(awaiting).map(|item| item.one_on()).collect();
        let fits = !read.is_empty();
        if fits {
            self.add_column(read);
        }
        fits
    }

    /// Takes the last row back.
    pub fn take_back(&mut self) {
        if self.rows() > 0 {
            self.columns.pop();
        }
    }

    fn next(&self, item: &Item) -> Option<Part> {
        self.grammar.rules[item.rule].parts.get(item.read).copied()
    }

    /// What is under way behind one row more, from the rules that read it, with all that these bring.
    fn add_column(&mut self, mut column: Vec<Item>) {
        let mut done = 0;
        while let Some(&item) = column.get(done) {
            for brought in self.brought_by(item) {
                if !column.contains(&brought) {
                    column.push(brought);
                }
            }
            done += 1;
        }
        self.columns.push(column);
    }

    /// What a rule under way in the column that is being made brings into it: where it awaits a thing, the rules of that thing, and itself
    /// behind it if it may be nothing; where it has ended, the rules that awaited it.
    fn brought_by(&self, item: Item) -> Vec<Item> {
        let here = self.columns.len();
        match self.next(&item) {
            Some(Part::Row(_)) => Vec::new(),
            Some(Part::Thing(thing)) => {
                let begun = self.grammar.ways[thing].iter().map(|&rule| Item {
                    rule,
                    read: 0,
                    began: here,
                });
                let passed = self.grammar.may_be_empty(thing).then(|| item.one_on());
                begun.chain(passed).collect()
            }
            // It is nothing, and whatever awaits it passes it by.
            None if item.began == here => Vec::new(),
            None => {
                let ended = Some(Part::Thing(self.grammar.rules[item.rule].thing));
                let waiting = self.columns[item.began].iter();
                let waiting = waiting.filter(|waiting| self.next(waiting) == ended);
                waiting.map(|waiting| waiting.one_on()).collect()
            }
        }
    }
}

/// The kinds that fit behind rows of these kinds; nothing if no program begins with them.
pub fn fitting(kinds: impl IntoIterator<Item = u32>) -> Option<Set> {
    let mut chart = Chart::default();
    kinds
        .into_iter()
        .all(|kind| chart.read(kind))
        .then(|| chart.fitting())
}
