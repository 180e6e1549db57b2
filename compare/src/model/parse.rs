//! The parse of a table into nodes, every word of which is said. The kinds that would have fitted are the chart's.

use super::table::Lent;
use super::{refusal, START};
use crate::chart::fitting;
use crate::nodes::MISSING;
use crate::terms::{Refusal, Row};

/// A node's eight words.
pub type NodeWords = [u32; 8];

/// The constructs that may be open at once.
const MOST_OPEN: u32 = 64;

/// The map types in source order, from 1.
const MAP_TYPES: [&[u8]; 5] = [b"hash", b"array", b"ringbuf", b"lru_hash", b"prog_array"];

/// The nodes of a lent table, or the refusal, for so much node room.
pub fn parse(text: &[u8], lent: Lent, room: usize) -> Result<Vec<NodeWords>, Refusal> {
    lent.judged(text)?;
    if let Some(ending) = lent.ending() {
        return Err(ending);
    }
    if room < lent.count() {
        return Err(refusal(5, START));
    }
    let mut reader = Reader {
        text,
        rows: lent.all_rows().unwrap_or_default(),
        at: 0,
        open: 0,
        nodes: Vec::new(),
    };
    reader.program()?;
    Ok(reader.nodes)
}

/// What a reading gives, or where and why it stops.
type Read<T> = Result<T, Refusal>;

/// An expression as far as its surroundings ask: its place, and whether it is a variable.
#[derive(Clone, Copy)]
struct Expression {
    place: u32,
    is_variable: bool,
}

struct Reader<'a> {
    text: &'a [u8],
    rows: Vec<Row>,
    /// The row that is read next.
    at: usize,
    open: u32,
    nodes: Vec<NodeWords>,
}

impl Reader<'_> {
    fn kind(&self) -> u32 {
        self.rows[self.at].kind
    }

    fn spelling(&self, row: u32) -> &[u8] {
        let row = &self.rows[row as usize];
        &self.text[row.start as usize..row.end as usize]
    }

    fn value(&self, row: u32) -> i64 {
        self.rows[row as usize].value
    }

    fn refused_at<T>(&self, number: u32, row: u32) -> Read<T> {
        Err(refusal(number, self.rows[row as usize].place()))
    }

    fn refused<T>(&self, number: u32) -> Read<T> {
        self.refused_at(number, self.at as u32)
    }

    /// Refused at the row that is next, with the kinds that fit in place of the row `lost`.
    fn misfit<T>(&self, number: u32, lost: u32) -> Read<T> {
        let in_front = &self.rows[..lost as usize];
        let set = fitting(in_front.iter().map(|row| row.kind));
        let set = set.expect("programs begin with what was read");
        let stop = refusal(number, self.rows[self.at].place());
        Err(stop.with_set(set, self.kind()))
    }

    /// Takes the row that is next; Eof stays next.
    fn take(&mut self) -> u32 {
        let row = self.at;
        if self.kind() != 52 {
            self.at += 1;
        }
        row as u32
    }

    /// Takes the next row if it is of this kind.
    fn taken(&mut self, kind: u32) -> Option<u32> {
        (self.kind() == kind).then(|| self.take())
    }

    /// Takes the next row, which must be of this kind.
    fn expect(&mut self, wanted: u32) -> Read<u32> {
        if let Some(row) = self.taken(wanted) {
            return Ok(row);
        }
        self.misfit(21, self.at as u32)
    }

    fn expect_all(&mut self, wanted: &[u32]) -> Read<()> {
        for kind in wanted {
            self.expect(*kind)?;
        }
        Ok(())
    }

    /// Counts a construct that the row opens.
    fn enter(&mut self, row: u32) -> Read<()> {
        if self.open == MOST_OPEN {
            return self.refused_at(32, row);
        }
        self.open += 1;
        Ok(())
    }

    fn leave(&mut self) {
        self.open -= 1;
    }

    fn node(&mut self, kind: u32, place: u32, name: u32, children: u32) {
        self.node_with(kind, place, name, children, [0; 4]);
    }

    fn node_with(&mut self, kind: u32, place: u32, name: u32, children: u32, facts: [u32; 4]) {
        let [a, b, c, d] = facts;
        self.nodes.push([kind, place, name, children, a, b, c, d]);
    }

    fn program(&mut self) -> Read<()> {
        let mut children = 0;
        while self.kind() != 52 {
            match self.kind() {
                0 => self.unit()?,
                6 => self.map()?,
                15 => self.event()?,
                _ => return self.misfit(22, self.at as u32),
            }
            children += 1;
        }
        self.node(29, self.at as u32, MISSING, children);
        Ok(())
    }

    // ---- units

    fn unit(&mut self) -> Read<()> {
        let place = self.take();
        let name = self.expect(48)?;
        self.expect(25)?;
        let (mut children, mut kind, mut licence) = (0, None, MISSING);
        while self.kind() != 26 {
            match self.kind() {
                1 => {
                    let string = self.text_item(23)?;
                    kind = kind.or(Some(section_kind(section_text(self.spelling(string)))));
                }
                2 => licence = self.text_item(24)?,
                _ => self.statement()?,
            }
            children += 1;
        }
        self.expect(26)?;
        self.node_with(
            25,
            place,
            name,
            children,
            [kind.unwrap_or(10), licence, 0, 0],
        );
        Ok(())
    }

    /// A section or a licence; gives back its string's row.
    fn text_item(&mut self, node_kind: u32) -> Read<u32> {
        self.take();
        let string = self.expect(49)?;
        self.expect(32)?;
        self.node(node_kind, string, string, 0);
        Ok(string)
    }

    fn statement(&mut self) -> Read<()> {
        match self.kind() {
            4 => self.declaration(16),
            5 => self.declaration(17),
            14 => self.declaration(18),
            3 => {
                self.take();
                let place = self.at as u32;
                self.expression()?;
                self.expect(32)?;
                self.node(19, place, MISSING, 1);
                Ok(())
            }
            11 => self.guarded(),
            _ => self.assignment(),
        }
    }

    fn declaration(&mut self, node_kind: u32) -> Read<()> {
        self.take();
        let name = self.expect(48)?;
        self.expect(35)?;
        self.expression()?;
        self.expect(32)?;
        self.node(node_kind, name, name, 1);
        Ok(())
    }

    fn assignment(&mut self) -> Read<()> {
        let target = self.expression()?;
        let node_kind = match self.kind() {
            35 => 14,
            36 => 15,
            _ => 13,
        };
        if node_kind != 13 {
            self.take();
            self.expression()?;
        }
        self.expect(32)?;
        let children = if node_kind == 13 { 1 } else { 2 };
        self.node(node_kind, target.place, MISSING, children);
        Ok(())
    }

    fn guarded(&mut self) -> Read<()> {
        self.take();
        let place = self.at as u32;
        self.expect_all(&[13, 27])?;
        let name = self.expect(48)?;
        self.expect(28)?;
        self.node(1, name, name, 0);
        self.body(21)?;
        let mut children = 2;
        if self.taken(12).is_some() {
            self.body(22)?;
            children = 3;
        }
        self.node(20, place, MISSING, children);
        Ok(())
    }

    fn body(&mut self, node_kind: u32) -> Read<()> {
        let place = self.expect(25)?;
        self.enter(place)?;
        let mut children = 0;
        while self.kind() != 26 {
            self.statement()?;
            children += 1;
        }
        self.take();
        self.leave();
        self.node(node_kind, place, MISSING, children);
        Ok(())
    }

    // ---- expressions

    /// Level 0 is add, whose right sides are of level 2 as those of level 1, shift; level 2 is mul over unary.
    fn expression(&mut self) -> Read<Expression> {
        self.level(0)
    }

    fn level(&mut self, level: u32) -> Read<Expression> {
        let mut left = match level {
            0 | 1 => self.level(level + 1)?,
            _ => self.unary()?,
        };
        while let Some(node_kind) = operator(level, self.kind()) {
            self.take();
            match level {
                0 | 1 => self.level(2)?,
                _ => self.unary()?,
            };
            self.node(node_kind, left.place, MISSING, 2);
            left.is_variable = false;
        }
        Ok(left)
    }

    fn unary(&mut self) -> Read<Expression> {
        let Some(star) = self.taken(43) else {
            return self.primary();
        };
        self.enter(star)?;
        let inner = self.unary()?;
        self.leave();
        self.node(3, inner.place, MISSING, 1);
        Ok(Expression {
            place: inner.place,
            is_variable: false,
        })
    }

    fn primary(&mut self) -> Read<Expression> {
        let mut expression = self.operand()?;
        while self.taken(30).is_some() {
            let name = self.expect(48)?;
            match self.taken(27) {
                Some(opening) => {
                    let arguments = self.arguments(opening)?;
                    if !expression.is_variable {
                        return self.refused_at(31, name);
                    }
                    self.node(11, expression.place, name, 1 + arguments);
                }
                None => {
                    self.node(12, name, name, 1);
                    expression.place = name;
                }
            }
            expression.is_variable = false;
        }
        Ok(expression)
    }

    fn operand(&mut self) -> Read<Expression> {
        if let Some(number) = self.taken(50) {
            let value = self.value(number) as u64;
            let facts = [value as u32, (value >> 32) as u32, 0, 0];
            self.node_with(2, number, MISSING, 0, facts);
            return Ok(Expression {
                place: number,
                is_variable: false,
            });
        }
        if let Some(opening) = self.taken(27) {
            self.enter(opening)?;
            let inner = self.expression()?;
            self.expect(28)?;
            self.leave();
            return Ok(inner);
        }
        let name = self.expect(48)?;
        self.node(1, name, name, 0);
        Ok(Expression {
            place: name,
            is_variable: true,
        })
    }

    /// The arguments behind a `(`, and its `)`; gives back how many they are.
    fn arguments(&mut self, opening: u32) -> Read<u32> {
        let mut count = 0;
        if self.kind() != 28 {
            self.enter(opening)?;
            loop {
                self.expression()?;
                count += 1;
                if self.taken(31).is_none() {
                    break;
                }
            }
            self.leave();
        }
        self.expect(28)?;
        Ok(count)
    }

    // ---- maps

    fn map(&mut self) -> Read<()> {
        self.take();
        let name = self.expect(48)?;
        self.expect(25)?;
        let (mut map_type, mut key, mut value, mut max) = (None, None, None, None);
        while self.kind() != 26 {
            match self.kind() {
                7 => map_type = Some(self.map_type()?),
                8 => key = Some(self.field_type()?),
                9 => value = Some(self.field_type()?),
                10 => max = Some(self.maximum()?),
                _ => return self.misfit(23, self.at as u32),
            }
            self.expect(32)?;
        }
        self.take();
        let is_ringbuf = map_type == Some(3);
        let lacking = [
            (map_type.is_none(), 1),
            (key.is_none() && !is_ringbuf, 2),
            (value.is_none() && !is_ringbuf, 3),
            (max.is_none(), 4),
        ];
        if let Some((_, field)) = lacking.into_iter().find(|(lacks, _)| *lacks) {
            let mut stop = refusal(29, self.rows[self.at].place());
            stop.told = [field, 0];
            return Err(stop);
        }
        let facts = [map_type, key, value, max].map(Option::unwrap_or_default);
        self.node_with(28, name, name, 0, facts);
        Ok(())
    }

    fn map_type(&mut self) -> Read<u32> {
        self.take();
        self.expect_all(&[29, 30])?;
        let name = self.expect(48)?;
        let spelling = self.spelling(name);
        match MAP_TYPES.iter().position(|known| *known == spelling) {
            Some(index) => Ok(index as u32 + 1),
            None => self.refused(24),
        }
    }

    fn field_type(&mut self) -> Read<u32> {
        self.take();
        self.expect(29)?;
        let row = self.take();
        match self.rows[row as usize].kind {
            kind @ 21..=24 => Ok(kind - 20),
            _ => self.misfit(25, row),
        }
    }

    fn maximum(&mut self) -> Read<u32> {
        self.take();
        self.expect(29)?;
        let mut last = self.expect(50)?;
        let mut value = self.value(last);
        while let shift @ (46 | 47) = self.kind() {
            self.take();
            last = self.expect(50)?;
            let count = match u32::try_from(self.value(last)) {
                Ok(count @ 0..=63) => count,
                _ => return self.refused_at(28, last),
            };
            value = if shift == 47 {
                value << count
            } else {
                value >> count
            };
        }
        if value < 0 {
            return self.refused(26);
        }
        match u32::try_from(value) {
            Ok(max) => Ok(max),
            Err(_) => self.refused_at(27, last),
        }
    }

    // ---- events

    fn event(&mut self) -> Read<()> {
        self.take();
        let name = self.expect(48)?;
        self.expect(25)?;
        let mut children = 0;
        while self.kind() != 26 {
            self.event_field()?;
            children += 1;
        }
        self.take();
        self.node(27, name, name, children);
        Ok(())
    }

    fn event_field(&mut self) -> Read<()> {
        let name = self.expect(48)?;
        self.expect(29)?;
        let facts = match self.kind() {
            kind @ 21..=24 => {
                self.take();
                match self.kind() {
                    33 => [3, kind - 20, self.length()?, 0],
                    _ => [1, kind - 20, 0, 0],
                }
            }
            51 => {
                self.take();
                [2, 0, self.length()?, 0]
            }
            _ => return self.misfit(30, self.at as u32),
        };
        self.expect(32)?;
        self.node_with(26, name, name, 0, facts);
        Ok(())
    }

    fn length(&mut self) -> Read<u32> {
        self.expect(33)?;
        let number = self.expect(50)?;
        let Ok(length) = u32::try_from(self.value(number)) else {
            return self.refused_at(27, number);
        };
        self.expect(34)?;
        Ok(length)
    }
}

/// The node kind of a row kind that is an operator of this level.
fn operator(level: u32, kind: u32) -> Option<u32> {
    match (level, kind) {
        (0, 41) => Some(4),
        (0, 42) => Some(5),
        (1, 47) => Some(9),
        (1, 46) => Some(10),
        (2, 43) => Some(6),
        (2, 44) => Some(7),
        (2, 45) => Some(8),
        _ => None,
    }
}

/// A string's content without its last byte if that is a quote.
fn section_text(string: &[u8]) -> &[u8] {
    let content = &string[1..string.len() - 1];
    match content {
        [before @ .., b'"'] => before,
        _ => content,
    }
}

/// The program kind of a section's text.
pub fn section_kind(section: &[u8]) -> u32 {
    const BEGINNINGS: [(&[u8], u32); 10] = [
        (b"tc", 1),
        (b"sk_", 2),
        (b"cgroup/", 3),
        (b"kprobe/", 4),
        (b"kretprobe/", 4),
        (b"tracepoint/", 5),
        (b"raw_tracepoint/", 6),
        (b"fentry/", 7),
        (b"fexit/", 8),
        (b"lsm/", 9),
    ];
    match section {
        b"xdp" => 0,
        b"classifier" => 1,
        _ => BEGINNINGS
            .iter()
            .find(|(beginning, _)| section.starts_with(beginning))
            .map_or(10, |(_, kind)| *kind),
    }
}
