//! Texts whose answers LANGUAGE.md and DECISIONS.md state, with these answers.
//!
//! The expectations are those papers' words, not output of the original. The
//! edit is no part of the original: its example is here as the edited text only.

use crate::chart::grammar::kind_of;
use crate::chart::Set;
use crate::generate::nesting::Construct::{Group, Star, Then};
use crate::generate::nesting::{nested, opened, repeated};
use crate::nodes::{Word, MISSING};
use crate::terms::{Answer, Parsed, Refusal, Row};

/// What a paper says about a text.
#[derive(Debug)]
pub enum Expected {
    /// The text scans, and these are its rows: kind, start, end, line, column, value.
    Rows(Vec<[i64; 6]>),
    /// The scan is refused behind rows of these kinds: number, offset, line, column.
    Ending(Vec<u32>, [u32; 4]),
    /// The parse is refused: number, offset, line, column, the two words that are told, and the kind that was found.
    Refused([u32; 7]),
    /// The parse is accepted.
    Accepted,
    /// The parse is accepted, and these are the declarations' nodes.
    Nodes(Vec<[Word; 8]>),
    /// LANGUAGE.md answers 1 or 2, and the original is not asked.
    NotCompared(u32),
    /// LANGUAGE.md answers 27 or 32, which the original does not know.
    NotComparable(u32),
}

use Expected::*;

/// A text with what a paper says about it.
pub struct EdgeCase {
    /// The paper and the point in it.
    pub source: &'static str,
    pub text: Vec<u8>,
    pub expected: Expected,
}

impl EdgeCase {
    /// Whether an answer is the expected one.
    pub fn is_met_by(&self, answer: &Answer) -> bool {
        match (&self.expected, answer) {
            (NotCompared(expected), Answer::NotCompared { number }) => expected == number,
            (
                expected,
                Answer::Compared {
                    rows,
                    ending,
                    parsed,
                },
            ) => match expected {
                Rows(expected) => {
                    ending.is_none() && rows.iter().map(row_numbers).eq(expected.iter().copied())
                }
                Ending(kinds, expected) => {
                    ending.as_ref().map(number_and_place) == Some(*expected)
                        && rows.iter().map(|row| row.kind).eq(kinds.iter().copied())
                }
                _ => parse_is_met(expected, parsed),
            },
            _ => false,
        }
    }
}

fn row_numbers(row: &Row) -> [i64; 6] {
    [
        row.kind.into(),
        row.start.into(),
        row.end.into(),
        row.line.into(),
        row.column.into(),
        row.value,
    ]
}

fn number_and_place(refusal: &Refusal) -> [u32; 4] {
    let place = refusal.place;
    [refusal.number, place.offset, place.line, place.column]
}

fn parse_is_met(expected: &Expected, parsed: &Parsed) -> bool {
    match (expected, parsed) {
        (Refused(expected), Parsed::Refused(refusal)) => {
            let [number, offset, line, column] = number_and_place(refusal);
            let [a, b] = refusal.told;
            *expected == [number, offset, line, column, a, b, refusal.found]
        }
        (Accepted, Parsed::Accepted(_)) => true,
        (Nodes(expected), Parsed::Accepted(tree)) => {
            let nodes = tree.declarations.iter().flatten();
            nodes.map(|node| node.words()).eq(expected.iter().copied())
        }
        (NotComparable(expected), Parsed::NotComparable { number }) => expected == number,
        _ => false,
    }
}

fn case(source: &'static str, text: impl Into<Vec<u8>>, expected: Expected) -> EdgeCase {
    EdgeCase {
        source,
        text: text.into(),
        expected,
    }
}

/// A unit with this inside; it begins at row 3, offset 7, column 8.
fn unit(inside: &str) -> String {
    format!("unit u{{{inside}}}")
}

/// A ringbuf map with this `max`; it begins at row 12, offset 24, column 25.
fn ringbuf(max: &str) -> String {
    format!("map m{{type:.ringbuf;max:{max};}}")
}

/// Nodes all of whose words are known; words behind those given are zero.
fn nodes(given: &[&[u32]]) -> Expected {
    Nodes(given.iter().map(|words| known(words)).collect())
}

fn known(words: &[u32]) -> [Word; 8] {
    std::array::from_fn(|index| Some(words.get(index).copied().unwrap_or(0)))
}

/// What begins an expression, what begins a statement, what goes on with an expression, and what does unless a sum was read.
const OPERAND: &str = "( * name number";
const STATEMENT: &str = "return reg imm if heap ( * name number";
const ON: &str = ". * / % + -";
const SHIFTS: &str = "<< >>";

/// A refusal on line 1 with nothing told but the one set of 22, 23, 25 and 30.
fn refused(number: u32, offset: u32) -> Expected {
    let fitting = match number {
        22 => "unit map event end",
        23 => "type key value max }",
        25 => "u32 u64 i32 i64",
        30 => "u32 u64 i32 i64 bytes",
        _ => "",
    };
    misfit([number, offset, 1, offset + 1], [fitting], 0)
}

/// 21 on line 1, with what would have fitted as the chart's grammar writes it, and the kind that was found.
fn unwanted<const N: usize>(offset: u32, fitting: [&str; N], found: u32) -> Expected {
    misfit([21, offset, 1, offset + 1], fitting, found)
}

fn misfit<const N: usize>(at: [u32; 4], fitting: [&str; N], found: u32) -> Expected {
    let [number, offset, line, column] = at;
    let letters = fitting.iter().flat_map(|part| part.split_whitespace());
    let set: Set = letters.fold(0, |set, letter| set | 1 << kind_of(letter));
    let (low, high) = (set as u32, (set >> 32) as u32);
    Refused([number, offset, line, column, low, high, found])
}

/// 29 on line 1.
fn lacking(field: u32, offset: u32) -> Expected {
    Refused([29, offset, 1, offset + 1, field, 0, 0])
}

/// A refused scan on line 1 with no rows before it.
fn unscanned(number: u32, offset: u32) -> Expected {
    Ending(vec![], [number, offset, 1, offset + 1])
}

/// The text of LANGUAGE.md's lister example.
pub const LISTER_TEXT: &[u8] = b"unit u{\n x+=-1;\n}\n";

/// What LANGUAGE.md's lister prints for it.
pub const LISTER_LINES: [&str; 16] = [
    "rows 9",
    "0 0 0 4 1 1 0",
    "1 48 5 6 1 6 0",
    "2 25 6 7 1 7 0",
    "3 48 9 10 2 2 0",
    "4 36 10 12 2 3 0",
    "5 50 12 14 2 5 -1",
    "6 32 14 15 2 7 0",
    "7 26 16 17 3 1 0",
    "8 52 18 18 4 1 0",
    "nodes 5",
    "0 1 3 3 0 0 0 0 0",
    "1 2 5 4294967295 0 4294967295 4294967295 0 0",
    "2 15 3 4294967295 2 0 0 0 0",
    "3 25 0 1 1 10 4294967295 0 0",
    "4 29 8 4294967295 1 0 0 0 0",
];

/// The method sets of LANGUAGE.md 10.2, by program kind.
pub const METHOD_SETS: [u16; 11] = [
    0x00FF, 0x000F, 0x0007, 0x000C, 0xC608, 0xFFFF, 0xC008, 0x0008, 0x0008, 0x0008, 0x0000,
];

/// Section texts of LANGUAGE.md 10.1 and of the original's table, with their program kinds.
pub const SECTION_KINDS: [(&str, u32); 22] = [
    ("xdp", 0),
    ("xdp2", 10),
    ("tc", 1),
    ("tcx", 1),
    ("classifier", 1),
    ("classifier/x", 10),
    ("sk_", 2),
    ("sk", 10),
    ("cgroup/", 3),
    ("cgroup", 10),
    ("kprobe/", 4),
    ("kretprobe/f", 4),
    ("kprobe", 10),
    ("tracepoint/", 5),
    ("raw_tracepoint/", 6),
    ("raw_tracepoint", 10),
    ("fentry/", 7),
    ("fexit/", 8),
    ("lsm/", 9),
    ("LSM/", 10),
    ("", 10),
    ("q", 10),
];

/// Every case.
pub fn edge_cases() -> Vec<EdgeCase> {
    let mut cases = document_edges();
    cases.extend(scan_readings());
    cases.extend(character_readings());
    cases.extend(wanted_readings());
    cases.extend(map_readings());
    cases.extend(event_readings());
    cases.extend(call_readings());
    cases.extend(nesting_readings());
    cases.extend(node_readings());
    cases
}

/// LANGUAGE.md, "Both sides of each edge".
fn document_edges() -> Vec<EdgeCase> {
    let from = "LANGUAGE, edges";
    let m = MISSING;
    vec![
        case(from, "", Rows(vec![[52, 0, 0, 1, 1, 0]])),
        case(
            from,
            unit("a << 1 + b;"),
            nodes(&[
                &[1, 3, 3],
                &[2, 5, m, 0, 1],
                &[9, 3, m, 2],
                &[1, 7, 7],
                &[4, 3, m, 2],
                &[13, 3, m, 1],
                &[25, 0, 1, 1, 10, m],
            ]),
        ),
        case(from, unit("a + b << 1;"), unwanted(13, [ON, "; = +="], 47)),
        case(from, unit("x -1;"), unwanted(9, [ON, SHIFTS, "; = +="], 50)),
        case(
            from,
            unit("a--1;"),
            nodes(&[
                &[1, 3, 3],
                &[2, 5, m, 0, u32::MAX, u32::MAX],
                &[5, 3, m, 2],
                &[13, 3, m, 1],
                &[25, 0, 1, 1, 10, m],
            ]),
        ),
        case(from, "0x", unscanned(17, 2)),
        case(from, "0x<", unscanned(17, 2)),
        case(from, "<=", unscanned(16, 0)),
        case(from, "<", unscanned(16, 0)),
        case(
            from,
            "0X10",
            Rows(vec![
                [50, 0, 1, 1, 1, 0],
                [48, 1, 4, 1, 2, 0],
                [52, 4, 4, 1, 5, 0],
            ]),
        ),
        case(from, "/*/", unscanned(12, 2)),
        case(
            from,
            "9223372036854775807",
            Rows(vec![[50, 0, 19, 1, 1, i64::MAX], [52, 19, 19, 1, 20, 0]]),
        ),
        case(from, "-9223372036854775808", unscanned(15, 0)),
        case(
            from,
            ringbuf("4294967295"),
            nodes(&[&[28, 1, 1, 0, 3, 0, 0, 4294967295]]),
        ),
        case(from, ringbuf("1 << 32"), NotComparable(27)),
        case(from, ringbuf("1 << 63"), refused(26, 31)),
        case(from, ringbuf("1 << 64"), refused(28, 29)),
        case(
            from,
            unit("(x).m();"),
            nodes(&[
                &[1, 4, 4],
                &[11, 4, 7, 1],
                &[13, 4, m, 1],
                &[25, 0, 1, 1, 10, m],
            ]),
        ),
        case(from, unit("a.b.c();"), refused(31, 11)),
        case(
            "LANGUAGE, edges: the edited text",
            "unit u{\n x+=-12;\n}\n",
            Rows(vec![
                [0, 0, 4, 1, 1, 0],
                [48, 5, 6, 1, 6, 0],
                [25, 6, 7, 1, 7, 0],
                [48, 9, 10, 2, 2, 0],
                [36, 10, 12, 2, 3, 0],
                [50, 12, 15, 2, 5, -12],
                [32, 15, 16, 2, 8, 0],
                [26, 17, 18, 3, 1, 0],
                [52, 19, 19, 4, 1, 0],
            ]),
        ),
    ]
}

/// Points of DECISIONS.
fn scan_readings() -> Vec<EdgeCase> {
    vec![
        case(
            "DECISIONS, line and column of Eof",
            "unit",
            unwanted(4, ["name"], 52),
        ),
        case(
            "DECISIONS, a backslash before a newline",
            "\"\\\n\"",
            unscanned(14, 1),
        ),
        case(
            "DECISIONS, a backslash before a newline",
            "\"a\\",
            unscanned(13, 3),
        ),
        case("LANGUAGE, 13", "\"a\n\"", unscanned(13, 2)),
        case(
            "DECISIONS, other bytes in strings",
            "\"\t\0\r\x7f\"",
            Rows(vec![[49, 0, 6, 1, 1, 0], [52, 6, 6, 1, 7, 0]]),
        ),
        case(
            "DECISIONS, what ends a line",
            "\r\n\x0b@",
            Ending(vec![], [11, 3, 2, 2]),
        ),
        case(
            "DECISIONS, a sign next to a comment",
            "*/*",
            Ending(vec![43], [12, 3, 1, 4]),
        ),
        case(
            "DECISIONS, a sign next to a comment",
            "*//x",
            Rows(vec![[43, 0, 1, 1, 1, 0], [52, 4, 4, 1, 5, 0]]),
        ),
        case(
            "DECISIONS, a sign next to a comment",
            "a<=b",
            Ending(vec![48], [16, 1, 1, 2]),
        ),
        case(
            "DECISIONS, where numbers end",
            "12ab",
            Rows(vec![
                [50, 0, 2, 1, 1, 12],
                [48, 2, 4, 1, 3, 0],
                [52, 4, 4, 1, 5, 0],
            ]),
        ),
        case(
            "DECISIONS, where numbers end",
            "0x1G",
            Rows(vec![
                [50, 0, 3, 1, 1, 1],
                [48, 3, 4, 1, 4, 0],
                [52, 4, 4, 1, 5, 0],
            ]),
        ),
        case(
            "DECISIONS, where numbers end",
            "00x1",
            Rows(vec![
                [50, 0, 2, 1, 1, 0],
                [48, 2, 4, 1, 3, 0],
                [52, 4, 4, 1, 5, 0],
            ]),
        ),
        case("DECISIONS, where numbers end", "-0x", unscanned(17, 3)),
        case(
            "DECISIONS, where numbers end",
            "-0",
            Rows(vec![[50, 0, 2, 1, 1, 0], [52, 2, 2, 1, 3, 0]]),
        ),
        case(
            "DECISIONS, where numbers end",
            "--1",
            Rows(vec![
                [42, 0, 1, 1, 1, 0],
                [50, 1, 3, 1, 2, -1],
                [52, 3, 3, 1, 4, 0],
            ]),
        ),
        case(
            "DECISIONS, the largest number",
            format!("{}1", "0".repeat(30)),
            Rows(vec![[50, 0, 31, 1, 1, 1], [52, 31, 31, 1, 32, 0]]),
        ),
        case(
            "DECISIONS, the largest number",
            "-0x8000000000000000",
            unscanned(15, 0),
        ),
        case("DECISIONS, 1", " ".repeat(65_537), NotCompared(1)),
        case("DECISIONS, 2", [0x80], NotCompared(2)),
    ]
}

/// Characters of two bytes and more. The original has a say inside comments and strings; outside of them 11 is LANGUAGE.md's.
fn character_readings() -> Vec<EdgeCase> {
    let inside = "LANGUAGE, characters in comments and strings";
    let outside = "DIFFERENCES, 11 at a character outside of them";
    let broken = "LANGUAGE, 2";
    vec![
        case(
            inside,
            "\"\u{e9}\"",
            Rows(vec![[49, 0, 4, 1, 1, 0], [52, 4, 4, 1, 5, 0]]),
        ),
        case(inside, "/*\u{b0}*/@", Ending(vec![], [11, 6, 1, 7])),
        case(inside, "\"\u{20ac}\n", unscanned(13, 4)),
        case(inside, "\"\\\u{e9}\"", unscanned(14, 1)),
        case(inside, "/*\u{1f600}", unscanned(12, 2)),
        case(
            inside,
            unit("\n \"\u{e9}\""),
            misfit([21, 9, 2, 2], [STATEMENT, "section license }"], 49),
        ),
        case(
            inside,
            unit("section \"\u{b0}\"; // \u{3b1} Cen\n a;"),
            Accepted,
        ),
        case(outside, "a\u{e9}", Ending(vec![48], [11, 1, 1, 2])),
        case(outside, "a\u{ea}", Ending(vec![48], [11, 1, 1, 2])),
        case(outside, "1\u{e9}", Ending(vec![50], [11, 1, 1, 2])),
        case(outside, "0x\u{e9}", unscanned(17, 2)),
        case(outside, "\n\u{a0}", Ending(vec![], [11, 1, 2, 1])),
        case(
            outside,
            "//\u{e9}\n/*\u{20ac}*/\u{1f600}",
            Ending(vec![], [11, 12, 2, 8]),
        ),
        case(broken, b"@\xFF".as_slice(), NotCompared(2)),
        case(broken, b"\"\xC3\"".as_slice(), NotCompared(2)),
        case(broken, b"//\xED\xA0\x80".as_slice(), NotCompared(2)),
        case(broken, b"//\xE2\x82".as_slice(), NotCompared(2)),
    ]
}

/// What 21 tells.
fn wanted_readings() -> Vec<EdgeCase> {
    let from = "LANGUAGE, what would have fitted";
    vec![
        case(from, unit("a-=1;"), unwanted(8, [ON, SHIFTS, "; = +="], 37)),
        case(from, unit("a=b=c;"), unwanted(10, [ON, SHIFTS, ";"], 35)),
        case(
            from,
            unit("else"),
            unwanted(7, [STATEMENT, "section license }"], 12),
        ),
        case(from, unit("a.m(1,);"), unwanted(13, [OPERAND], 28)),
        case(
            from,
            unit("a.m(1 2);"),
            unwanted(13, [ON, SHIFTS, ", )"], 50),
        ),
        case(from, unit("(a;"), unwanted(9, [ON, SHIFTS, ")"], 32)),
        case(from, unit("a.1;"), unwanted(9, ["name"], 50)),
        case(from, unit("return;"), unwanted(13, [OPERAND], 32)),
        case(from, unit("if a"), unwanted(10, ["guard"], 48)),
        case(from, unit("if guard a"), unwanted(16, ["("], 48)),
        case(from, unit("if guard(1"), unwanted(16, ["name"], 50)),
        case(from, unit("if guard(a;"), unwanted(17, [")"], 32)),
        case(from, unit("if guard(a)a"), unwanted(18, ["{"], 48)),
        case(
            from,
            unit("if guard(a){}else if guard(a){}"),
            unwanted(25, ["{"], 11),
        ),
        case(
            from,
            unit("if guard(a){section \"\";}"),
            unwanted(19, [STATEMENT, "}"], 1),
        ),
        case(from, unit("section x;"), unwanted(15, ["string"], 48)),
        case(from, unit("license \"\"}"), unwanted(17, [";"], 26)),
        case(from, "map {", unwanted(4, ["name"], 25)),
        case(from, "event e;", unwanted(7, ["{"], 32)),
        case(from, "map m{key u32;", unwanted(10, [":"], 21)),
        case(from, "map m{type:hash;", unwanted(11, ["."], 48)),
        case(from, "map m{max:a;", unwanted(10, ["number"], 48)),
        case("DECISIONS, what is not closed", "map m{", refused(23, 6)),
        case(
            "DECISIONS, what is not closed",
            "unit u{",
            unwanted(7, [STATEMENT, "section license }"], 52),
        ),
        case(
            "DECISIONS, what is not closed",
            "event e{",
            unwanted(8, ["name }"], 52),
        ),
        case(
            "DECISIONS, what is not closed",
            "unit u{if guard(a){",
            unwanted(19, [STATEMENT, "}"], 52),
        ),
    ]
}

/// Points of DECISIONS: maps.
fn map_readings() -> Vec<EdgeCase> {
    vec![
        case("DECISIONS, 24", "map m{type:.q}", refused(24, 13)),
        case("DECISIONS, 24", "map m{type:.q", refused(24, 13)),
        case(
            "DECISIONS, 24",
            "map m{type:.key;}",
            unwanted(12, ["name"], 8),
        ),
        case("DECISIONS, 25", "map m{key:}", refused(25, 11)),
        case("DECISIONS, 25", "map m{key:", refused(25, 10)),
        case("DECISIONS, 25", "map m{key:bytes;}", refused(25, 15)),
        case("DECISIONS, 26, 27, 28", ringbuf("-1<<64"), refused(28, 28)),
        case(
            "DECISIONS, 26, 27, 28",
            "map m{max:1<<64 q",
            refused(28, 13),
        ),
        case("DECISIONS, 26, 27, 28", "map m{max:-1}", refused(26, 12)),
        case(
            "DECISIONS, 26, 27, 28",
            "map m{max:4294967296}",
            NotComparable(27),
        ),
        case(
            "DECISIONS, 26, 27, 28",
            ringbuf("1<<40>>40"),
            nodes(&[&[28, 1, 1, 0, 3, 0, 0, 1]]),
        ),
        case(
            "DECISIONS, 26, 27, 28",
            ringbuf("1<<63<<1"),
            nodes(&[&[28, 1, 1, 0, 3, 0, 0, 0]]),
        ),
        case(
            "DECISIONS, 26, 27, 28",
            ringbuf("1<<63>>63"),
            refused(26, 33),
        ),
        case(
            "DECISIONS, 26, 27, 28",
            ringbuf("4294967296>>0"),
            NotComparable(27),
        ),
        case(
            "DECISIONS, a field that a later one replaces",
            "map m{max:-1;max:1;}",
            refused(26, 12),
        ),
        case("DECISIONS, 29", "map m{}", lacking(1, 7)),
        case(
            "DECISIONS, 29",
            "map m{type:.hash;}\nunit u{}",
            Refused([29, 19, 2, 1, 2, 0, 0]),
        ),
        case(
            "DECISIONS, 29",
            "map m{type:.hash;key:u32;}",
            lacking(3, 26),
        ),
        case(
            "DECISIONS, 29",
            "map m{type:.hash;key:u32;value:u32;}",
            lacking(4, 36),
        ),
        case("DECISIONS, 29", "map m{type:.ringbuf;}", lacking(4, 21)),
        case(
            "DECISIONS, 29",
            "map m{type:.ringbuf;key:u64;value:i64;max:1;}",
            nodes(&[&[28, 1, 1, 0, 3, 2, 4, 1]]),
        ),
    ]
}

/// Points of DECISIONS: events.
fn event_readings() -> Vec<EdgeCase> {
    vec![
        case(
            "DECISIONS, 27 for lengths",
            "event e{a:u32[-1;",
            NotComparable(27),
        ),
        case("DECISIONS, 30", "event e{a:", refused(30, 10)),
        case("DECISIONS, 30", "event e{a:q;}", refused(30, 10)),
        case(
            "DECISIONS, 30",
            "event e{a:bytes;}",
            unwanted(15, ["["], 32),
        ),
        case(
            "LANGUAGE, event fields",
            "event e{a:i32;b:bytes[9];c:u64[7];}",
            nodes(&[
                &[26, 3, 3, 0, 1, 3, 0],
                &[26, 7, 7, 0, 2, 0, 9],
                &[26, 14, 14, 0, 3, 2, 7],
                &[27, 1, 1, 3],
            ]),
        ),
    ]
}

/// Points of DECISIONS: calls.
fn call_readings() -> Vec<EdgeCase> {
    let from = "DECISIONS, 31";
    vec![
        case(from, unit("a.b.c(;"), unwanted(13, [OPERAND, ")"], 32)),
        case(from, unit("a.b.c(1,);"), unwanted(15, [OPERAND], 28)),
        case(from, unit("a.m(x.y.z());"), refused(31, 15)),
        case(from, unit("1.m();"), refused(31, 9)),
        case(from, unit("a.m().n();"), refused(31, 13)),
        case(from, unit("(*a).m();"), refused(31, 12)),
        case(from, unit("(a+b).m((c),d.e(f));"), refused(31, 13)),
        case(from, unit("((x)).m();"), Accepted),
        case(from, unit("*a.m();"), Accepted),
        case(from, unit("a.m().f;"), Accepted),
    ]
}

/// Points of DECISIONS: nesting.
fn nesting_readings() -> Vec<EdgeCase> {
    let full = repeated(&[Group], 64);
    let bodies = repeated(&[Then], 64);
    // Each body opens with 12 bytes.
    let behind_bodies = 7 + 64 * 12;
    let stars = repeated(&[Star], 62);
    vec![
        case("DECISIONS, 32", nested(&full, "z.w()"), Accepted),
        case("DECISIONS, 32", nested(&full, "z.w(1)"), NotComparable(32)),
        case("DECISIONS, 32", opened(&full) + "(", NotComparable(32)),
        case("DECISIONS, 32", opened(&full) + "*", NotComparable(32)),
        case(
            "DECISIONS, 32",
            nested(&full, "a.b.c(1)"),
            NotComparable(32),
        ),
        case("DECISIONS, 32", nested(&full, "a.b.c()"), refused(31, 75)),
        case(
            "DECISIONS, what nesting counts",
            nested(&bodies, ""),
            Accepted,
        ),
        case(
            "DECISIONS, what nesting counts",
            nested(&bodies, "if guard(a){}"),
            NotComparable(32),
        ),
        case(
            "DECISIONS, what nesting counts",
            nested(&bodies, "if guard(1"),
            unwanted(behind_bodies + 9, ["name"], 50),
        ),
        case(
            "DECISIONS, what nesting counts",
            nested(&stars, "*a.f(x)"),
            Accepted,
        ),
        case(
            "DECISIONS, what nesting counts",
            nested(&stars, "**a.f(x)"),
            NotComparable(32),
        ),
    ]
}

/// Points of DECISIONS: nodes.
fn node_readings() -> Vec<EdgeCase> {
    let m = MISSING;
    let unit_of_one: &[u32] = &[25, 0, 1, 1, 10, m];
    vec![
        case(
            "DECISIONS, places of statements",
            unit("return (x);"),
            nodes(&[&[1, 5, 5], &[19, 4, m, 1], unit_of_one]),
        ),
        case(
            "DECISIONS, places of statements",
            unit("return *x;"),
            nodes(&[&[1, 5, 5], &[3, 5, m, 1], &[19, 4, m, 1], unit_of_one]),
        ),
        case(
            "DECISIONS, places of statements",
            unit("(x);"),
            nodes(&[&[1, 4, 4], &[13, 4, m, 1], unit_of_one]),
        ),
        case(
            "DECISIONS, places of statements",
            unit("*x=1;"),
            nodes(&[
                &[1, 4, 4],
                &[3, 4, m, 1],
                &[2, 6, m, 0, 1],
                &[14, 4, m, 2],
                unit_of_one,
            ]),
        ),
        case(
            "DECISIONS, places of statements",
            unit("a.b=1;"),
            nodes(&[
                &[1, 3, 3],
                &[12, 5, 5, 1],
                &[2, 7, m, 0, 1],
                &[14, 5, m, 2],
                unit_of_one,
            ]),
        ),
        case(
            "DECISIONS, groups",
            unit("(a+b)*c;"),
            nodes(&[
                &[1, 4, 4],
                &[1, 6, 6],
                &[4, 4, m, 2],
                &[1, 9, 9],
                &[6, 4, m, 2],
                &[13, 4, m, 1],
                unit_of_one,
            ]),
        ),
        case(
            "DECISIONS, names and places",
            unit("reg a=b;imm c=0;heap d=e;"),
            nodes(&[
                &[1, 6, 6],
                &[16, 4, 4, 1],
                &[2, 11, m, 0],
                &[17, 9, 9, 1],
                &[1, 16, 16],
                &[18, 14, 14, 1],
                &[25, 0, 1, 3, 10, m],
            ]),
        ),
        case(
            "LANGUAGE, if",
            unit("if guard(a){b;}else{}"),
            Nodes(vec![
                known(&[1, 6, 6]),
                known(&[1, 9, 9]),
                known(&[13, 9, m, 1]),
                [
                    Some(21),
                    None,
                    Some(m),
                    Some(1),
                    Some(0),
                    Some(0),
                    Some(0),
                    Some(0),
                ],
                [
                    Some(22),
                    None,
                    Some(m),
                    Some(0),
                    Some(0),
                    Some(0),
                    Some(0),
                    Some(0),
                ],
                known(&[20, 4, m, 3]),
                known(unit_of_one),
            ]),
        ),
        case(
            "DECISIONS, a first section that is no known one",
            unit("a;section \"q\";section \"xdp\";"),
            nodes(&[&[1, 3, 3], &[13, 3, m, 1], &[25, 0, 1, 3, 10, m]]),
        ),
        case(
            "DECISIONS, a section's text",
            unit(r#"section "xdp\"";"#),
            nodes(&[unit_of_one]),
        ),
        case(
            "DECISIONS, a section's text",
            unit(r#"section "tc\"";"#),
            nodes(&[&[25, 0, 1, 1, 1, m]]),
        ),
        case(
            "DECISIONS, signs that no statement takes",
            unit("1=2;"),
            Accepted,
        ),
        case(
            "DECISIONS, signs that no statement takes",
            unit("a*=2;"),
            unwanted(8, [ON, SHIFTS, "; = +="], 38),
        ),
        case(
            "LANGUAGE, licence",
            unit("license \"MIT\";section \"xdp\";license \"GPL\";"),
            Nodes(vec![[
                Some(25),
                Some(0),
                Some(1),
                None,
                Some(0),
                None,
                Some(0),
                Some(0),
            ]]),
        ),
    ]
}
