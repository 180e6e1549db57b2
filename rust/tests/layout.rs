//! Layouts: `Document::layout` and `lent::layout`.

use spoonharbor::lent::{self, Words, LENGTH, NODE_WORDS, NUMBER, ROW_WORDS};
use spoonharbor::{Document, NodeKind, Reason, Tree, LONGEST_TEXT};
use std::fs;
use std::path::Path;

/// Statements of a unit, and their lines.
const STATEMENTS: [(&str, &str); 14] = [
    ("if guard(x){}else{}", "if guard ( x ) {\n}\nelse {\n}\n"),
    ("0x1F;-0x10;-0;000;", "31 ;\n-16 ;\n0 ;\n0 ;\n"),
    ("(-1).f;a-(-1);", "-1 . f ;\na - -1 ;\n"),
    ("(a<<1)-b;", "a << 1 - b ;\n"),
    ("a-(b<<1);", "a - ( b << 1 ) ;\n"),
    ("(a+b)<<1;", "( a + b ) << 1 ;\n"),
    ("a<<(b*c);", "a << b * c ;\n"),
    ("a<<(b<<c);", "a << ( b << c ) ;\n"),
    ("a*(b*c);(a*b)*c;", "a * ( b * c ) ;\na * b * c ;\n"),
    ("a**b;*a.b;", "a * * b ;\n* a . b ;\n"),
    (
        "(*a).b;*(a.b);*(a*b);",
        "( * a ) . b ;\n* a . b ;\n* ( a * b ) ;\n",
    ),
    (
        "((x)).m();x.m((a+b),((c)));",
        "x . m ( ) ;\nx . m ( a + b , c ) ;\n",
    ),
    (
        "section \"xdp\";license \"G\\\"PL\";return(x);",
        "section \"xdp\" ;\nlicense \"G\\\"PL\" ;\nreturn x ;\n",
    ),
    (
        "section \"5° α\";// lost\nreg r=/* lost */1;imm i=2;heap h=3;",
        "section \"5° α\" ;\nreg r = 1 ;\nimm i = 2 ;\nheap h = 3 ;\n",
    ),
];

/// Texts and their layouts.
const TEXTS: [(&str, &str); 6] = [
    ("", ""),
    (" // nothing\n", ""),
    ("unit u{\n x+=-1;\n}\n", "unit u {\nx += -1 ;\n}\n"),
    (
        "event e{b:bytes[0x10];c:u32;d:i64[2];}",
        "event e {\nb : bytes [ 16 ] ;\nc : u32 ;\nd : i64 [ 2 ] ;\n}\n",
    ),
    (
        "map m{max:1<<4;type:.ringbuf;key:u64;}",
        "map m {\ntype : . ringbuf ;\nkey : u64 ;\nmax : 16 ;\n}\n",
    ),
    (
        "map m{key:u32;value:i64;key:i32;type:.hash;type:.array;max:3;}",
        "map m {\ntype : . array ;\nkey : i32 ;\nvalue : i64 ;\nmax : 3 ;\n}\n",
    ),
];

fn layout(text: &str) -> String {
    Document::open(text).unwrap().layout().unwrap()
}

#[test]
fn layouts_are_as_worked_out() {
    for (text, wanted) in TEXTS {
        assert_eq!(layout(text), wanted, "{text}");
        assert_eq!(layout(wanted), wanted);
    }
    for (statements, lines) in STATEMENTS {
        let text = format!("unit u{{{statements}}}");
        let wanted = format!("unit u {{\n{lines}}}\n");
        assert_eq!(layout(&text), wanted, "{text}");
        assert_eq!(layout(&wanted), wanted);
    }
}

/// A node's kind and facts, and what its name spells: all that a layout keeps but the children. Of a unit it is what the licence
/// spells, since its row may be another.
fn kept(document: &Document, tree: &Tree) -> Vec<(String, String)> {
    let spelt = |row: Option<usize>| {
        let spelling = row.map(|row| document.spelling(row).unwrap());
        spelling.unwrap_or_default().to_string()
    };
    let nodes = tree.nodes().iter();
    nodes
        .map(|node| match node.kind {
            NodeKind::Unit { kind, license, .. } => {
                (format!("{kind:?} {}", spelt(license)), spelt(node.name))
            }
            kind => (format!("{kind:?}"), spelt(node.name)),
        })
        .collect()
}

fn children(tree: &Tree) -> Vec<Vec<usize>> {
    (0..tree.len())
        .map(|node| tree.children(node).collect())
        .collect()
}

/// The example probes read back as the same trees.
#[test]
fn examples_read_back() {
    let folder = Path::new(env!("CARGO_MANIFEST_DIR")).join("../examples");
    let mut read = 0;
    for entry in fs::read_dir(folder).unwrap() {
        let before = Document::open(fs::read(entry.unwrap().path()).unwrap()).unwrap();
        let after = Document::open(before.layout().unwrap()).unwrap();
        let (old, new) = (before.tree().unwrap(), after.tree().unwrap());
        assert_eq!(kept(&before, old), kept(&after, new));
        assert_eq!(children(old), children(new));
        assert_eq!(after.layout().unwrap(), after.text());
        assert!(after.rows().all(|row| row.comments == 0));
        read += 1;
    }
    assert_eq!(read, 5);
}

/// A text that is no program tells what its tree tells.
#[test]
fn a_refused_text_has_no_layout() {
    let long = " ".repeat(LONGEST_TEXT + 1);
    for text in ["unit u{@}", "unit u{+;}", "unit u{", "map m{}", &long] {
        let document = Document::open(text).unwrap();
        let refusal = document.tree().unwrap_err();
        assert_eq!(document.layout(), Err(refusal), "{text:.20}");
    }
}

/// A layout of 65,536 bytes is one, and one of a byte more is none.
#[test]
fn a_layout_may_be_too_long() {
    let text = |name: &str| format!("unit {name}{{{}}}", "x;".repeat(16_381));
    assert_eq!(layout(&text("uu")).len(), LONGEST_TEXT);
    let refusal = Document::open(text("uuu")).unwrap().layout().unwrap_err();
    assert_eq!(refusal.reason, Reason::LayoutTooLong);
    assert_eq!(refusal.number(), 4);
    assert_eq!(
        refusal.to_string(),
        "the layout is longer than 65,536 bytes"
    );
}

/// A document whose table is another text's has a tree, but not the text's.
#[test]
fn another_texts_table_is_seen() {
    let table = Document::open("unit u{1;}").unwrap().table().clone();
    let mut document = Document::open_with("unit u{x;}", table).unwrap();
    assert!(document.tree().is_ok());
    let refusal = document.layout().unwrap_err();
    assert_eq!(refusal.reason, Reason::NotWellFormed);
    assert!(!document.refresh());
    assert_eq!(document.layout().unwrap(), "unit u {\nx ;\n}\n");
}

/// A text with what a scan and a parse of it told and left, and twenty bytes of room.
#[derive(Clone)]
struct Lent {
    text: &'static str,
    rows: Vec<u32>,
    table: Words,
    nodes: Vec<u32>,
    count: u32,
    room: Vec<u8>,
}

impl Lent {
    fn new(text: &'static str) -> Lent {
        let mut rows = vec![0; (text.len() + 1) * ROW_WORDS];
        let table = lent::scan(text.as_bytes(), &mut rows);
        rows.truncate(table[lent::COUNT] as usize * ROW_WORDS);
        let mut nodes = vec![0; rows.len()];
        let parsed = lent::parse(text.as_bytes(), &rows, &table, &mut nodes);
        let count = parsed[lent::COUNT];
        nodes.truncate(count as usize * NODE_WORDS);
        let room = vec![7; 20];
        Lent {
            text,
            rows,
            table,
            nodes,
            count,
            room,
        }
    }

    /// Lays it out with a scratch full of some number.
    fn laid(&mut self, scratch: u32) -> Words {
        let mut words = lent::scratch();
        words.fill(scratch);
        lent::layout(
            self.text.as_bytes(),
            &self.rows,
            &self.table,
            &self.nodes,
            self.count,
            &mut words,
            &mut self.room,
        )
    }

    /// That it is refused so, with the room as it was.
    fn assert_refused(mut self, number: u32) {
        let before = self.room.clone();
        let answer = self.laid(u32::MAX);
        assert_eq!(answer, [number, 0, 1, 1, 0, 0, 0, 0]);
        assert_eq!(self.room, before);
    }
}

const PROBE: &str = "unit u{x;}";
const LAYOUT: &[u8] = b"unit u {\nx ;\n}\n";

#[test]
fn bytes_are_written_into_lent_room() {
    for scratch in [0, u32::MAX] {
        let mut lent = Lent::new(PROBE);
        assert_eq!(lent.laid(scratch), [0, 0, 0, 0, 0, 0, 0, 15]);
        assert_eq!(lent.room, [LAYOUT, &[7; 5]].concat());
    }
    let mut tight = Lent::new(PROBE);
    tight.room.truncate(15);
    assert_eq!(tight.laid(0)[LENGTH], 15);
    assert_eq!(tight.room, LAYOUT);
    let mut empty = Lent::new("");
    empty.room.clear();
    assert_eq!(empty.laid(0), [0; 8]);
}

#[test]
fn what_is_lent_behind_plays_no_part() {
    let mut lent = Lent::new(PROBE);
    lent.rows.push(9);
    lent.nodes.push(9);
    assert_eq!(lent.laid(0)[NUMBER], 0);
    assert_eq!(lent.room[..15], *LAYOUT);
}

#[test]
fn too_little_room_is_refused() {
    let lent = Lent::new(PROBE);
    for room in [0, 1, 14] {
        let mut short = lent.clone();
        short.room.truncate(room);
        short.assert_refused(4);
    }
}

/// Each word of the rows, the nodes and the table, changed, and counts that are one off; also without room, as 3 comes before 4.
#[test]
fn what_is_not_the_texts_tree_is_refused() {
    let lent = Lent::new(PROBE);
    let changed = |change: &dyn Fn(&mut Lent)| {
        for room in [0, 20] {
            let mut forged = lent.clone();
            forged.room.truncate(room);
            change(&mut forged);
            forged.assert_refused(3);
        }
    };
    for word in 0..lent.rows.len() {
        changed(&|forged| forged.rows[word] ^= 1);
    }
    for word in 0..lent.nodes.len() {
        changed(&|forged| forged.nodes[word] ^= 1);
    }
    for word in [NUMBER, lent::COUNT, LENGTH] {
        changed(&|forged| forged.table[word] += 11);
    }
    changed(&|forged| forged.count -= 1);
    changed(&|forged| {
        forged.nodes.extend([0; NODE_WORDS]);
        forged.count += 1;
    });
    changed(&|forged| forged.nodes.truncate(lent.nodes.len() - 1));
    changed(&|forged| forged.rows.truncate(lent.rows.len() - 1));
    changed(&|forged| forged.text = "unit u{1;}");
    for text in ["unit u{@}", "unit u{+;}", "unit u{"] {
        changed(&|forged| {
            let room = forged.room.len();
            *forged = Lent::new(text);
            forged.room.truncate(room);
        });
    }
}
