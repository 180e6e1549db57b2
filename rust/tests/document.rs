//! Every public call of a document, with good and with bad input.

use spoonharbor::{
    allows, section_kind, set_size, Document, FieldType, Kind, MapField, MapType, Method, NodeKind,
    Operator, Place, ProgramKind, Reason, Type, LONGEST_TEXT,
};

fn open(text: &str) -> Document {
    Document::open(text).unwrap()
}

fn place(offset: usize, line: usize, column: usize) -> Place {
    Place {
        offset,
        line,
        column,
    }
}

const LISTER_TEXT: &str = "unit u{\n x+=-1;\n}\n";

#[test]
fn rows_are_read() {
    let document = open(LISTER_TEXT);
    assert_eq!(document.text(), LISTER_TEXT);
    assert_eq!(document.rows().len(), 9);
    let number = document.row(5).unwrap();
    assert_eq!(number.kind, Kind::Number);
    assert_eq!(number.span(), 12..14);
    assert_eq!(number.place(), place(12, 2, 5));
    assert_eq!(number.value, -1);
    let eof = document.rows().next_back().unwrap();
    assert_eq!((eof.kind, eof.span()), (Kind::Eof, 18..18));
    assert_eq!(eof.place(), place(18, 4, 1));
    assert_eq!(document.row(9), None);
    assert_eq!(document.refusal(), None);
    let kinds: Vec<u32> = document.rows().map(|row| row.kind.number()).collect();
    assert_eq!(kinds, [0, 48, 25, 48, 36, 50, 32, 26, 52]);
}

#[test]
fn rows_are_spelt() {
    let document = open(LISTER_TEXT);
    let spelt: Vec<&str> = (0..9).map(|row| document.spelling(row).unwrap()).collect();
    assert_eq!(spelt, ["unit", "u", "{", "x", "+=", "-1", ";", "}", ""]);
    for row in [9, 10, u32::MAX as usize, usize::MAX] {
        let refusal = document.spelling(row).unwrap_err();
        assert_eq!(refusal.reason, Reason::NotWellFormed);
        assert_eq!((refusal.number(), refusal.place), (3, place(0, 1, 1)));
    }
}

#[test]
fn an_empty_text_is_a_program() {
    let document = Document::open("").unwrap();
    assert_eq!(document.rows().len(), 1);
    let tree = document.tree().unwrap();
    assert_eq!(tree.len(), 1);
    assert_eq!(tree.nodes()[tree.root()].kind, NodeKind::Program);
}

#[test]
fn a_tree_is_of_the_text_as_it_is() {
    let mut document = open("unit u{}");
    let before = document.tree().unwrap() as *const _;
    assert_eq!(document.tree().unwrap() as *const _, before);
    document.replace(7..8, "").unwrap();
    assert_eq!(document.tree().unwrap_err().number(), 21);
    document.replace(7..7, "a;}").unwrap();
    assert_eq!(document.tree(), Ok(open("unit u{a;}").tree().unwrap()));
}

#[test]
fn a_scan_that_is_refused_has_rows_up_to_there() {
    let document = open("a\n @b");
    assert_eq!(document.rows().len(), 1);
    let refusal = document.refusal().unwrap();
    assert_eq!(refusal.reason, Reason::NoRowBegins);
    assert_eq!(refusal.place, place(3, 2, 2));
    assert_eq!(document.tree().unwrap_err(), refusal);
    assert_eq!(document.spelling(0), Ok("a"));
    let reasons = [
        ("/*", Reason::OpenComment, 12),
        ("\"a", Reason::OpenString, 13),
        ("\"\\a\"", Reason::BadEscape, 14),
        ("9223372036854775808", Reason::NumberTooLarge, 15),
    ];
    for (text, reason, number) in reasons {
        let refusal = open(text).refusal().unwrap();
        assert_eq!((refusal.reason, refusal.number()), (reason, number));
    }
}

#[test]
fn texts_that_are_no_texts_are_refused() {
    let longest = vec![b' '; LONGEST_TEXT];
    assert_eq!(Document::open(longest).unwrap().rows().len(), 1);
    let refusal = Document::open(vec![0xff; 1 << 20]).unwrap_err();
    assert_eq!(refusal.reason, Reason::TextTooLong);
    let refusal = Document::open(b"/*\xc2\xb0*/\n b\xb0".as_slice()).unwrap_err();
    assert_eq!((refusal.number(), refusal.place), (2, place(9, 2, 3)));
    assert_eq!(refusal.reason, Reason::BadByte);
}

/// 2 stands where Rust's own test of UTF-8 has the end of the valid part.
#[test]
fn broken_characters_are_refused_where_they_start() {
    let broken: [&[u8]; 14] = [
        b"\x80",
        b"\xff",
        b"\"\xc3",
        b"\xc3\"",
        b"\xe1\x80a",
        b"// \xb0",
        b"@\xff",
        b"/*\xc2\xb0*/ \xc0\x80",
        b"\xe0\x80\x80",
        b"\xed\xa0\x80",
        b"\xf0\x8f\xbf\xbf",
        b"\xf4\x90\x80\x80",
        b"\xf5\x80\x80\x80",
        b"a\n\xf0\x9f\x98",
    ];
    for text in broken {
        let refusal = Document::open(text).unwrap_err();
        let wanted = std::str::from_utf8(text).unwrap_err().valid_up_to();
        assert_eq!(refusal.reason, Reason::BadByte, "{text:?}");
        assert_eq!(refusal.place.offset, wanted, "{text:?}");
    }
}

const STARS: &str = "unit α/* 角 */u{ // 0.1°\n\tsection \"🔭 \\\"Ω\\\"\"; }";

/// Characters stand in comments and strings; elsewhere they begin nothing. Columns count bytes.
#[test]
fn characters_stand_in_comments_and_strings() {
    let text = STARS.replace('α', "");
    let document = open(&text);
    assert_eq!(document.refusal(), None);
    let spelt: Vec<&str> = (0..8).map(|row| document.spelling(row).unwrap()).collect();
    let string = "\"🔭 \\\"Ω\\\"\"";
    assert_eq!(spelt, ["unit", "u", "{", "section", string, ";", "}", ""]);
    assert_eq!(document.row(1).unwrap().place(), place(14, 1, 15));
    assert_eq!(document.row(5).unwrap().column, 10 + string.len());
    assert!(document.tree().is_ok());
    let outside = [
        ("é", 0),
        ("aé", 1),
        ("1é", 1),
        ("/*°*/@", 6),
        ("\u{feff}", 0),
        ("a\u{a0}b", 1),
        ("// \u{2028}°\n°", 9),
        (STARS, 5),
    ];
    for (text, offset) in outside {
        let refusal = open(text).refusal().unwrap();
        assert_eq!(refusal.reason, Reason::NoRowBegins, "{text}");
        assert_eq!(refusal.place.offset, offset, "{text}");
    }
    let bare = open("0xé").refusal().unwrap();
    assert_eq!((bare.number(), bare.place.offset), (17, 2));
    let escape = open("\"\\é\"").refusal().unwrap();
    assert_eq!((escape.number(), escape.place.offset), (14, 1));
}

#[test]
fn characters_are_typed() {
    let mut document = open("unit u{}");
    document.replace(8..8, "// 0.1°").unwrap();
    assert_eq!(document, open("unit u{}// 0.1°"));
    document.replace(14..16, "😀").unwrap();
    assert_eq!(document, open("unit u{}// 0.1😀"));
    document.replace(8..10, "").unwrap();
    assert_eq!(document, open("unit u{} 0.1😀"));
    assert_eq!(document.refusal().unwrap().place.offset, 12);
    document.replace(9..16, "\"角\"").unwrap();
    assert_eq!(document.spelling(4), Ok("\"角\""));
    assert_eq!(document, open("unit u{} \"角\""));
}

/// A range that starts or ends inside a character is refused at its first such end, and nothing changes; also where the bytes that are
/// left would be another character.
#[test]
fn a_range_inside_a_character_is_refused() {
    let mut document = open("/*éê\n 😀*/");
    let before = document.clone();
    let ranges = [
        (3..4, place(3, 1, 4)),
        (2..3, place(3, 1, 4)),
        (3..5, place(3, 1, 4)),
        (3..3, place(3, 1, 4)),
        (6..9, place(9, 2, 3)),
        (9..12, place(9, 2, 3)),
        (0..11, place(11, 2, 5)),
    ];
    for (range, at) in ranges {
        for new in ["", "x", "°"] {
            let refusal = document.replace(range.clone(), new).unwrap_err();
            assert_eq!(refusal.reason, Reason::InsideCharacter);
            assert_eq!((refusal.number(), refusal.place), (6, at), "{range:?}");
            assert_eq!(document, before);
        }
    }
    let long = " ".repeat(LONGEST_TEXT);
    let refusal = document.replace(3..4, &long).unwrap_err();
    assert_eq!(refusal.reason, Reason::InsideCharacter);
    let refusal = document.replace(3..99, "").unwrap_err();
    assert_eq!(refusal.reason, Reason::EditNotSensible);
    assert_eq!(document, before);
}

#[test]
fn the_most_rows_fit() {
    let document = Document::open(vec![b';'; LONGEST_TEXT]).unwrap();
    assert_eq!(document.rows().len(), LONGEST_TEXT + 1);
    assert_eq!(document.tree().unwrap_err().number(), 22);
}

#[test]
fn a_tree_is_read() {
    let text = "map m{type:.lru_hash;key:u32;value:i64;max:1<<4;}\
                event e{a:u64;b:bytes[9];c:i32[7];}\
                unit u{section \"xdp\";license \"GPL\";reg r=*ctx.load_u8(1,-2)+r.f;if guard(r){return 1;}else{}}";
    let document = open(text);
    let tree = document.tree().unwrap();
    let root = tree.root();
    let children = |index: usize| tree.children(index).collect::<Vec<usize>>();
    let [map, event, unit] = children(root)[..] else {
        panic!("three declarations")
    };
    let NodeKind::Map {
        map_type,
        key,
        value,
        max,
        ..
    } = tree.nodes()[map].kind
    else {
        panic!("a map")
    };
    assert_eq!((map_type, max), (MapType::LruHash, 16));
    assert_eq!((key, value), (Some(Type::U32), Some(Type::I64)));
    let fields: Vec<NodeKind> = tree
        .children(event)
        .map(|field| tree.nodes()[field].kind)
        .collect();
    assert_eq!(
        fields,
        [
            NodeKind::EventField(FieldType::Plain(Type::U64)),
            NodeKind::EventField(FieldType::Bytes(9)),
            NodeKind::EventField(FieldType::Array(Type::I32, 7)),
        ]
    );
    let name = tree.nodes()[unit].name.unwrap();
    assert_eq!(document.spelling(name), Ok("u"));
    let NodeKind::Unit { kind, license, .. } = tree.nodes()[unit].kind else {
        panic!("a unit")
    };
    assert_eq!(kind, ProgramKind::Xdp);
    assert_eq!(document.spelling(license.unwrap()), Ok("\"GPL\""));
    let items = children(unit);
    assert_eq!(items.len(), 4);
    let sum = children(items[2])[0];
    assert_eq!(tree.nodes()[sum].kind, NodeKind::Binary(Operator::Add));
    let [star, field] = children(sum)[..] else {
        panic!("two sides")
    };
    assert_eq!(tree.nodes()[star].kind, NodeKind::Dereference);
    assert_eq!(tree.nodes()[field].kind, NodeKind::Field);
    let call = children(star)[0];
    assert_eq!(tree.nodes()[call].kind, NodeKind::Call);
    assert_eq!(tree.children(call).len(), 3);
    let branches = children(items[3]);
    assert_eq!(branches.len(), 3);
    assert_eq!(tree.nodes()[branches[2]].kind, NodeKind::Else);
}

#[test]
fn a_parse_that_is_refused_says_what_was_wanted() {
    let reasons = [
        ("unit", 21, "expected an identifier, found end of file"),
        ("unit u{x -1;}", 21, "expected ';', '.', an operator, '=' or '+=', found number"),
        ("u", 22, "expected 'unit', 'map', 'event' or end of file"),
        ("map m{q", 23, "expected 'type', 'key', 'value', 'max' or '}'"),
        ("map m{type:.q;", 24, "unknown map type before this: expected 'hash', 'array', 'ringbuf', 'lru_hash' or 'prog_array'"),
        ("map m{key:q;", 25, "no type before this: expected 'u32', 'u64', 'i32' or 'i64'"),
        ("map m{max:-1;", 26, "'max' is negative"),
        ("map m{max:1<<32;", 27, "out of range: expected 0 to 4294967295"),
        ("map m{max:1<<64;", 28, "shift count out of range: expected 0 to 63"),
        ("map m{type:.hash;key:u32;value:u32;}", 29, "the map before this has no 'max'"),
        ("event e{a:q;", 30, "expected 'u32', 'u64', 'i32', 'i64' or 'bytes'"),
        ("unit u{a.b.c();}", 31, "only a variable has methods"),
    ];
    for (text, number, words) in reasons {
        let refusal = open(text).tree().unwrap_err();
        assert_eq!(refusal.number(), number, "{text}");
        assert_eq!(refusal.reason.to_string(), words, "{text}");
    }
    let lacking = open("map m{}").tree().unwrap_err();
    assert_eq!(lacking.reason, Reason::MapLacks(MapField::Type));
    assert_eq!(lacking.place, place(7, 1, 8));
    let deep = format!("unit u{{{}x;}}", "*".repeat(65));
    let refusal = open(&deep).tree().unwrap_err();
    assert_eq!((refusal.number(), refusal.place), (32, place(71, 1, 72)));
    assert!(open(&deep.replacen('*', "", 1)).tree().is_ok());
}

#[test]
fn a_replacement_is_a_fresh_reading() {
    let mut document = open(LISTER_TEXT);
    document.replace(13..14, "12").unwrap();
    assert_eq!(document, open("unit u{\n x+=-12;\n}\n"));
    document.replace(0..0, "/*").unwrap();
    assert_eq!(document.refusal().unwrap().reason, Reason::OpenComment);
    assert_eq!(document, open("/*unit u{\n x+=-12;\n}\n"));
    let end = document.text().len();
    document.replace(end..end, "*/ map").unwrap();
    assert_eq!(document.rows().len(), 2);
    document.replace(0..document.text().len(), "").unwrap();
    assert_eq!(document, open(""));
    document.replace(0..0, "").unwrap();
    assert_eq!(document, open(""));
}

#[test]
fn a_refused_replacement_changes_nothing() {
    let mut document = open("unit u{}");
    let before = document.clone();
    let backwards = std::ops::Range { start: 5, end: 4 };
    for range in [backwards, 8..9, 9..9, usize::MAX - 1..usize::MAX] {
        let refusal = document.replace(range, "x").unwrap_err();
        assert_eq!(refusal.number(), 6);
        assert_eq!(document, before);
    }
    let blanks = " ".repeat(LONGEST_TEXT);
    document.replace(8..8, &blanks[..LONGEST_TEXT - 8]).unwrap();
    assert_eq!(document.text().len(), LONGEST_TEXT);
    assert_eq!(document, Document::open(document.text()).unwrap());
}

/// A text that is too long is held without rows, tells 1, and is read as soon as it is short enough.
#[test]
fn a_text_that_is_too_long_is_held() {
    let long = format!("unit u{{}}{}", " ".repeat(LONGEST_TEXT - 7));
    let mut document = open(&long);
    let is_held = |document: &Document| {
        assert_eq!(document.rows().len(), 0);
        let refusal = document.refusal().unwrap();
        assert_eq!((refusal.number(), refusal.place), (1, place(0, 1, 1)));
        assert_eq!(document.tree(), Err(refusal));
        assert_eq!(document.table().store(), Err(refusal));
        assert_eq!(document.spelling(0).unwrap_err().number(), 3);
        assert_eq!(document.node_at(0), None);
        assert_eq!(*document, open(document.text()));
    };
    is_held(&document);
    assert!(document.refresh());
    document.replace(LONGEST_TEXT.., "").unwrap();
    assert_eq!(document, open(&long[..LONGEST_TEXT]));
    assert_eq!(document.rows().len(), 5);
    document.replace(.., &"°".repeat(1 << 19)).unwrap();
    is_held(&document);
    document.replace(2..4, "x").unwrap();
    is_held(&document);
    assert_eq!(document.text().len(), (1 << 20) - 1);
    for (range, number) in [(0..1 << 20, 6), (0..1, 6)] {
        let refusal = document.replace(range, "").unwrap_err();
        assert_eq!(refusal.number(), number);
        is_held(&document);
    }
    document.replace(3.., "").unwrap();
    assert_eq!(document, open("°x"));
    let refusal = Document::open_with(long.as_str(), open("").table().clone()).unwrap_err();
    assert_eq!(refusal.number(), 1);
    let none = open(&long).table().clone();
    let refusal = Document::open_with("", none).unwrap_err();
    assert_eq!(refusal.reason, Reason::OtherText);
}

/// Random changes around the limit: the document is that of a fresh reading, and none is refused.
#[test]
fn changes_go_over_the_limit_and_back() {
    let mut text = "a = \"°\"; // x\n".repeat(4_000);
    let mut document = open(&text);
    let mut seed = 7_u64;
    let mut random = |below: usize| {
        seed = seed.wrapping_mul(6_364_136_223_846_793_005).wrapping_add(1);
        (seed >> 33) as usize % below
    };
    let mut too_long = 0;
    for _ in 0..200 {
        let edge = |at: usize| {
            (0..=at)
                .rev()
                .find(|&at| text.is_char_boundary(at))
                .unwrap()
        };
        let start = edge(random(text.len() + 1));
        let end = edge((start + random(9_000)).min(text.len())).max(start);
        let most = if text.len() > LONGEST_TEXT { 1 } else { 900 };
        let new = "b /* ° */ ".repeat(random(most));
        document.replace(start..end, &new).unwrap();
        text.replace_range(start..end, &new);
        assert_eq!(document, open(&text));
        too_long += usize::from(text.len() > LONGEST_TEXT);
    }
    assert!((20..180).contains(&too_long), "{too_long}");
}

#[test]
fn ranges_of_any_kind_are_taken() {
    type Changed = fn(&mut Document) -> Result<(), spoonharbor::Refusal>;
    let changes: [(Changed, &str); 6] = [
        (|document| document.replace(..4, "map"), "map u{}"),
        (|document| document.replace(..=3, "map"), "map u{}"),
        (|document| document.replace(5..=5, "v"), "unit v{}"),
        (|document| document.replace(8.., ";"), "unit u{};"),
        (|document| document.replace(.., ""), ""),
        (
            |document| {
                let behind_five = (std::ops::Bound::Excluded(5), std::ops::Bound::Unbounded);
                document.replace(behind_five, "")
            },
            "unit u",
        ),
    ];
    for (change, text) in changes {
        let mut document = open("unit u{}");
        change(&mut document).unwrap();
        assert_eq!(document, open(text));
    }
    let mut document = open("a");
    let refusal = document.replace(0..=usize::MAX, "").unwrap_err();
    assert_eq!(refusal.number(), 6);
}

const NODES: &str = "// maps\nmap m{type:.hash;key:u32;value:u64;max:1<<4;}\n\
    event e { a: u64; b: bytes[9]; }\n\
    unit u { section \"xdp\"; license \"GPL\";\n\
    \treg r = *((ctx)).load_u8(1, (r - 2)) + (r.f);\n\
    \tif guard (r) { x += r.m(); } else { }\n\
    \tunused; return ((a + b) * *(c)); }\nunit v {}event n {}";

/// Each node has the rows that it is written with, and its parent's are around them.
#[test]
fn nodes_have_rows_and_spans() {
    let document = open(NODES);
    let tree = document.tree().unwrap();
    let spelt = |index: usize| &NODES[document.node_span(index).unwrap()];
    let told: Vec<(u32, &str)> = (0..tree.len())
        .map(|index| (tree.nodes()[index].kind.number(), spelt(index)))
        .collect();
    let wanted = [
        (28, "map m{type:.hash;key:u32;value:u64;max:1<<4;}"),
        (26, "a: u64;"),
        (26, "b: bytes[9];"),
        (27, "event e { a: u64; b: bytes[9]; }"),
        (23, "section \"xdp\";"),
        (24, "license \"GPL\";"),
        (1, "ctx"),
        (2, "1"),
        (1, "r"),
        (2, "2"),
        (5, "r - 2"),
        (11, "((ctx)).load_u8(1, (r - 2))"),
        (3, "*((ctx)).load_u8(1, (r - 2))"),
        (1, "r"),
        (12, "r.f"),
        (4, "*((ctx)).load_u8(1, (r - 2)) + (r.f)"),
        (16, "reg r = *((ctx)).load_u8(1, (r - 2)) + (r.f);"),
        (1, "r"),
        (1, "x"),
        (1, "r"),
        (11, "r.m()"),
        (15, "x += r.m();"),
        (21, "{ x += r.m(); }"),
        (22, "else { }"),
        (20, "if guard (r) { x += r.m(); } else { }"),
        (1, "unused"),
        (13, "unused;"),
        (1, "a"),
        (1, "b"),
        (4, "a + b"),
        (1, "c"),
        (3, "*(c)"),
        (6, "(a + b) * *(c)"),
        (19, "return ((a + b) * *(c));"),
    ];
    assert_eq!(told[..wanted.len()], wanted);
    let behind: Vec<&str> = told[wanted.len()..].iter().map(|told| told.1).collect();
    assert_eq!(behind[1..], ["unit v {}", "event n {}", NODES]);
    assert!(behind[0].starts_with("unit u {") && behind[0].ends_with("(c)); }"));
    for index in 0..tree.len() {
        let (rows, span) = (
            document.node_rows(index).unwrap(),
            document.node_span(index).unwrap(),
        );
        let place = tree.nodes()[index].place;
        assert!(rows.contains(&place), "{index}");
        let Some(parent) = tree.parent(index) else {
            assert_eq!(index, tree.root());
            continue;
        };
        assert!(tree.children(parent).any(|child| child == index));
        let around = document.node_span(parent).unwrap();
        assert!(around.start <= span.start && span.end <= around.end);
    }
    assert_eq!(document.node_rows(tree.len()), None);
    assert_eq!(open("unit").node_rows(0), None);
}

#[test]
fn nodes_have_names() {
    let document = open(NODES);
    let names = document
        .tree()
        .unwrap()
        .nodes()
        .iter()
        .filter_map(|node| document.name(node));
    let names: Vec<&str> = names.collect();
    assert_eq!(names[..6], ["m", "a", "b", "e", "\"xdp\"", "\"GPL\""]);
    assert_eq!(names[6..9], ["ctx", "r", "load_u8"]);
}

#[test]
fn offsets_have_rows_and_nodes() {
    let document = open(NODES);
    let tree = document.tree().unwrap();
    for (number, row) in document.rows().enumerate() {
        for offset in row.span() {
            assert_eq!(document.row_at(offset), Some(number));
        }
    }
    let gap = NODES.find("maps").unwrap();
    assert_eq!(
        (document.row_at(gap), document.row_at(NODES.len())),
        (None, None)
    );
    let node = |part: &str| document.node_at(NODES.find(part).unwrap()).unwrap();
    let kind = |part: &str| tree.nodes()[node(part)].kind.number();
    assert_eq!(kind("maps"), 29);
    assert_eq!(kind("max"), 28);
    assert_eq!(kind("- 2"), 5);
    assert_eq!(kind("load_u8"), 11);
    assert_eq!(kind("else"), 22);
    assert_eq!(kind("guard"), 20);
    assert_eq!(document.node_at(NODES.len()), Some(tree.root()));
    assert_eq!(document.node_at(NODES.len() + 1), None);
    // The smallest node around each offset is the one that a search of all nodes finds.
    for offset in 0..NODES.len() {
        let spans =
            (0..tree.len()).filter(|&index| document.node_span(index).unwrap().contains(&offset));
        let smallest = spans.min_by_key(|&index| document.node_span(index).unwrap().len());
        assert_eq!(document.node_at(offset), smallest, "{offset}");
    }
}

#[test]
fn lines_and_columns_lead_back() {
    let document = open("// 0.1°\n\n\"🔭a\"\n");
    let text = document.text();
    for offset in 0..=text.len() + 1 {
        let Some(position) = document.position(offset) else {
            assert!(!text.is_char_boundary(offset));
            continue;
        };
        assert_eq!(position.byte, offset);
        let back = [
            document.offset_at(position.line, position.column),
            document.offset_at_utf16(position.line, position.utf16),
        ];
        assert_eq!(back, [Some(offset); 2]);
    }
    let a = document.position(text.find("a\"").unwrap()).unwrap();
    assert_eq!((a.line, a.column, a.utf16), (3, 6, 4));
    let nowhere = [
        (0, 1),
        (1, 0),
        (1, 10),
        (2, 2),
        (4, 2),
        (5, 1),
        (1, usize::MAX),
        (usize::MAX, 1),
    ];
    for (line, column) in nowhere {
        assert_eq!(document.offset_at(line, column), None, "{line}:{column}");
    }
    // Inside the degree sign, and inside the two units of the telescope.
    assert_eq!(document.offset_at(1, 8), None);
    assert_eq!(document.offset_at_utf16(3, 3), None);
    for (line, column) in [(0, 1), (1, 0), (1, 9), (2, 2), (5, 1)] {
        assert_eq!(
            document.offset_at_utf16(line, column),
            None,
            "{line}:{column}"
        );
    }
}

#[test]
fn everything_is_shown() {
    let document = open(NODES);
    let tree = document.tree().unwrap();
    let shown = |index: usize| tree.nodes()[index].kind.to_string();
    assert_eq!(shown(0), "map: hash, key u32, value u64, max 16");
    assert_eq!(shown(2), "event field: bytes[9]");
    assert_eq!(
        (shown(5), shown(10)),
        ("license".into(), "operator -".into())
    );
    assert_eq!(document.to_string(), NODES);
    assert_eq!(document.row(0).unwrap().to_string(), "2:1 'map'");
    assert_eq!(document.row(0).unwrap().place().to_string(), "2:1");
    assert_eq!(FieldType::Array(Type::I32, 7).to_string(), "i32[7]");
    assert_eq!(
        (Operator::Shl.to_string(), MapType::LruHash.to_string()),
        ("<<".into(), "lru_hash".into())
    );
    assert_eq!(
        (MapField::Max.to_string(), Method::LoadU8.to_string()),
        ("max".into(), "load_u8".into())
    );
    assert_eq!(ProgramKind::RawTracepoint.to_string(), "raw tracepoint");
    for method in Method::ALL {
        assert_eq!(Method::from_name(method.name()), Some(*method));
    }
    assert_eq!(Method::from_name("load"), None);
}

/// A change whose end is far behind the new bytes.
#[test]
fn changes_reach_as_far_as_needed() {
    let mut text = "a /* b */ ".to_string();
    text.push_str(&"c ".repeat(20_000));
    text.push_str("*/ d");
    let mut document = open(&text);
    document.replace(7..9, "").unwrap();
    text.replace_range(7..9, "");
    assert_eq!(document, open(&text));
    assert_eq!(document.rows().len(), 3);
    document.replace(2..4, "\"").unwrap();
    text.replace_range(2..4, "\"");
    assert_eq!(document, open(&text));
    assert_eq!(document.refusal().unwrap().reason, Reason::OpenString);
}

#[test]
fn documents_print_themselves() {
    let shown = format!("{:?}", open("@"));
    assert!(shown.contains("NoRowBegins"), "{shown}");
}

#[test]
fn sets_and_sections() {
    assert_eq!(section_kind(b"xdp"), ProgramKind::Xdp);
    assert_eq!(section_kind(b"tcx"), ProgramKind::Tc);
    assert_eq!(section_kind(b"kprobe"), ProgramKind::Unknown);
    assert_eq!(section_kind(b""), ProgramKind::Unknown);
    assert_eq!(section_kind(&[0xff; 100]), ProgramKind::Unknown);
    for (number, kind) in ProgramKind::ALL.iter().copied().enumerate() {
        let mask = compare::edge_cases::METHOD_SETS[number];
        assert_eq!(set_size(kind), mask.count_ones());
        for (bit, method) in Method::ALL.iter().copied().enumerate() {
            assert_eq!(allows(kind, method), mask >> bit & 1 == 1);
        }
    }
}
