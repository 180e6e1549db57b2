//! The C header's numbers, held to this crate's and to what the library answers.

use compare::model::file::seal;
use spoonharbor::lent::{self, Change, Words};
use spoonharbor::{
    mend_file, section_kind, CountTooLarge, Document, FieldType, Figure, Form, Kind, MapField,
    MapType, Method, NodeKind, Operator, ProgramKind, Reason, Refusal, Type, LONGEST_TEXT,
    MOST_STORED_ROWS, VERSION,
};
use std::collections::{BTreeMap, BTreeSet};
use std::fmt::Debug;

const HEADER: &str = include_str!("../../include/spoonharbor.h");

/// The numbers of names.
type Numbers = BTreeMap<String, u32>;

/// The header without its comments.
fn code() -> String {
    let mut parts = HEADER.split("/*");
    let mut code = parts.next().unwrap().to_string();
    for part in parts {
        code += part.split_once("*/").expect("comments are closed").1;
    }
    code
}

/// The names of one of the header's enums, without what all of them begin with.
fn enumerated(tag: &str, prefix: &str) -> Numbers {
    let code = code();
    let (_, behind) = code
        .split_once(&format!("enum {tag} {{"))
        .unwrap_or_else(|| panic!("the header has enum {tag}"));
    let (body, _) = behind.split_once('}').unwrap();
    body.split(',')
        .map(|entry| {
            let (name, number) = entry.split_once('=').expect("NAME = NUMBER");
            let name = name.trim().strip_prefix(prefix).expect("one beginning");
            (name.to_string(), number.trim().parse().unwrap())
        })
        .collect()
}

/// The number that the header defines a name as.
fn defined(name: &str) -> u32 {
    let line = HEADER
        .lines()
        .find_map(|line| line.strip_prefix(&format!("#define {name} ")));
    let number = line.unwrap_or_else(|| panic!("the header defines {name}"));
    let number = number.trim_start_matches("UINT32_C(").trim_end_matches(')');
    number.parse().unwrap()
}

/// A name of this crate as C has it: `StringLiteral` is `STRING_LITERAL`. What the name holds is left out.
fn in_c(name: impl Debug) -> String {
    let name = format!("{name:?}");
    let name = name.split([' ', '(', '{']).next().unwrap_or_default();
    let mut before = 'A';
    let mut c = String::new();
    for letter in name.chars() {
        if letter.is_ascii_uppercase() && !before.is_ascii_uppercase() {
            c.push('_');
        }
        c.push(letter.to_ascii_uppercase());
        before = letter;
    }
    c
}

fn numbers(pairs: impl IntoIterator<Item = (String, u32)>) -> Numbers {
    pairs.into_iter().collect()
}

/// A text's rows and table, as the library tells them.
fn scanned(text: &str) -> (Vec<u32>, Words) {
    let mut rows = vec![0; (text.len() + 1) * lent::ROW_WORDS];
    let table = lent::scan(text.as_bytes(), &mut rows);
    (rows, table)
}

/// A program's nodes, each with what this crate makes of it.
fn parsed(text: &str) -> Vec<(Vec<u32>, NodeKind)> {
    let (rows, table) = scanned(text);
    let mut nodes = vec![0; rows.len()];
    let answer = lent::parse(text.as_bytes(), &rows, &table, &mut nodes);
    assert_eq!(answer[lent::NUMBER], 0, "{text}");
    let document = Document::open(text).unwrap();
    let tree = document.tree().unwrap();
    let words = nodes.chunks(lent::NODE_WORDS).map(<[u32]>::to_vec);
    let kinds = tree.nodes().iter().map(|node| node.kind);
    words.zip(kinds).collect()
}

#[test]
fn versions_agree() {
    let [major, minor, patch] =
        ["MAJOR", "MINOR", "PATCH"].map(|part| defined(&format!("SPOONHARBOR_VERSION_{part}")));
    assert_eq!(
        format!("{major}.{minor}.{patch}"),
        env!("CARGO_PKG_VERSION")
    );
    assert_eq!(major << 16 | minor << 8 | patch, VERSION);
    assert_eq!(lent::version(), VERSION);
}

/// Each kind's number is what the library gives the row that is spelt so.
#[test]
fn row_kinds_are_the_librarys() {
    let mut made = Numbers::new();
    for kind in (0..=60).filter_map(Kind::from_number) {
        let text = kind.spelling().unwrap_or(match kind {
            Kind::Identifier => "x",
            Kind::StringLiteral => "\"\"",
            Kind::Number => "7",
            _ => "",
        });
        let (rows, table) = scanned(text);
        assert_eq!(table[lent::NUMBER], 0, "{text}");
        assert_eq!(rows[0], kind.number(), "{text}");
        let name = in_c(kind);
        made.insert(
            name.strip_prefix("KEYWORD_").unwrap_or(&name).to_string(),
            rows[0],
        );
    }
    assert_eq!(made.len(), 48);
    assert_eq!(enumerated("sh_row_kind", "SH_ROW_KIND_"), made);
}

/// A program with a node of every kind.
const EVERY_NODE: &str = "map m{type:.hash;key:u32;value:u64;max:8;}event e{a:u32;}\
    unit u{section \"xdp\";license \"GPL\";reg r=*a+1 - 2*3/4%5;imm i=1<<2;heap h=1>>2;ctx.load_u8(1);\
    a=b.c;a+=1;if guard(a){return 1;}else{}}";

#[test]
fn node_kinds_are_the_librarys() {
    let mut made = Numbers::new();
    for (words, kind) in parsed(EVERY_NODE) {
        assert_eq!(kind.number(), words[0]);
        let name = match kind {
            NodeKind::Binary(operator) => in_c(operator),
            kind => in_c(kind),
        };
        made.insert(name, words[0]);
    }
    assert_eq!(made.len(), 29);
    assert_eq!(enumerated("sh_node_kind", "SH_NODE_KIND_"), made);
    let signs = ["+", "-", "*", "/", "%", "<<", ">>"];
    let operators = parsed(EVERY_NODE).into_iter().filter_map(|(words, kind)| {
        let NodeKind::Binary(operator) = kind else {
            return None;
        };
        Some((words[0], operator.sign()))
    });
    let operators: BTreeSet<(u32, &str)> = operators.collect();
    assert_eq!(operators, (4..).zip(signs).collect());
    assert_eq!(in_c(Operator::Shl), "SHL");
}

/// What the library answers to a call that is refused with each number of 1 to 7.
fn refused_calls() -> Vec<Words> {
    let (rows, table) = scanned("x");
    let edit = |a, window: &[u8]| {
        let change = Change { a, b: a, n: 1 };
        lent::edit(&rows, &table, change, 0, window, &mut [])
    };
    vec![
        lent::scan(&vec![b' '; LONGEST_TEXT + 1], &mut []),
        lent::scan(b"\xff", &mut []),
        lent::spelling(b"x", &rows, &table, 9),
        lent::scan(b"x", &mut []),
        lent::parse(b"x", &rows, &table, &mut []),
        edit(2, b""),
        edit(0, b""),
    ]
}

/// A text that is refused with each number of 11 on.
fn refused_texts() -> Vec<String> {
    let mut texts: Vec<String> = [
        "@",
        "/*",
        "\"",
        "\"\\t\"",
        "9223372036854775808",
        "<",
        "0x",
        "unit",
        "x",
        "map m{x",
        "map m{type:.x;",
        "map m{key:x;",
        "map m{max:-1;",
        "map m{max:4294967296;",
        "map m{max:1<<64;",
        "map m{}",
        "event e{a:x;",
        "unit u{a.b.c();}",
    ]
    .map(str::to_string)
    .to_vec();
    texts.push(format!("unit u{{{}x;}}", "*".repeat(65)));
    texts
}

#[test]
fn refusals_are_the_librarys() {
    let read = |text: String| {
        let refusal = Document::open(text).unwrap().tree().unwrap_err();
        (refusal.number(), refusal.reason)
    };
    let called = refused_calls().into_iter().map(|answer| {
        let refusal = Refusal::from_words(&answer).unwrap();
        assert_eq!(answer[lent::NUMBER], refusal.number());
        (refusal.number(), refusal.reason)
    });
    let reasons: Vec<(u32, Reason)> = called
        .chain(refused_texts().into_iter().map(read))
        .collect();
    let told: Vec<u32> = reasons.iter().map(|(number, _)| *number).collect();
    let wanted: Vec<u32> = (1..=7).chain(11..=17).chain(21..=32).collect();
    assert_eq!(told, wanted);
    let made = numbers(
        reasons
            .iter()
            .map(|(number, reason)| (in_c(reason), *number)),
    );
    assert_eq!(enumerated("sh_refusal", "SH_REFUSED_"), made);
}

/// What the library answers to a call over a file that is refused with each number of 40 to 44.
fn refused_files() -> Vec<Words> {
    let (rows, table) = scanned(&";".repeat(MOST_STORED_ROWS));
    let many = lent::store(&rows, &table, &mut []);
    let (rows, table) = scanned("x");
    let mut file = vec![0; 1024];
    lent::store(&rows, &table, &mut file);
    let said = |at: usize, word: u8| {
        let mut first = file[..512].to_vec();
        first[at] = word;
        seal(&mut first);
        lent::load(&[&first, &file[512..]].concat(), &mut [])
    };
    let mut damaged = file.clone();
    damaged[600] ^= 1;
    vec![
        many,
        lent::load(&damaged, &mut []),
        lent::load(&file[..512], &mut []),
        said(8, 0),
        said(4, 2),
        lent::load_beside(b"xy", &file, &mut [0; 16]),
    ]
}

#[test]
fn file_refusals_are_the_librarys() {
    let mut made = Numbers::new();
    for (answer, number) in refused_files().into_iter().zip(40..) {
        assert_eq!(answer[lent::NUMBER], number);
        let reason = Refusal::from_words(&answer).unwrap().reason;
        if let Reason::BadBlock(block) = reason {
            assert_eq!((block, answer[lent::FIRST]), (1, 1));
        }
        made.insert(in_c(reason), number);
    }
    assert_eq!(made.len(), 6);
    assert_eq!(enumerated("sh_file_refusal", "SH_FILE_"), made);
    let most = format!("enum {{ SH_MOST_STORED_ROWS = {MOST_STORED_ROWS} }};");
    assert!(code().contains(&most));
}

/// The forms have the numbers that their files say, and room for so many rows is what a move writes.
#[test]
fn forms_are_the_librarys() {
    let forms = Form::ALL.map(|form| (in_c(form), form.number()));
    assert_eq!(enumerated("sh_form", "SH_FORM_"), Numbers::from(forms));
    let rooms = [
        "#define SH_FILE_ROOM(rows) (512 * (1 + ((size_t)(rows) + 14) / 15))",
        "#define SH_SHORT_FILE_ROOM(rows) (512 * (1 + ((size_t)(rows) + 20) / 21))",
    ];
    assert!(rooms.iter().all(|room| HEADER.contains(room)));
    for count in [1, 15, 16, 21, 22, 42, 43, 315, 316] {
        let text = ";".repeat(count - 1);
        let mut file = Vec::new();
        for (form, per_block) in [(Form::Full, 15), (Form::Short, 21)] {
            mend_file(text.as_bytes(), &mut file, form).unwrap();
            assert_eq!(file.len(), 512 * (1 + count.div_ceil(per_block)));
            assert_eq!(file[4..8], form.number().to_le_bytes());
        }
    }
}

#[test]
fn map_fields_are_the_librarys() {
    let texts = [
        "map m{}",
        "map m{type:.hash;}",
        "map m{type:.hash;key:u32;}",
        "map m{type:.hash;key:u32;value:u32;}",
    ];
    let mut made = Numbers::new();
    for text in texts {
        let (rows, table) = scanned(text);
        let mut nodes = vec![0; rows.len()];
        let answer = lent::parse(text.as_bytes(), &rows, &table, &mut nodes);
        let Reason::MapLacks(field) = Refusal::from_words(&answer).unwrap().reason else {
            panic!("{text}: {answer:?}")
        };
        made.insert(in_c(field), answer[lent::FIRST]);
    }
    assert_eq!(made.len(), 4);
    assert_eq!(in_c(MapField::Max), "MAX");
    assert_eq!(enumerated("sh_map_field", "SH_MAP_FIELD_"), made);
}

#[test]
fn types_are_the_librarys() {
    let mut types = Numbers::new();
    let mut map_types = Numbers::new();
    for (word, map_type) in ["u32", "u64", "i32", "i64", "u32"].iter().zip([
        MapType::Hash,
        MapType::Array,
        MapType::Ringbuf,
        MapType::LruHash,
        MapType::ProgArray,
    ]) {
        let written = map_type.word();
        let text = format!("map m{{type:.{written};key:{word};value:{word};max:8;}}");
        let (words, kind) = parsed(&text).remove(0);
        let NodeKind::Map {
            map_type: read,
            key: Some(key),
            value,
            ..
        } = kind
        else {
            panic!("{kind:?}")
        };
        assert_eq!((read, value, key.word()), (map_type, Some(key), *word));
        assert_eq!(words[5], words[6]);
        types.insert(in_c(key), words[5]);
        map_types.insert(in_c(map_type), words[4]);
    }
    assert_eq!((types.len(), map_types.len()), (4, 5));
    assert_eq!(in_c(Type::U32), "U32");
    assert_eq!(enumerated("sh_type", "SH_TYPE_"), types);
    assert_eq!(enumerated("sh_map_type", "SH_MAP_TYPE_"), map_types);
}

#[test]
fn shapes_are_the_librarys() {
    let nodes = parsed("event e{a:u32;b:bytes[2];c:u32[3];}");
    let made = nodes.iter().filter_map(|(words, kind)| match kind {
        NodeKind::EventField(FieldType::Plain(_)) => Some(("PLAIN", words[4])),
        NodeKind::EventField(FieldType::Bytes(2)) => Some(("BYTES", words[4])),
        NodeKind::EventField(FieldType::Array(_, 3)) => Some(("ARRAY", words[4])),
        _ => None,
    });
    let made = numbers(made.map(|(name, number)| (name.to_string(), number)));
    assert_eq!(enumerated("sh_shape", "SH_SHAPE_"), made);
}

#[test]
fn program_kinds_and_methods_are_the_librarys() {
    let sections = [
        "xdp",
        "tc",
        "sk_x",
        "cgroup/x",
        "kprobe/x",
        "tracepoint/x",
        "raw_tracepoint/x",
        "fentry/x",
        "fexit/x",
        "lsm/x",
        "",
    ];
    let mut made = Numbers::new();
    for (kind, section) in ProgramKind::ALL.iter().zip(sections) {
        assert_eq!(section_kind(section.as_bytes()), *kind, "{section}");
        let number = lent::section_kind(section.as_bytes());
        made.insert(in_c(kind), number);
    }
    assert_eq!(made.len(), ProgramKind::ALL.len());
    assert_eq!(enumerated("sh_program_kind", "SH_PROGRAM_KIND_"), made);
    let past = ProgramKind::ALL.len() as u32;
    assert_eq!(lent::set_size(past - 1)[lent::NUMBER], 0);
    assert_eq!(lent::set_size(past)[lent::NUMBER], 3);

    let methods = numbers(
        (0..)
            .zip(Method::ALL)
            .map(|(at, method)| (in_c(method), at)),
    );
    assert_eq!(enumerated("sh_method", "SH_METHOD_"), methods);
    let past = Method::ALL.len() as u32;
    assert_eq!(lent::allows(0, past - 1)[lent::NUMBER], 0);
    assert_eq!(lent::allows(0, past)[lent::NUMBER], 3);
}

#[test]
fn words_stand_where_the_crate_has_them() {
    let words = [
        ("NUMBER", lent::NUMBER),
        ("OFFSET", lent::OFFSET),
        ("LINE", lent::LINE),
        ("COLUMN", lent::COLUMN),
        ("FIRST", lent::FIRST),
        ("SECOND", lent::SECOND),
        ("COUNT", lent::COUNT),
        ("LENGTH", lent::LENGTH),
        ("WORDS", size_of::<Words>() / size_of::<u32>()),
    ];
    let words = numbers(words.map(|(name, at)| (name.to_string(), at as u32)));
    assert_eq!(enumerated("sh_answer_word", "SH_"), words);

    let at = enumerated("sh_row_word", "SH_ROW_");
    let text = "//\n  -2";
    let (rows, _) = scanned(text);
    let word = |name: &str| rows[at[name] as usize];
    let row = Document::open(text).unwrap().row(0).unwrap();
    assert_eq!(word("KIND"), row.kind.number());
    assert_eq!((word("START"), word("END")), (5, 7));
    assert_eq!((word("COMMENTS"), row.comments), (1, 1));
    assert_eq!((word("LINE"), word("COLUMN")), (2, 3));
    assert_eq!(
        (word("VALUE_LOW"), word("VALUE_HIGH")),
        (u32::MAX - 1, u32::MAX)
    );
    assert_eq!(at["WORDS"] as usize, lent::ROW_WORDS);

    let at = enumerated("sh_node_word", "SH_NODE_");
    let nodes = parsed("unit u{}unit v{}");
    let word = |node: usize, name: &str| nodes[node].0[at[name] as usize];
    assert_eq!(word(2, "KIND"), NodeKind::Program.number());
    assert_eq!((word(1, "PLACE"), word(1, "NAME")), (4, 5));
    assert_eq!((word(2, "CHILDREN"), word(2, "NAME")), (2, lent::MISSING));
    assert_eq!(word(1, "FACTS"), ProgramKind::Unknown as u32);
    assert_eq!(at["WORDS"] as usize, lent::NODE_WORDS);
    assert_eq!(defined("SH_MISSING"), lent::MISSING);
    assert!(code().contains(&format!("enum {{ SH_LONGEST_TEXT = {LONGEST_TEXT} }};")));
    let scratch = lent::SCRATCH_WORDS;
    assert!(code().contains(&format!("enum {{ SH_SCRATCH_WORDS = {scratch} }};")));
}

/// Where each count of a tally stands, how many there are, of how many nodes, and the refusal of a joining.
#[test]
fn tallies_are_as_the_header_says() {
    let named = enumerated("sh_tally_count", "SH_TALLY_");
    let first = |wanted: fn(&Figure) -> bool| Figure::ALL.iter().position(wanted).unwrap() as u32;
    let made = [
        ("UNITS", first(|figure| matches!(figure, Figure::Units(_)))),
        ("MAPS", first(|figure| matches!(figure, Figure::Maps(_)))),
        ("EVENTS", first(|figure| *figure == Figure::Events)),
        ("STATEMENTS", first(|figure| *figure == Figure::Statements)),
        ("MAX", first(|figure| *figure == Figure::Max)),
        ("METHODS", first(|figure| *figure == Figure::Methods)),
        ("COUNTS", lent::TALLY_COUNTS as u32),
    ];
    assert_eq!(
        named,
        numbers(made.map(|(name, number)| (name.to_string(), number)))
    );
    let most = lent::TALLY_MOST_NODES;
    assert!(code().contains(&format!("enum {{ SH_TALLY_MOST_NODES = {most} }};")));
    let refused = enumerated("sh_join_refusal", "SH_JOIN_");
    let too_large = ("COUNT_TOO_LARGE".to_string(), CountTooLarge::NUMBER);
    assert_eq!(refused, numbers([too_large]));
}

/// The names behind each of these beginnings.
fn names_behind(text: &str, beginning: &str) -> BTreeSet<String> {
    let names = text.split(beginning).skip(1);
    names
        .map(|rest| rest.split('(').next().unwrap_or_default().to_string())
        .collect()
}

/// What the crate `spoonharbor_c` exports is every call of `spoonharbor`, what the header declares and what this crate calls.
#[test]
fn every_call_is_declared() {
    let sources = [
        include_str!("../../crates/spoonharbor/src/lib.rt"),
        include_str!("../../crates/spoonharbor/src/change.rt"),
        include_str!("../../crates/spoonharbor/src/layouts.rt"),
        include_str!("../../crates/spoonharbor/src/figures.rt"),
    ];
    let face = names_behind(&sources.concat(), "pub extern \"C\" fn ");
    assert_eq!(face.len(), 19);
    let exports = include_str!("../../crates/spoonharbor_c/src/lib.rt");
    let exported = names_behind(exports, "#[unsafe(no_mangle)]\npub extern \"C\" fn ");
    assert_eq!(exported, face);
    let called = names_behind(include_str!("../src/ffi.rs"), "pub fn ");
    assert_eq!(called, exported);
    let code = code();
    let calls = code.split(['\n', ' ']).filter_map(|word| {
        let name = word.split_once('(')?.0;
        name.starts_with("spoonharbor_").then(|| name.to_string())
    });
    assert_eq!(calls.collect::<BTreeSet<String>>(), exported);
    let example = include_str!("../../include/example.c");
    for name in exported {
        assert!(example.contains(&format!("{name}(")), "{name}");
    }
}

/// When an edit, a change and a restart are 6, as their comments say.
#[test]
fn edits_that_are_not_sensible_are_as_the_header_says() {
    let text = "unit u{}";
    let (rows, table) = scanned(text);
    let mut new = vec![0; 400];
    let restart = |a: u32| lent::restart(&rows, &table, a)[lent::NUMBER];
    assert_eq!((restart(8), restart(9)), (0, 6));
    let start = lent::restart(&rows, &table, 5)[lent::OFFSET];
    let mut edit = |a: u32, b: u32, start: u32, window: &str| {
        let change = Change { a, b, n: 1 };
        lent::edit(&rows, &table, change, start, window.as_bytes(), &mut new)[lent::NUMBER]
    };
    assert_eq!(start, 4);
    assert_eq!(edit(5, 6, 4, " v{}"), 0);
    // Another start, a window past the new end, a above b, a place past the old text.
    assert_eq!(edit(5, 6, 5, "v{}"), 6);
    assert_eq!(edit(5, 6, 4, " v{};"), 6);
    assert_eq!(edit(6, 5, 4, " v{}"), 6);
    assert_eq!(edit(5, 9, 4, " v"), 6);
    let mut change = |b: u32, text: &str| {
        let change = Change { a: 5, b, n: 1 };
        lent::change(&rows, &table, change, text.as_bytes(), &mut new)[lent::NUMBER]
    };
    assert_eq!(change(6, "unit v{}"), 0);
    assert_eq!((change(6, "unit v{} "), change(4, "unit v{}")), (6, 6));
    // A part of a character.
    assert_eq!(change(9, "unit v"), 6);
    let cut = lent::change(
        &rows,
        &table,
        Change { a: 8, b: 8, n: 1 },
        b"unit u{}\xc2",
        &mut new,
    );
    assert_eq!(cut[lent::NUMBER], 2);
}

/// A table of another length is 3 for spelling and parse.
#[test]
fn tables_of_another_length_are_as_the_header_says() {
    let (rows, table) = scanned("unit u{}");
    let mut nodes = vec![0; 80];
    for text in ["unit u{} ", "unit u{"] {
        assert_eq!(
            lent::spelling(text.as_bytes(), &rows, &table, 0)[lent::NUMBER],
            3
        );
        let parsed = lent::parse(text.as_bytes(), &rows, &table, &mut nodes);
        assert_eq!(parsed[lent::NUMBER], 3);
    }
}

/// A change with the table of `b a` beside the text `1 a`: row 0 stays a name, which a scan makes a number.
#[test]
fn a_change_with_another_text_s_table_is_no_scan() {
    let (rows, table) = scanned("b a");
    let mut new = vec![0; 40];
    let change = Change { a: 3, b: 3, n: 1 };
    let told = lent::change(&rows, &table, change, b"1 ab", &mut new);
    assert_eq!((told[lent::NUMBER], new[0]), (0, Kind::Identifier.number()));
    assert_eq!(scanned("1 ab").0[0], Kind::Number.number());
}

/// At each call the words that are lent are said to be words.
#[test]
fn every_parameter_in_words_is_said_to_be() {
    let mut told = 0;
    for part in HEADER.split("\n/* ").skip(1) {
        let Some((comment, behind)) = part.split_once("*/\n") else {
            continue;
        };
        let declaration = behind.split(';').next().unwrap();
        if !declaration.contains(" spoonharbor_") || declaration.contains('{') {
            continue;
        }
        let words = declaration.split(|letter: char| !letter.is_ascii_lowercase() && letter != '_');
        for parameter in words.filter(|word| word.ends_with("_words")) {
            assert!(comment.contains(parameter), "{parameter}: {comment}");
            told += 1;
        }
    }
    assert!(told >= 12, "{told}");
}
