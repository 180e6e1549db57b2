//! Every problem at once: texts with one fault, two and three, made from a table, get one message, two and three, each
//! on its line and in the text's order; one of them is the library's own refusal. And whatever a text is, what is told
//! of it is sound.

use compare::generate::random::Random;
use compare::generate::{characters, damage, probe, random_text};
use spoonharbor::diagnostic::{diagnose, Checks, Diagnostic};
use spoonharbor::{Document, Refusal};

/// A program with a declaration of each kind, in which every fault of the table has its place.
const PROGRAM: &str = "\
// samples of the encoder
map samples {
    type: .hash;
    key: u32;
    value: u64;
    max: 1 << 10;
}

event reading {
    angle: u32;
    name: bytes[16];
    turns: i64[2];
}

unit on_read {
    section \"kprobe/encoder_read\";
    license \"GPL\";
    reg now = ctx.load_u64(0);
    imm step = (now + 1) * 2;
    heap old = samples.lookup(step);
    if guard (old) {
        total += step;
    } else {
        total = now - step;
    }
    return 0;
}
";

/// What is put in the place of what, the number that is told then, and on which line.
type Fault = (&'static str, &'static str, u32, usize);

#[rustfmt::skip]
const IN_MAP: [Fault; 30] = [
    ("type: .hash;", "type: .hash", 21, 3),
    ("type: .hash;", "type .hash;", 21, 3),
    ("type: .hash;", "type: hash;", 21, 3),
    ("type: .hash;", "type: .hashmap;", 24, 3),
    ("type: .hash;", "typo: .hash;", 23, 3),
    ("type: .hash;", "", 29, 2),
    ("type: .hash;", "type: .type;", 21, 3),
    ("key: u32;", "key: u32", 21, 4),
    ("key: u32;", "key u32;", 21, 4),
    ("key: u32;", "key: int;", 25, 4),
    ("key: u32;", "key: ;", 25, 4),
    ("key: u32;", "", 29, 2),
    ("key: u32;", "keys: u32;", 23, 4),
    ("value: u64;", "value: u8;", 25, 5),
    ("value: u64;", "", 29, 2),
    ("value: u64;", "value = u64;", 21, 5),
    ("max: 1 << 10;", "max: 1 << 32;", 27, 6),
    ("max: 1 << 10;", "max: -1;", 26, 6),
    ("max: 1 << 10;", "max: 4 * 1024;", 21, 6),
    ("max: 1 << 10;", "max: 1 << 64;", 28, 6),
    ("max: 1 << 10;", "max: 0X400;", 21, 6),
    ("max: 1 << 10;", "max: SIZE;", 21, 6),
    ("max: 1 << 10;", "max: 1 < 10;", 16, 6),
    ("max: 1 << 10;", "max: 99999999999999999999;", 15, 6),
    ("max: 1 << 10;", "max: 0x;", 17, 6),
    ("max: 1 << 10;", "", 29, 2),
    ("map samples {", "map samples", 21, 2),
    ("map samples {", "map {", 21, 2),
    ("map samples {", "map value {", 21, 2),
    ("1 << 10;\n}", "1 << 10;\n", 23, 6),
];

#[rustfmt::skip]
const IN_EVENT: [Fault; 14] = [
    ("angle: u32;", "angle: u32", 21, 10),
    ("angle: u32;", "angle u32;", 21, 10),
    ("angle: u32;", "angle: u16;", 30, 10),
    ("angle: u32;", "key: u32;", 21, 10),
    ("angle: u32;", "angle: float;", 30, 10),
    ("name: bytes[16];", "name: bytes;", 21, 11),
    ("name: bytes[16];", "name: bytes[16;", 21, 11),
    ("name: bytes[16];", "name: bytes[-1];", 27, 11),
    ("name: bytes[16];", "name: bytes[4294967296];", 27, 11),
    ("name: bytes[16];", "name: bytes[SIZE];", 21, 11),
    ("turns: i64[2];", "turns: i64[2]", 21, 12),
    ("turns: i64[2];", "turns: i64(2);", 21, 12),
    ("turns: i64[2];\n}", "turns: i64[2];\n", 21, 12),
    ("event reading {", "event 1 {", 21, 9),
];

#[rustfmt::skip]
const IN_UNIT: [Fault; 48] = [
    ("unit on_read {", "unit on_read", 21, 15),
    ("unit on_read {", "unit {", 21, 15),
    ("unit on_read {", "unit on-read {", 21, 15),
    ("section \"kprobe/encoder_read\";", "section \"kprobe/encoder_read\"", 21, 16),
    ("section \"kprobe/encoder_read\";", "section \"kprobe/encoder_read;", 13, 16),
    ("section \"kprobe/encoder_read\";", "section kprobe;", 21, 16),
    ("section \"kprobe/encoder_read\";", "section \"kprobe\\encoder_read\";", 14, 16),
    ("section \"kprobe/encoder_read\";", "section \"kprobe/\nencoder_read\";", 13, 16),
    ("license \"GPL\";", "license 'GPL';", 11, 17),
    ("license \"GPL\";", "license “GPL”;", 11, 17),
    ("license \"GPL\";", "license \"GPL”;", 13, 17),
    ("license \"GPL\";", "licence \"GPL\";", 21, 17),
    ("license \"GPL\";", "license GPL;", 21, 17),
    ("reg now = ctx.load_u64(0);", "reg now = ctx.load_u64(0)", 21, 18),
    ("reg now = ctx.load_u64(0);", "reg now = ctx.load_u64(0;", 21, 18),
    ("reg now = ctx.load_u64(0);", "reg now = ctx.load_u64 0);", 21, 18),
    ("reg now = ctx.load_u64(0);", "reg now = ctx.load_u64(0));", 21, 18),
    ("reg now = ctx.load_u64(0);", "regs now = ctx.load_u64(0);", 21, 18),
    ("reg now = ctx.load_u64(0);", "let now = ctx.load_u64(0);", 21, 18),
    ("reg now = ctx.load_u64(0);", "u64 now = ctx.load_u64(0);", 21, 18),
    ("reg now = ctx.load_u64(0);", "reg value = ctx.load_u64(0);", 21, 18),
    ("reg now = ctx.load_u64(0);", "reg now = ctx.load.word(0);", 31, 18),
    ("reg now = ctx.load_u64(0);", "reg now == ctx.load_u64(0);", 21, 18),
    ("reg now = ctx.load_u64(0);", "reg now = ctx.load_u64(0) # now", 11, 18),
    ("reg now = ctx.load_u64(0);", "reg größe = ctx.load_u64(0);", 11, 18),
    ("imm step = (now + 1) * 2;", "imm step = (now + 1 * 2;", 21, 19),
    ("imm step = (now + 1) * 2;", "imm step = (now + 1) * ;", 21, 19),
    ("imm step = (now + 1) * 2;", "imm step = (now -1) * 2;", 21, 19),
    ("imm step = (now + 1) * 2;", "imm step = now + 1 << 2;", 21, 19),
    ("imm step = (now + 1) * 2;", "imm step = (now + 0b1) * 2;", 21, 19),
    ("imm step = (now + 1) * 2;", "imm step = (now + 1.5) * 2;", 21, 19),
    ("imm step = (now + 1) * 2;", "imm step = (now && 1) * 2;", 11, 19),
    ("imm step = (now + 1) * 2;", "imm step = (now @ 1) * 2;", 11, 19),
    ("imm step = (now + 1) * 2;", "imm step\u{a0}= (now + 1) * 2;", 11, 19),
    ("imm step = (now + 1) * 2;", "imm step = (now − 1) * 2;", 11, 19),
    ("if guard (old) {", "if (old) {", 21, 21),
    ("if guard (old) {", "if guard (old {", 21, 21),
    ("if guard (old) {", "if guard (old != 0) {", 11, 21),
    ("if guard (old) {", "if guard (old == 0) {", 21, 21),
    ("if guard (old) {", "if guard (old)", 21, 21),
    ("total += step;", "total -= step;", 21, 22),
    ("total += step;", "total++;", 21, 22),
    ("total += step;", "total += step", 21, 22),
    ("} else {", "} else if guard (now) {", 21, 23),
    ("} else {", "} els {", 21, 23),
    ("return 0;", "retrun 0;", 21, 26),
    ("return 0;", "return 0; /* done", 12, 26),
    ("return 0;\n}", "return 0;\n", 21, 26),
];

#[rustfmt::skip]
const BETWEEN: [Fault; 6] = [
    ("map samples {", "maps samples {", 22, 2),
    ("event reading {", "struct reading {", 22, 9),
    ("    return 0;\n}", "    return 0;\n}\n}", 22, 28),
    ("unit on_read {", "@\nunit on_read {", 11, 15),
    ("event reading {", "; event reading {", 22, 9),
    ("// samples", "# samples", 11, 1),
];

/// The program with some faults, which have to have their places.
fn faulty(faults: &[Fault]) -> String {
    faults
        .iter()
        .fold(PROGRAM.to_string(), |text, (from, to, ..)| {
            assert!(text.contains(from), "{from}");
            text.replacen(from, to, 1)
        })
}

fn errors(text: &str) -> Vec<Diagnostic> {
    let told = diagnose(text.as_bytes(), &Checks::default());
    told.into_iter().filter(Diagnostic::is_error).collect()
}

/// The library's refusal of the whole text.
fn refusal(text: &[u8]) -> Option<Refusal> {
    match Document::open(text) {
        Ok(document) => document.tree().err(),
        Err(refusal) => Some(refusal),
    }
}

/// The text with these faults gets a message for each, on its line, in order, and one of them is the proved one.
fn are_told(faults: &[Fault]) {
    let text = faulty(faults);
    let told = errors(&text);
    let found: Vec<(u32, usize)> = told
        .iter()
        .map(|one| (one.number, line(&text, one)))
        .collect();
    let added = |upto: usize| {
        let grown = |(from, to, ..): &Fault| to.matches('\n').count() - from.matches('\n').count();
        faults[..upto].iter().map(grown).sum::<usize>()
    };
    let wanted: Vec<(u32, usize)> = faults
        .iter()
        .enumerate()
        .map(|(index, fault)| (fault.2, fault.3 + added(index)))
        .collect();
    assert_eq!(found, wanted, "{text}\n{told:#?}");
    assert_one_is_proved(text.as_bytes(), &told);
}

fn line(text: &str, told: &Diagnostic) -> usize {
    text[..told.span.start].matches('\n').count() + 1
}

fn assert_one_is_proved(text: &[u8], told: &[Diagnostic]) {
    let proved: Vec<(u32, usize)> = told
        .iter()
        .filter_map(|one| one.proved.map(|at| (one.number, at.offset)))
        .collect();
    let library: Vec<(u32, usize)> = refusal(text)
        .iter()
        .map(|one| (one.number(), one.place.offset))
        .collect();
    assert_eq!(proved, library, "{}", String::from_utf8_lossy(text));
}

#[test]
fn the_program_has_no_problem() {
    assert_eq!(diagnose(PROGRAM.as_bytes(), &Checks::default()), []);
}

#[test]
fn one_fault_is_one_message() {
    let all = IN_MAP
        .iter()
        .chain(&IN_EVENT)
        .chain(&IN_UNIT)
        .chain(&BETWEEN);
    let mut files = 0;
    for fault in all {
        are_told(&[*fault]);
        files += 1;
    }
    assert_eq!(files, 98);
}

/// Faults that leave the number of lines as it is, and hide no declaration behind them.
fn keeps_lines((from, to, number, _): &Fault) -> bool {
    to.matches('\n').count() >= from.matches('\n').count() && *number != 12
}

#[test]
fn two_faults_are_two_messages() {
    let mut files = 0;
    for first in IN_MAP.iter().filter(|fault| keeps_lines(fault)) {
        for second in IN_EVENT.iter().chain(&IN_UNIT) {
            are_told(&[*first, *second]);
            files += 1;
        }
    }
    assert_eq!(files, 1860);
}

#[test]
fn three_faults_are_three_messages() {
    let mut files = 0;
    for first in IN_MAP.iter().step_by(3).filter(|fault| keeps_lines(fault)) {
        for second in IN_EVENT
            .iter()
            .step_by(2)
            .filter(|fault| keeps_lines(fault))
        {
            for third in IN_UNIT.iter().step_by(4) {
                are_told(&[*first, *second, *third]);
                files += 1;
            }
        }
    }
    assert_eq!(files, 840);
}

/// A missing semicolon on line 2 and a stray byte on line 6: the library's refusal is the second.
#[test]
fn a_fault_in_front_of_the_first_refusal_is_told() {
    let text = "unit a {\n x = 1\n}\nunit b {\n\n y = 2 @ 3;\n}\n";
    let told = errors(text);
    let found: Vec<_> = told
        .iter()
        .map(|one| (one.number, line(text, one), one.proved.is_some()))
        .collect();
    assert_eq!(found, [(21, 2, false), (11, 6, true)]);
}

/// Of a declaration with a lexical fault nothing else is told, of the others all is.
#[test]
fn a_lexical_fault_silences_its_declaration_alone() {
    let text = "unit a { x = 1 @ y = 2 }\nunit b { section \"kprobes/b\"; license \"GPL\"; }\nunit c { z = 3 }";
    let told = diagnose(text.as_bytes(), &Checks::default());
    let numbers: Vec<u32> = told.iter().map(|one| one.number).collect();
    assert_eq!(numbers, [11, 101, 21]);
}

/// Several lexical faults of one declaration are told one by one.
#[test]
fn lexical_faults_are_all_told() {
    let text = "unit u {\n a = 1 @ 2;\n b = 3 < 4;\n license 'GPL';\n section \"a\\tb\\sc\";\n}\n";
    let found: Vec<_> = errors(text)
        .iter()
        .map(|one| (one.number, line(text, one)))
        .collect();
    assert_eq!(found, [(11, 2), (16, 3), (11, 4), (14, 5), (14, 5)]);
    let many = "@ ".repeat(2000);
    let told = errors(&many);
    assert_eq!(told.len(), 500);
    assert_eq!(
        told[499].notes[0].message,
        "what stands behind this is not read"
    );
}

/// What is told of any bytes: spans lie in the text and between characters, messages stand in order, errors come
/// exactly where the library refuses, and its refusal is the one that is marked.
fn assert_sound(text: &[u8]) {
    let mut checks = Checks::default();
    checks.style = true;
    let told = diagnose(text, &checks);
    let shown = String::from_utf8_lossy(text);
    assert_one_is_proved(text, &told);
    assert_eq!(
        told.iter().any(Diagnostic::is_error),
        refusal(text).is_some(),
        "{shown}"
    );
    assert!(
        told.windows(2)
            .all(|pair| pair[0].span.start <= pair[1].span.start),
        "{shown}"
    );
    for one in &told {
        let spans = one
            .notes
            .iter()
            .filter_map(|note| note.span.as_ref())
            .chain([&one.span]);
        for span in spans {
            assert!(span.start <= span.end && span.end <= text.len(), "{shown}");
        }
        if let Ok(text) = std::str::from_utf8(text) {
            assert!(
                text.is_char_boundary(one.span.start) && text.is_char_boundary(one.span.end),
                "{text}"
            );
        }
        assert!(
            !one.message.is_empty() && !one.message.contains('\n'),
            "{shown}"
        );
    }
}

/// What people type by mistake, and parts of what stands around it.
#[rustfmt::skip]
const SNIPPETS: [&str; 64] = [
    "==", "=", "!", "!=", "&&", "||", "->", "<", ">>", "<<<", "++", "--", "-=", "*=", "-1", "- ", "(", ")", "[", "]",
    "{", "}", ";", ";;", ":", ".", ",", "*/", "/*", "//", "#", "\"", "'", "“", "”", "\u{a0}", "\u{feff}", "é", "0X1",
    "0b1", "1.5", "5.", "1_0", "0x", "9999999999999999999", "map", "event", "unit", "reg", "let ", "if", "else",
    "guard", "return", "section", "license", "type", "key", "max: ", "u64 ", "bytes", "\n", "\r", "@",
];

/// Each of these put in anywhere, and any six bytes or fewer taken out, is one message, where it is an error at all. Two come of a shift
/// that is cut in two, and of a declaration's word in front of a brace.
#[test]
fn a_mistake_anywhere_is_one_message() {
    let count = |text: String| errors(&text).len();
    let places = 0..=PROGRAM.len();
    let mut put_in = SNIPPETS.iter().flat_map(|snippet| {
        let at = |place: usize| [&PROGRAM[..place], snippet, &PROGRAM[place..]].concat();
        places.clone().map(move |place| count(at(place)))
    });
    let told = put_in.by_ref().filter(|told| *told > 0);
    let (one, more): (Vec<usize>, Vec<usize>) = told.partition(|told| *told == 1);
    assert_eq!((one.len(), more.len()), (23_281, 57));
    for length in 1..=6 {
        for place in 0..=PROGRAM.len() - length {
            let text = [&PROGRAM[..place], &PROGRAM[place + length..]].concat();
            assert!(count(text) <= 1, "{place} {length}");
        }
    }
}

/// The program with some of these put in.
fn mistyped(random: &mut Random) -> Vec<u8> {
    let mut text = PROGRAM.to_string();
    for _ in 0..=random.below(4) {
        let mut at = random.below(text.len() + 1);
        while !text.is_char_boundary(at) {
            at -= 1;
        }
        let end = text.len().min(at + random.below(3));
        match text.is_char_boundary(end) {
            true => text.replace_range(at..end, random.pick(&SNIPPETS)),
            false => text.insert_str(at, random.pick(&SNIPPETS)),
        }
    }
    text.into_bytes()
}

#[test]
fn whatever_the_text_is_what_is_told_is_sound() {
    let mut random = Random::new(35);
    for step in 0..3000 {
        let text = match step % 6 {
            0 => random_text(&mut random),
            1 => damage::text(&mut random, 6),
            2 => {
                let text = damage::text(&mut random, 4);
                characters::with_characters(&mut random, &text)
            }
            3 | 4 => mistyped(&mut random),
            _ => {
                let mut text = PROGRAM.as_bytes().to_vec();
                damage::damage_bytes(&mut random, &mut text);
                damage::damage_bytes(&mut random, &mut text);
                text
            }
        };
        assert_sound(&text);
    }
}

#[test]
fn the_limits_are_sound() {
    let mut long = probe::probe_text(65_000, 1);
    long.truncate(65_000);
    assert_sound(&long);
    for text in [
        vec![b'('; 65_536],
        vec![b'@'; 65_536],
        vec![b'\n'; 65_537],
        vec![0xff; 65_536],
        vec![0; 65_536],
        b"unit ".repeat(13_000),
        b"unit u{".repeat(9_000),
        b"map m{max:(".repeat(5_000),
        [b"map m{max:".to_vec(), b"(".repeat(60_000)].concat(),
        b"\"\n".repeat(30_000),
    ] {
        assert_sound(&text);
    }
}
