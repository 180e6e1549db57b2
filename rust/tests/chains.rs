//! Chains of random edits: after every step a document is what a freshly opened one is and, of ASCII, what the original reads.

use compare::answer::answer;
use compare::deep::on_deep_stack;
use compare::generate::random::Random;
use compare::generate::{damage, random_text, short, spelling};
use compare::terms::Answer;
use spoonharbor::lent;
use spoonharbor::{Document, Reason, Refusal, Row, LONGEST_TEXT};

/// Holds a document's rows and refusal against the original's reading of its text. Of bytes of 128 or more it reads another language.
fn assert_read_as_by_original(document: &Document) {
    let text = document.text();
    if !text.is_ascii() {
        return;
    }
    let Answer::Compared { rows, ending, .. } = answer(text.as_bytes()) else {
        panic!("the original can be asked about every document")
    };
    assert_eq!(document.rows().len(), rows.len(), "{text:?}");
    for (here, original) in document.rows().zip(rows) {
        assert_eq!(numbers(here), original_numbers(original), "{text:?}");
    }
    let refusal = document.refusal().map(|refusal| refusal_numbers(&refusal));
    let original = ending.map(|ending| {
        let place = ending.place;
        [ending.number, place.offset, place.line, place.column]
    });
    assert_eq!(refusal, original, "{text:?}");
}

fn numbers(row: Row) -> [i64; 6] {
    let Row {
        kind,
        start,
        end,
        line,
        column,
        value,
        ..
    } = row;
    let number = |word: usize| word as i64;
    [
        kind.number().into(),
        number(start),
        number(end),
        number(line),
        number(column),
        value,
    ]
}

fn original_numbers(row: compare::terms::Row) -> [i64; 6] {
    [
        row.kind.into(),
        row.start.into(),
        row.end.into(),
        row.line.into(),
        row.column.into(),
        row.value,
    ]
}

fn refusal_numbers(refusal: &Refusal) -> [u32; 4] {
    let place = refusal.place;
    let [offset, line, column] = [place.offset, place.line, place.column].map(|word| word as u32);
    [refusal.number(), offset, line, column]
}

/// Characters of each length, alone, in comments and in strings, and broken off.
const CHARACTERS: [&str; 12] = [
    "°",
    "é",
    "€",
    "角",
    "😀",
    "e\u{301}",
    "/* 0.1° */",
    "// α Centauri\n",
    "\"星 \\\"Ω\\\" 🔭\"",
    "/*\u{10ffff}",
    "\"ê",
    "\u{feff}",
];

/// Bytes of the generator's as a text.
fn text_of(bytes: Vec<u8>) -> String {
    String::from_utf8_lossy(&bytes).into_owned()
}

/// Which new texts an edit puts in: those of the generator, or characters of several bytes too.
#[derive(Clone, Copy)]
enum Typed {
    Generated = 12,
    Characters = 15,
}

/// A new text: nothing, a few bytes that matter to the scan, a token, a whole text, or characters.
fn new_text(random: &mut Random, typed: Typed) -> String {
    match random.below(typed as usize) {
        0..=2 => String::new(),
        3..=6 => {
            let count = 1 + random.below(3);
            text_of(short::random_text(random, count))
        }
        7..=9 => spelling::any_token(random).to_string(),
        10 => text_of(short::quoting_text(random)),
        11 => text_of(random_text(random)),
        _ => CHARACTERS[random.below(CHARACTERS.len())].to_string(),
    }
}

/// The last edge between two characters at an offset or before it.
fn edge(text: &str, offset: usize) -> usize {
    let at_edge = |offset: &usize| text.is_char_boundary(*offset);
    (0..=offset).rev().find(at_edge).unwrap_or(0)
}

/// One random edit that takes few bytes away, made on the document and on the text beside it. A range that cuts a character is refused
/// first.
fn step(random: &mut Random, typed: Typed, document: &mut Document, text: &mut String) {
    let start = random.below(text.len() + 1);
    let most = if random.one_in(20) { 100 } else { 4 };
    let end = (start + random.below(most + 1)).min(text.len());
    let new = new_text(random, typed);
    let range = edge(text, start)..edge(text, end);
    if range != (start..end) {
        let refusal = document.replace(start..end, &new).unwrap_err();
        assert_eq!(refusal.reason, Reason::InsideCharacter);
        assert_eq!(document.text(), text);
    }
    document
        .replace(range.clone(), &new)
        .expect("a sensible edit");
    text.replace_range(range, &new);
}

#[test]
fn small_documents_follow_long_chains() {
    on_deep_stack(|| {
        let mut random = Random::new(21);
        for count in 0..4_000 {
            let typed = [Typed::Generated, Typed::Characters][count % 2];
            let mut text = text_of(random_text(&mut random));
            let mut document = Document::open(text.as_str()).unwrap();
            assert_read_as_by_original(&document);
            for _ in 0..10 {
                step(&mut random, typed, &mut document, &mut text);
                if text.len() > 400 {
                    let kept = edge(&text, 200);
                    document.replace(kept..text.len(), "").unwrap();
                    text.truncate(kept);
                }
                assert_eq!(document.text(), text);
                assert_eq!(document, Document::open(text.as_str()).unwrap());
                assert_read_as_by_original(&document);
            }
        }
    });
}

/// A text of many programs, so that most of it lies outside every window.
fn long_text(random: &mut Random, length: usize, behind_each: &str) -> String {
    let mut text = String::new();
    while text.len() < length {
        text += &text_of(compare::generate::programs::text(random, 40));
        text += behind_each;
    }
    text
}

/// An edit after which the document does not scan is undone by the next, so that the rows stay many.
fn follows_a_long_chain(random: &mut Random, typed: Typed, mut text: String) {
    let mut document = Document::open(text.as_str()).unwrap();
    for count in 0..2_000 {
        let before = text.clone();
        step(random, typed, &mut document, &mut text);
        assert_eq!(document, Document::open(text.as_str()).unwrap());
        if document.refusal().is_some() {
            let (range, old) = change_back(&text, &before);
            document.replace(range, old).unwrap();
            text = before;
            assert_eq!(document, Document::open(text.as_str()).unwrap());
        }
        assert!(document.rows().len() > 2_000);
        if count % 50 == 0 {
            assert_read_as_by_original(&document);
        }
    }
}

#[test]
fn a_long_document_follows_a_long_chain() {
    on_deep_stack(|| {
        let mut random = Random::new(22);
        let text = long_text(&mut random, 20_000, "\n");
        follows_a_long_chain(&mut random, Typed::Generated, text);
        let text = long_text(&mut random, 20_000, " // Ὠρίων, 0.1°\n");
        follows_a_long_chain(&mut random, Typed::Characters, text);
    });
}

/// A short change that makes `new` what `old` is: what the two have in common at both ends stays.
fn change_back<'a>(new: &str, old: &'a str) -> (std::ops::Range<usize>, &'a str) {
    let pairs = new.char_indices().zip(old.chars());
    let apart = pairs.take_while(|((_, x), y)| x == y).last();
    let start = apart.map_or(0, |((at, x), _)| at + x.len_utf8());
    let backwards = new[start..].chars().rev().zip(old[start..].chars().rev());
    let same = backwards.take_while(|(x, y)| x == y);
    let end: usize = same.map(|(x, _)| x.len_utf8()).sum();
    (start..new.len() - end, &old[start..old.len() - end])
}

/// Trees follow too: the tree of an edited document is that of a fresh one, and refused where that is.
#[test]
fn trees_follow_edits() {
    let mut random = Random::new(23);
    for _ in 0..3_000 {
        let mut text = compare::generate::programs::text(&mut random, 30);
        let before = text_of(text.clone());
        let mut document = Document::open(before.as_str()).unwrap();
        damage::damage_bytes(&mut random, &mut text);
        let text = text_of(text);
        document.replace(0..before.len(), &text).unwrap();
        let fresh = Document::open(text.as_str()).unwrap();
        assert_eq!(document.tree(), fresh.tree());
        document.replace(0..text.len(), &before).unwrap();
        assert_eq!(document.tree(), Document::open(before).unwrap().tree());
    }
}

/// A document goes over the limit and back.
#[test]
fn documents_reach_the_limit() {
    let mut random = Random::new(24);
    let text = long_text(&mut random, LONGEST_TEXT - 1_000, " // 0.1°\n");
    let mut document = Document::open(text).unwrap();
    let mut over = 0;
    for _ in 0..300 {
        let at = random.below(document.text().len() + 1);
        let at = edge(document.text(), at);
        let new = text_of(compare::generate::programs::text(&mut random, 10));
        let new = format!("*/ {new} /*°");
        document.replace(at..at, &new).unwrap();
        assert_eq!(document, Document::open(document.text()).unwrap());
        if document.text().len() > LONGEST_TEXT {
            assert_eq!(document.refusal().unwrap().number(), 1);
            over += 1;
            let kept = edge(document.text(), LONGEST_TEXT - 400);
            document.replace(kept.., "").unwrap();
            assert_eq!(document, Document::open(document.text()).unwrap());
        }
    }
    assert!(over > 0);
}

/// A document hands out the spellings that the library's own call tells, of every row and of the one behind the last.
#[test]
fn spellings_are_the_library_s() {
    let mut random = Random::new(11);
    for _ in 0..2_000 {
        let mut text = random_text(&mut random);
        let at = random.below(text.len() + 1);
        let character = CHARACTERS[random.below(CHARACTERS.len())];
        text.splice(at..at, character.bytes());
        let Ok(document) = Document::open(text.clone()) else {
            continue;
        };
        let mut rows = vec![0; (text.len() + 1) * lent::ROW_WORDS];
        let table = lent::scan(&text, &mut rows);
        for row in 0..=document.rows().len() {
            let told = lent::spelling(&text, &rows, &table, row as u32);
            let part = match told[lent::NUMBER] {
                0 => Some(&text[told[lent::FIRST] as usize..told[lent::SECOND] as usize]),
                _ => None,
            };
            let spelt = document.spelling(row).ok().map(str::as_bytes);
            assert_eq!(spelt, part, "row {row} of {text:?}");
        }
    }
}

/// Bytes of each class: ASCII that matters to the scan, first bytes of each length, bytes behind them at both edges, and never valid ones.
const BYTES: [u8; 24] = [
    b'"', b'/', b'*', b'\n', b' ', b'a', 0x7f, 0x80, 0x8f, 0x90, 0x9f, 0xa0, 0xbf, 0xc0, 0xc2,
    0xdf, 0xe0, 0xe1, 0xed, 0xef, 0xf0, 0xf3, 0xf4, 0xf5,
];

/// What is opened is what Rust takes for UTF-8; the rest is refused with 2 where Rust's valid part ends.
#[test]
fn what_is_opened_is_utf_8() {
    let mut random = Random::new(25);
    let mut opened = 0;
    for _ in 0..200_000 {
        let length = random.below(9);
        let mut bytes: Vec<u8> = Vec::new();
        for _ in 0..length {
            match random.one_in(3) {
                true => bytes.extend(CHARACTERS[random.below(5)].bytes()),
                false => bytes.push(BYTES[random.below(BYTES.len())]),
            }
        }
        let valid = std::str::from_utf8(&bytes).map_err(|error| error.valid_up_to());
        match (Document::open(bytes.as_slice()), valid) {
            (Ok(document), Ok(text)) => {
                assert_eq!(document.text(), text);
                opened += 1;
            }
            (Err(refusal), Err(valid_up_to)) => {
                let before = &bytes[..valid_up_to];
                let lines = before.split(|byte| *byte == b'\n');
                let column = lines.clone().next_back().unwrap().len() + 1;
                let wanted = [2, valid_up_to, lines.count(), column].map(|word| word as u32);
                assert_eq!(refusal_numbers(&refusal), wanted, "{bytes:?}");
            }
            (answer, valid) => panic!("{bytes:?}: {answer:?}, {valid:?}"),
        }
    }
    assert!(opened > 1_000 && opened < 199_000);
}
