//! The library's calls over lent slices, with good and with bad input: what they answer and what they leave alone.

use spoonharbor::lent::{self, Change, Words};

const CANARY: u32 = 0xC0FF_EE00;

const TEXT: &[u8] = b"unit u{\n x+=-1;\n}\n";

/// A refusal whose place is 0.
fn refused(number: u32) -> Words {
    [number, 0, 1, 1, 0, 0, 0, 0]
}

fn scanned(text: &[u8]) -> (Vec<u32>, Words) {
    let mut rows = vec![CANARY; (text.len() + 1) * 8];
    let table = lent::scan(text, &mut rows);
    (rows, table)
}

#[test]
fn a_scan_writes_its_rows_and_nothing_else() {
    for words in [0, 7, 8, 15, 71, 72, 73, 100] {
        let mut rows = vec![CANARY; words];
        let answer = lent::scan(TEXT, &mut rows);
        let room = words / 8;
        if room >= 9 {
            assert_eq!(answer, [0, 0, 0, 0, 0, 0, 9, 18]);
        } else {
            assert_eq!(answer, [4, 0, 1, 1, 0, 0, room as u32, 0]);
        }
        let written = room.min(9) * 8;
        assert!(rows[..written].iter().all(|word| *word != CANARY));
        assert!(rows[written..].iter().all(|word| *word == CANARY));
    }
}

#[test]
fn a_scan_that_is_refused_at_once_leaves_the_rows_alone() {
    let mut rows = vec![CANARY; 800];
    assert_eq!(lent::scan(&[b'a'; 65_537], &mut rows), refused(1));
    assert_eq!(lent::scan(b"\n\x80", &mut rows), [2, 1, 2, 1, 0, 0, 0, 0]);
    assert_eq!(
        lent::scan(b"\"\xe1\x80a", &mut rows),
        [2, 1, 1, 2, 0, 0, 0, 0]
    );
    assert!(rows.iter().all(|word| *word == CANARY));
    assert_eq!(lent::scan(b"", &mut []), refused(4));
    assert_eq!(lent::scan(b"@", &mut []), [11, 0, 1, 1, 0, 0, 0, 1]);
}

#[test]
fn tables_are_judged() {
    let (rows, table) = scanned(TEXT);
    assert!(lent::well_formed(&rows, &table));
    assert!(lent::well_formed(&rows[..72], &table));
    assert!(!lent::well_formed(&rows[..71], &table));
    assert!(!lent::well_formed(&[], &table));
    assert!(lent::well_formed(&[], &[11, 0, 1, 1, 0, 0, 0, 1]));
    assert!(!lent::well_formed(&[], &[0, 0, 1, 1, 0, 0, 0, 0]));
    for number in [1, 7, 10, 16, 21, u32::MAX] {
        let mut table = table;
        table[lent::NUMBER] = number;
        assert!(!lent::well_formed(&rows, &table));
        assert_eq!(lent::spelling(TEXT, &rows, &table, 0), refused(3));
        assert_eq!(lent::restart(&rows, &table, 0), refused(3));
        let mut memory = vec![CANARY; 80];
        assert_eq!(lent::parse(TEXT, &rows, &table, &mut memory), refused(3));
        let change = Change { a: 0, b: 0, n: 0 };
        let answer = lent::edit(&rows, &table, change, 0, TEXT, &mut memory);
        assert_eq!(answer, refused(3));
        let answer = lent::change(&rows, &table, change, TEXT, &mut memory);
        assert_eq!(answer, refused(3));
        assert!(memory.iter().all(|word| *word == CANARY));
    }
    let mut many = table;
    many[lent::COUNT] = u32::MAX;
    assert!(!lent::well_formed(&rows, &many));
    let mut long = table;
    long[lent::LENGTH] = u32::MAX;
    assert!(!lent::well_formed(&rows, &long));
}

#[test]
fn spellings_are_parts_of_the_text() {
    let (rows, table) = scanned(TEXT);
    assert_eq!(
        lent::spelling(TEXT, &rows, &table, 4),
        [0, 0, 0, 0, 10, 12, 0, 0]
    );
    assert_eq!(
        lent::spelling(TEXT, &rows, &table, 8),
        [0, 0, 0, 0, 18, 18, 0, 0]
    );
    assert_eq!(lent::spelling(TEXT, &rows, &table, 9), refused(3));
    assert_eq!(lent::spelling(TEXT, &rows, &table, u32::MAX), refused(3));
    assert_eq!(lent::spelling(b"unit u{}", &rows, &table, 0), refused(3));
    assert_eq!(
        lent::spelling(&[b'a'; 65_537], &rows, &table, 0),
        refused(1)
    );
    assert_eq!(
        lent::spelling(b"a\x80", &rows, &table, 0),
        [2, 1, 1, 2, 0, 0, 0, 0]
    );
}

/// A table that no text has may be well formed and cut a character: what its row spells are bytes.
#[test]
fn anyones_rows_may_cut_a_character() {
    let text = "\"é\"".as_bytes();
    let rows = [[48, 0, 2, 1, 1, 0, 0, 0], [52, 4, 4, 1, 5, 0, 0, 0]].concat();
    let table = [0, 0, 0, 0, 0, 0, 2, 4];
    assert!(lent::well_formed(&rows, &table));
    let told = lent::spelling(text, &rows, &table, 0);
    assert_eq!(told, [0, 0, 0, 0, 0, 2, 0, 0]);
    let part = &text[told[lent::FIRST] as usize..told[lent::SECOND] as usize];
    assert_eq!(part, b"\"\xc3");
    assert!(std::str::from_utf8(part).is_err());
}

#[test]
fn a_parse_writes_its_nodes_and_nothing_else() {
    let (rows, table) = scanned(TEXT);
    for words in [0, 71, 72, 79, 80] {
        let mut nodes = vec![CANARY; words];
        let answer = lent::parse(TEXT, &rows, &table, &mut nodes);
        let written = if words < 72 {
            assert_eq!(answer, refused(5));
            0
        } else {
            assert_eq!(answer, [0, 0, 0, 0, 0, 0, 5, 0]);
            40
        };
        assert!(nodes[..written].iter().all(|word| *word != CANARY));
        assert!(nodes[written..].iter().all(|word| *word == CANARY));
    }
    let (rows, table) = scanned(b"unit u{ x -1; }");
    let mut nodes = vec![CANARY; 200];
    let answer = lent::parse(b"unit u{ x -1; }", &rows, &table, &mut nodes);
    // `.` is kind 30; `;` 32, `=` 35, `+=` 36 and the operators 41 to 47; what was found is a number, 50.
    let from_32 = 1 | 1 << 3 | 1 << 4 | 0b111_1111 << 9;
    assert_eq!(answer, [21, 10, 1, 11, 1 << 30, from_32, 0, 50]);
    assert!(nodes.iter().all(|word| *word == CANARY));
}

#[test]
fn an_edit_answers_as_document_01_says() {
    let (rows, table) = scanned(TEXT);
    assert_eq!(lent::restart(&rows, &table, 13), [0, 12, 2, 5, 0, 0, 0, 0]);
    assert_eq!(lent::restart(&rows, &table, 18)[..2], [0, 17]);
    assert_eq!(lent::restart(&rows, &table, 19), refused(6));
    let change = Change { a: 13, b: 14, n: 2 };
    let new = b"unit u{\n x+=-12;\n}\n";
    let mut memory = vec![CANARY; 80];
    let mut answer_to = |start, window: &[u8], room: usize| {
        memory.fill(CANARY);
        let answer = lent::edit(&rows, &table, change, start, window, &mut memory[..room]);
        (answer, memory.clone())
    };
    let untouched = vec![CANARY; 80];
    for end in 15..19 {
        assert_eq!(
            answer_to(12, &new[12..end], 80),
            (refused(7), untouched.clone())
        );
    }
    assert_eq!(
        answer_to(11, &new[11..16], 80),
        (refused(6), untouched.clone())
    );
    assert_eq!(
        answer_to(12, b"-12;\n}\n\n", 80),
        (refused(6), untouched.clone())
    );
    assert_eq!(
        answer_to(12, b"-1\xff", 80),
        (refused(7), untouched.clone())
    );
    assert_eq!(
        answer_to(12, b"-1\xff;\n}\n", 80),
        ([2, 14, 2, 7, 0, 0, 0, 0], untouched)
    );
    let (answer, written) = answer_to(12, &new[12..19], 80);
    let (fresh_rows, fresh) = scanned(new);
    assert_eq!(answer, fresh);
    assert_eq!(written[..72], fresh_rows[..72]);
    assert!(written[72..].iter().all(|word| *word == CANARY));
    let (answer, written) = answer_to(12, &new[12..19], 40);
    assert_eq!(answer, [4, 0, 1, 1, 0, 0, 5, 0]);
    assert_eq!(written[..40], fresh_rows[..40]);
    assert!(written[40..].iter().all(|word| *word == CANARY));
}

/// What an edit answers to a window of so many bytes, from the text's start on, with room for all rows.
fn edited(old: &[u8], change: Change, window: &[u8]) -> Words {
    let (rows, table) = scanned(old);
    lent::edit(&rows, &table, change, 0, window, &mut [CANARY; 80])
}

/// 7 of the four bytes comes before 2, the other 7 behind it; a character that the window's end cuts is not held against it.
#[test]
fn windows_are_judged_when_they_show_four_bytes_behind_the_new_ones() {
    let inserted = |n| Change { a: 0, b: 0, n };
    let seven = refused(7);
    assert_eq!(edited(b"\"", inserted(1), b"\x80"), seven);
    let replaced = Change { a: 0, b: 1, n: 1 };
    let two = [2, 1, 1, 2, 0, 0, 0, 0];
    assert_eq!(
        edited("é😀".as_bytes(), replaced, b"\"\xa9\xf0\x9f\x98"),
        two
    );
    assert_eq!(edited("😀".as_bytes(), inserted(0), b"\xf0\x9f\x98"), seven);
    assert_eq!(edited("€".as_bytes(), inserted(2), b"*/\xe2\x82"), seven);
    assert_eq!(edited(b"\"\"", inserted(0), b"\""), seven);
    assert_eq!(edited(b"", inserted(0), b""), [0, 0, 0, 0, 0, 0, 1, 0]);
    assert_eq!(
        edited("\"😀".as_bytes(), inserted(0), b"\"\xf0\x9f\x98"),
        seven
    );
    assert_eq!(edited(b"", inserted(1), b"\xc3"), [2, 0, 1, 1, 0, 0, 0, 0]);
    assert_eq!(
        edited(b"\"", inserted(1), b"\xc3\""),
        [2, 0, 1, 1, 0, 0, 0, 0]
    );
    let eleven = [11, 1, 2, 1, 0, 0, 0, 5];
    assert_eq!(
        edited("\n😀".as_bytes(), inserted(0), b"\n\xf0\x9f\x98"),
        eleven
    );
}

#[test]
fn a_change_is_the_edit_to_the_texts_end() {
    let (rows, table) = scanned(TEXT);
    let change = Change { a: 13, b: 14, n: 2 };
    let new = b"unit u{\n x+=-12;\n}\n";
    let mut memory = vec![CANARY; 80];
    let mut answer_to = |change, text: &[u8], room: usize| {
        memory.fill(CANARY);
        let answer = lent::change(&rows, &table, change, text, &mut memory[..room]);
        (answer, memory.clone())
    };
    let untouched = vec![CANARY; 80];
    let (fresh_rows, fresh) = scanned(new);
    let (answer, written) = answer_to(change, new, 80);
    assert_eq!(answer, fresh);
    assert_eq!(written[..72], fresh_rows[..72]);
    assert!(written[72..].iter().all(|word| *word == CANARY));
    let (answer, written) = answer_to(change, new, 40);
    assert_eq!(answer, [4, 0, 1, 1, 0, 0, 5, 0]);
    assert_eq!(written[..40], fresh_rows[..40]);
    assert!(written[40..].iter().all(|word| *word == CANARY));
    // a text that is not as long as the change makes it, and one whose bytes are no UTF-8 behind the restart place
    for text in [&new[..18], b"unit u{\n x+=-12;\n}\n\n", b"", TEXT] {
        let answer = answer_to(change, text, 80);
        assert_eq!(answer, (refused(6), untouched.clone()), "{text:?}");
    }
    let answer = answer_to(change, b"unit u{\n x+=-1\xff;\n}\n", 80);
    assert_eq!(answer, ([2, 14, 2, 7, 0, 0, 0, 0], untouched.clone()));
    // numbers that make no change of the text, whatever the new text's length
    for (a, b, n) in [(14, 13, 1), (0, 19, 1), (19, 19, 0), (u32::MAX, 0, 0)] {
        for text in [TEXT, b"", b";"] {
            let answer = answer_to(Change { a, b, n }, text, 80);
            assert_eq!(answer, (refused(6), untouched.clone()), "{a} {b} {n}");
        }
    }
}

#[test]
fn a_change_to_more_than_the_limit_is_refused() {
    let (rows, table) = scanned(TEXT);
    let mut memory = vec![CANARY; 80];
    let longest = [TEXT, &[b' '; 65_536 - 18]].concat();
    let longer = [TEXT, &[b' '; 65_537 - 18]].concat();
    let change = |n: usize| Change {
        a: 18,
        b: 18,
        n: n as u32,
    };
    let answer = lent::change(&rows, &table, change(65_536 - 18), &longest, &mut memory);
    assert_eq!(answer, [0, 0, 0, 0, 0, 0, 9, 65_536]);
    memory.fill(CANARY);
    let answer = lent::change(&rows, &table, change(65_537 - 18), &longer, &mut memory);
    assert_eq!(answer, refused(1));
    let answer = lent::change(&rows, &table, change(65_536 - 18), &longer, &mut memory);
    assert_eq!(answer, refused(6));
    assert!(memory.iter().all(|word| *word == CANARY));
}

#[test]
fn numbers_at_their_edges_are_answered() {
    let (rows, table) = scanned(TEXT);
    let mut memory = vec![CANARY; 80];
    for word in [0, 1, 18, 19, 65_536, u32::MAX] {
        for change in [
            Change {
                a: word,
                b: word,
                n: word,
            },
            Change {
                a: 0,
                b: word,
                n: u32::MAX,
            },
            Change {
                a: word,
                b: 0,
                n: 0,
            },
            Change {
                a: 0,
                b: 18,
                n: word.max(1),
            },
        ] {
            let answer = lent::edit(&rows, &table, change, 0, &[], &mut memory);
            assert!(
                (1..=7).contains(&answer[lent::NUMBER]),
                "{change:?} {answer:?}"
            );
            let answer = lent::edit(&rows, &table, change, u32::MAX, TEXT, &mut memory);
            assert_eq!(answer, refused(6), "{change:?}");
            let answer = lent::change(&rows, &table, change, b"?", &mut memory);
            assert!(
                [1, 2, 6, 11].contains(&answer[lent::NUMBER]),
                "{change:?} {answer:?}"
            );
        }
    }
    assert!(memory.iter().all(|word| *word == CANARY));
    let change = Change {
        a: 0,
        b: 0,
        n: u32::MAX,
    };
    assert_eq!(
        lent::edit(&rows, &table, change, 0, TEXT, &mut memory),
        refused(1)
    );
}

#[test]
fn sets_answer_3_outside() {
    assert_eq!(lent::allows(0, 0), [0, 0, 0, 0, 1, 0, 0, 0]);
    assert_eq!(lent::allows(10, 0), [0; 8]);
    assert_eq!(lent::set_size(5), [0, 0, 0, 0, 16, 0, 0, 0]);
    for (kind, method) in [(11, 0), (0, 16), (u32::MAX, u32::MAX)] {
        assert_eq!(lent::allows(kind, method), refused(3));
    }
    assert_eq!(lent::set_size(11), refused(3));
    assert_eq!(lent::set_size(u32::MAX), refused(3));
}
