//! A change of a text that is not the old one in front: what it answers, and how debugging finds it in Rust and in C.

mod shared;

use shared::{repository, run, Folder};
use spoonharbor::lent::{self, Change, Words, ROW_WORDS};

/// A text's rows and table.
fn scanned(text: &[u8]) -> (Vec<u32>, Words) {
    let mut rows = vec![0; (text.len() + 1) * ROW_WORDS];
    let table = lent::scan(text, &mut rows);
    (rows, table)
}

/// What a change of one byte at `a` tells and leaves of a new text, and whether the front held.
fn changed(old: &[u8], a: usize, new: &[u8]) -> ((Vec<u32>, Words), bool) {
    let (rows, table) = scanned(old);
    let mut left = vec![0; rows.len()];
    let a = a as u32;
    let holds = lent::front_holds(&rows, &table, a, new, &mut left);
    left.fill(0);
    let change = Change { a, b: a + 1, n: 1 };
    let told = lent::change(&rows, &table, change, new, &mut left);
    ((left, told), holds)
}

#[test]
fn another_front_is_found() {
    let ((rows, told), holds) = changed(b"a b", 2, b"@ c");
    assert!(!holds);
    // The row of `a` is kept, and the answer is no scan's.
    assert_eq!((told[lent::NUMBER], told[lent::COUNT]), (0, 3));
    assert_eq!(rows[..ROW_WORDS], scanned(b"a b").0[..ROW_WORDS]);
    assert_eq!(scanned(b"@ c").1[lent::NUMBER], 11);
    assert!(changed(b"a b", 2, b"a c").1);
    // A character that is cut in front is 2 for a scan alone, and one behind for both.
    assert!(!changed(b"/*..*/a b", 8, b"/*\xc2.*/a c").1);
    let (fresh, holds) = changed(b"a /*.*/", 4, b"a /*\xc2*/");
    assert!(holds && fresh.1 == scanned(b"a /*\xc2*/").1);
}

/// Where the call says why it does not answer, whatever the front is, nothing is held against the text.
#[test]
fn refused_calls_have_no_front() {
    let (rows, table) = scanned(b"a b");
    assert!(lent::front_holds(&rows, &table, 4, b"@ b", &mut []));
    assert!(lent::front_holds(&rows[..7], &table, 2, b"@ b", &mut []));
    let long = vec![b'@'; 65_537];
    let mut scratch = vec![0; rows.len()];
    assert!(lent::front_holds(&rows, &table, 2, &long, &mut scratch));
    // Without room nothing is compared.
    assert!(lent::front_holds(&rows, &table, 2, b"@ b", &mut [0; 7]));
    assert!(!lent::front_holds(&rows, &table, 2, b"@ b", &mut [0; 8]));
    assert!(!lent::front_holds(&rows, &table, 2, b"", &mut scratch));
}

/// Of all texts of four such bytes, with one changed and anything in front of it: the answer is a scan's exactly if the
/// front holds.
#[test]
fn the_front_holds_exactly_where_the_answer_is_a_scans() {
    let texts = |length: usize| {
        let count = 6_usize.pow(length as u32);
        (0..count).map(move |number| -> Vec<u8> {
            let digits = (0..length as u32).map(|place| number / 6_usize.pow(place) % 6);
            digits.map(|digit| b"a @/*\n"[digit]).collect()
        })
    };
    let mut counts = [0, 0];
    for old in texts(4) {
        for a in 0..4 {
            for front in texts(a + 1) {
                let new = [&front[..], &old[a + 1..]].concat();
                let (answer, holds) = changed(&old, a, &new);
                assert_eq!(holds, answer == scanned(&new), "{old:?} {a} {new:?}");
                counts[usize::from(holds)] += 1;
            }
        }
    }
    assert_eq!(counts.iter().sum::<usize>(), 1296 * (6 + 36 + 216 + 1296));
    assert!(counts.iter().all(|&count| count > 100_000), "{counts:?}");
}

const IN_C: &str = r#"
#include "spoonharbor.h"
#include <assert.h>
#include <stdio.h>

static int holds(const char *new_text, size_t length, size_t scratch_words) {
    static const uint8_t old_text[] = {'a', ' ', 'b'};
    uint32_t rows[SH_ROW_ROOM(3)], scratch[SH_ROW_ROOM(3)], table[SH_WORDS];
    assert(scratch_words <= SH_ROW_ROOM(3));
    spoonharbor_scan(old_text, 3, rows, SH_ROW_ROOM(3), table);
    return sh_front_holds(rows, SH_ROW_ROOM(3), table, 2, (const uint8_t *)new_text, length, scratch, scratch_words);
}

int main(void) {
    printf("%d %d %d\n", holds("a c", 3, 32), holds("@ c", 3, 32), holds(" ac", 3, 32));
    printf("%d %d %d %d\n", holds("", 0, 32), holds("@ c", 3, 8), holds("@ c", 3, 7), holds("a \xc2", 3, 32));
    return 0;
}
"#;

/// The same in C and C++, as strict as can be.
#[test]
fn the_header_has_it_too() {
    let folder = Folder::new("front");
    folder.file("front.c", IN_C);
    let include = repository().join("include");
    for (compiler, language) in [
        ("cc", ["-std=c99", "-xc"]),
        ("c++", ["-std=c++11", "-xc++"]),
    ] {
        let mut command = folder.program(compiler);
        command.args([
            "-Wall",
            "-Wextra",
            "-Werror",
            "-pedantic",
            "-o",
            "front",
            "-I",
        ]);
        command
            .arg(&include)
            .args(language)
            .args(["front.c", "-xnone"]);
        let built = run(command.arg(spoonharbor::ARCHIVE_FILE), b"");
        assert_eq!((built.complaints.as_str(), built.status), ("", 0));
        let ran = run(&mut folder.program(folder.0.join("front")), b"");
        assert_eq!((ran.out.as_str(), ran.status), ("1 0 0\n0 0 1 1\n", 0));
    }
}
