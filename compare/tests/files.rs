//! What LANGUAGE.md 13 says of stored tables holds for the second implementation: worked files, what is written and then read, and damaged files.

use compare::generate::sample_texts;
use compare::model::file::{load, seal, store, Fault, Read, BLOCK};
use compare::model::row_words;
use compare::model::scan::scan;
use compare::model::table::Lent;

/// The table of a text: row words, and the words beside them.
fn table(text: &[u8]) -> (Vec<u32>, [u32; 8]) {
    let told = scan(text, text.len() + 1);
    (told.rows.iter().flat_map(row_words).collect(), told.words())
}

fn file(text: &[u8]) -> Vec<u8> {
    let (rows, table) = table(text);
    store(
        Lent {
            rows: &rows,
            table: &table,
        },
        usize::MAX,
    )
    .expect("a scanned table is stored")
}

/// Bytes of a length that are zero but for these.
fn sparse(length: usize, bytes: &[(usize, u8)]) -> Vec<u8> {
    let mut file = vec![0; length];
    bytes.iter().for_each(|&(at, byte)| file[at] = byte);
    file
}

#[test]
fn worked_files() {
    let bare = [(4, 1), (8, 1), (16, 11), (24, 1), (28, 1), (508, 255)];
    assert_eq!(file(b"@"), sparse(512, &bare));
    let letter = [
        (4, 1),
        (8, 1),
        (12, 2),
        (508, 40),
        (512, 1),
        (514, 2),
        (516, 48),
        (524, 1),
        (528, 1),
        (532, 1),
        (548, 52),
        (552, 1),
        (556, 1),
        (560, 1),
        (564, 2),
        (1020, 159),
        (1021, 9),
    ];
    assert_eq!(file(b"a"), sparse(1024, &letter));
}

/// A table without a refusal is told beside a place of zeros, whatever stands there when it is lent.
#[test]
fn no_ending_has_no_place() {
    let (rows, mut table) = table(b"a");
    table[1..4].copy_from_slice(&[9, 9, 9]);
    let lent = Lent {
        rows: &rows,
        table: &table,
    };
    assert_eq!(store(lent, usize::MAX), Ok(file(b"a")));
}

#[test]
fn written_and_read() {
    for text in sample_texts(3000, 5) {
        let (rows, table) = table(&text);
        if !matches!(table[0], 0 | 11..) {
            continue;
        }
        let file = file(&text);
        let read = load(&file, table[6] as usize).expect("what was written is read");
        assert_eq!(
            read,
            Read {
                table,
                rows: rows.clone()
            }
        );
        assert_eq!(
            store(
                Lent {
                    rows: &read.rows,
                    table: &read.table
                },
                file.len()
            ),
            Ok(file.clone())
        );
        assert_eq!(
            store(
                Lent {
                    rows: &rows,
                    table: &table
                },
                file.len() - 1
            ),
            Err(4)
        );
        if table[6] > 0 {
            assert_eq!(
                load(&file, table[6] as usize - 1),
                Err(Fault {
                    number: 4,
                    block: 0
                })
            );
        }
    }
}

#[test]
fn each_byte_changed() {
    for text in [
        &b"@"[..],
        b"a",
        b"unit u{\n x+=-1;\n}\n",
        b"a a a a a a a a a a a a a a a a",
    ] {
        let file = file(text);
        for at in 0..file.len() {
            for change in [1, 128, 255] {
                let mut changed = file.clone();
                changed[at] ^= change;
                let block = (at / BLOCK) as u32;
                assert_eq!(load(&changed, 99), Err(Fault { number: 41, block }));
            }
        }
    }
}

#[test]
fn most_rows() {
    assert_eq!(file(&vec![b';'; 65_534]).len(), 2_237_440);
    let (rows, table) = table(&vec![b';'; 65_535]);
    assert_eq!(
        store(
            Lent {
                rows: &rows,
                table: &table
            },
            usize::MAX
        ),
        Err(40)
    );
}

#[test]
fn blocks_swapped_cut_doubled_and_reformed() {
    let file = file(&b"a ".repeat(40));
    let fault = |file: &[u8]| load(file, 99).unwrap_err();
    let mut swapped = file.clone();
    swapped[BLOCK..3 * BLOCK].rotate_left(BLOCK);
    assert_eq!(
        fault(&swapped),
        Fault {
            number: 41,
            block: 1
        }
    );
    assert_eq!(fault(&file[..3 * BLOCK]).number, 42);
    assert_eq!(fault(&file[..BLOCK - 1]).number, 42);
    let doubled = [&file[..2 * BLOCK], &file[BLOCK..]].concat();
    assert_eq!(fault(&doubled).number, 42);
    let mut first = file[..BLOCK].to_vec();
    first[4] = 2;
    seal(&mut first);
    assert_eq!(fault(&[&first, &file[BLOCK..]].concat()).number, 44);
    first[32] = 1;
    seal(&mut first);
    assert_eq!(
        fault(&[&first, &file[BLOCK..]].concat()),
        Fault {
            number: 41,
            block: 0
        }
    );
}
