//! Tables stored and read back, and documents that open with them.

use compare::generate::sample_texts;
use compare::model::file::{seal, BLOCK};
use spoonharbor::lent;
use spoonharbor::{Document, Kind, Place, Reason, Refusal, Table, LONGEST_TEXT, MOST_STORED_ROWS};

const TEXT: &str = "unit u{\n x+=-1;\n}\n";

fn open(text: &str) -> Document {
    Document::open(text).unwrap()
}

fn file_of(text: &str) -> Vec<u8> {
    open(text).table().store().unwrap()
}

/// The file with some words other ones, each by its first byte, and the checks of their blocks right.
fn sealed(file: &[u8], words: &[(usize, u32)]) -> Vec<u8> {
    let mut file = file.to_vec();
    for (at, word) in words {
        file[*at..at + 4].copy_from_slice(&word.to_le_bytes());
        let block = at / BLOCK * BLOCK..at / BLOCK * BLOCK + BLOCK;
        let mut bytes = file[block.clone()].to_vec();
        seal(&mut bytes);
        file[block].copy_from_slice(&bytes);
    }
    file
}

fn refused(file: &[u8]) -> Reason {
    Table::load(file).unwrap_err().reason
}

#[test]
fn what_is_stored_is_read() {
    for text in sample_texts(2500, 3) {
        let document = Document::open(text.clone()).unwrap();
        let file = document.table().store().unwrap();
        let table = Table::load(&file).unwrap();
        assert_eq!(&table, document.table());
        assert_eq!(table.store().unwrap(), file);
        assert_eq!(table.text_length(), text.len());
        assert_eq!(table.refusal(), document.refusal());
        assert!(table.rows().eq(document.rows()));
        let mut again = Document::open_with(text, table).unwrap();
        assert_eq!(again, document);
        assert_eq!(again.tree(), document.tree());
        assert!(again.refresh());
    }
}

#[test]
fn a_stored_table_has_rows() {
    let table = Table::load(&file_of(TEXT)).unwrap();
    assert_eq!((table.rows().len(), table.text_length()), (9, 18));
    let number = table.row(5).unwrap();
    assert_eq!((number.kind, number.value), (Kind::Number, -1));
    assert_eq!((number.span(), table.row(9)), (12..14, None));
    assert_eq!(table.refusal(), None);
    let table = Table::load(&file_of("a\n @b")).unwrap();
    assert_eq!(table.rows().len(), 1);
    let refusal = table.refusal().unwrap();
    assert_eq!(refusal.reason, Reason::NoRowBegins);
    let place = refusal.place;
    assert_eq!((place.offset, place.line, place.column), (3, 2, 2));
}

#[test]
fn each_changed_byte_is_told_with_its_block() {
    let file = file_of(&"a ".repeat(20));
    assert_eq!(file.len(), 3 * BLOCK);
    for at in 0..file.len() {
        let mut changed = file.clone();
        changed[at] ^= 1;
        let refusal = Table::load(&changed).unwrap_err();
        assert_eq!(refusal.reason, Reason::BadBlock((at / BLOCK) as u32));
        assert_eq!(refusal.number(), 41);
        let wanted = format!("block {} is damaged", at / BLOCK);
        assert_eq!(refusal.to_string(), wanted);
    }
}

#[test]
fn files_that_are_none_are_refused() {
    let file = file_of(TEXT);
    let longer = [&file[..], &[0]].concat();
    for wrong in [&[][..], &file[..511], &file[..512], &file[..1023], &longer] {
        assert_eq!(refused(wrong), Reason::WrongLength);
    }
    assert_eq!(refused(&[0; BLOCK]), Reason::OtherForm);
    assert_eq!(refused(&[1; BLOCK]), Reason::BadBlock(0));
    assert_eq!(refused(&sealed(&file, &[(4, 2)])), Reason::OtherForm);
    for no_table in [
        [(8, 17)],        // the text is shorter than its rows
        [(8, 65_537)],    // no text is so long
        [(16, 18)],       // no table ends so
        [(20, 1)],        // a place without a number
        [(BLOCK + 4, 1)], // another kind of row, of another length
    ] {
        assert_eq!(refused(&sealed(&file, &no_table)), Reason::NoTable);
    }
    let huge = sealed(&file[..BLOCK], &[(12, u32::MAX)]);
    assert_eq!(refused(&huge), Reason::WrongLength);
}

#[test]
fn the_longest_table_is_stored() {
    let text = ";".repeat(MOST_STORED_ROWS - 1);
    let file = file_of(&text);
    assert_eq!(file.len(), 2_237_440);
    let table = Table::load(&file).unwrap();
    assert_eq!(table.rows().len(), MOST_STORED_ROWS);
    assert_eq!(
        Document::open_with(text, table).unwrap().rows().len(),
        65_535
    );
    for length in [MOST_STORED_ROWS, LONGEST_TEXT] {
        let refusal = open(&";".repeat(length)).table().store().unwrap_err();
        assert_eq!(refusal.reason, Reason::TooManyRows);
    }
}

/// What a text refuses of itself comes before what it refuses of a table.
#[test]
fn texts_that_are_no_texts_are_refused_first() {
    let table = Table::load(&file_of(TEXT)).unwrap();
    let long = vec![0xff; LONGEST_TEXT + 1];
    let broken = b"/*\xc2\xb0*/\n b\xb0".to_vec();
    for text in [long, broken] {
        let fresh = Document::open(text.clone()).unwrap_err();
        let refusal = Document::open_with(text, table.clone()).unwrap_err();
        assert_eq!(refusal, fresh);
    }
}

#[test]
fn a_table_that_the_text_cannot_have_is_refused() {
    let table = Table::load(&file_of(TEXT)).unwrap();
    let other = |text: &str, table: &Table| {
        let refusal = Document::open_with(text, table.clone()).unwrap_err();
        assert_eq!((refusal.reason, refusal.number()), (Reason::OtherText, 45));
        assert_eq!(
            refusal.to_string(),
            "the stored table is another text's: length, lines and columns, or characters' edges do not agree"
        );
    };
    other("", &table);
    other(&TEXT[1..], &table);
    other(&format!("{TEXT}\n"), &table);
    // A row or a refusal that would stand inside a character.
    other("°", &Table::load(&file_of("a;")).unwrap());
    other("\"°\"", &Table::load(&file_of("a @b")).unwrap());
}

/// A table of another text of the same length is taken. Every call answers, and a fresh reading mends it.
#[test]
fn another_text_s_table_is_found_by_reading() {
    let stored = Table::load(&file_of("unit u{ x = 1; }")).unwrap();
    let text = "unit unit = 4; }";
    let mut document = Document::open_with(text, stored.clone()).unwrap();
    assert_ne!(document, open(text));
    assert!(document.tree().is_ok());
    assert_eq!(document.table(), &stored);
    assert_eq!(document.spelling(2), Ok("n"));
    assert!(!document.refresh());
    assert_eq!(document, open(text));
    assert_eq!(document.tree(), open(text).tree());
    assert!(document.refresh());
}

/// Changes of a document with another text's table answer as others do, whatever the table says, and can be mended.
#[test]
fn changes_of_another_text_s_table_are_answered() {
    let texts: Vec<String> = sample_texts(1500, 9)
        .into_iter()
        .map(|text| String::from_utf8(text).unwrap())
        .collect();
    let mut taken = 0;
    for (k, text) in texts.iter().enumerate() {
        for other in texts.iter().skip(k + 1) {
            if other.len() != text.len() || other.len() < 4 {
                continue;
            }
            let table = open(other).table().clone();
            let Ok(mut document) = Document::open_with(text.as_str(), table) else {
                continue;
            };
            taken += 1;
            let middle = (text.len() / 2..).find(|&at| text.is_char_boundary(at));
            let at = middle.unwrap();
            for new in ["\n\n", "°\"", "x", "/*"] {
                document.replace(at..at, new).unwrap();
                let _ = document.tree();
                let rows = document.rows().len();
                assert!((0..rows).all(|row| document.spelling(row).is_ok()));
            }
            document.refresh();
            assert_eq!(document, open(document.text()));
        }
    }
    assert!(taken > 500, "{taken}");
}

/// Lines that no text has may grow past what a table allows when a change moves them. Such a table is refused with 3, and the next change
/// reads the text.
#[test]
fn a_table_that_a_change_breaks_is_read_afresh() {
    let text = "xxxx;;";
    let word = |row: usize, word: usize| BLOCK + 4 + 32 * row + 4 * word;
    let lines = [
        (word(2, 3), 6),
        (word(2, 4), 1),
        (word(3, 3), 7),
        (word(3, 4), 1),
    ];
    let table = Table::load(&sealed(&file_of(text), &lines)).unwrap();
    let mut document = Document::open_with(text, table).unwrap();
    document.replace(0..4, "\n\n\n\n").unwrap();
    let lines: Vec<usize> = document.rows().map(|row| row.line).collect();
    assert_eq!(lines, [5, 10, 11]);
    let refusals = [
        document.tree().unwrap_err(),
        document.table().store().unwrap_err(),
    ];
    assert!(refusals
        .iter()
        .all(|refusal| refusal.reason == Reason::NotWellFormed));
    let mut mended = document.clone();
    assert!(!mended.refresh());
    assert_eq!(mended, open("\n\n\n\n;;"));
    document.replace(0..1, "").unwrap();
    assert_eq!(document, open("\n\n\n;;"));
}

#[test]
fn calls_tell_what_the_face_tells() {
    let document = open(TEXT);
    let file = document.table().store().unwrap();
    let mut rows = vec![7; 80];
    let table = lent::load(&file, &mut rows);
    assert_eq!(table, [0, 0, 0, 0, 0, 0, 9, 18]);
    assert!(lent::well_formed(&rows, &table));
    assert!(rows[72..].iter().all(|word| *word == 7));
    let answer = lent::load(&file, &mut rows[..71]);
    assert_eq!(
        Refusal::from_words(&answer).unwrap().reason,
        Reason::NoRowRoom
    );
    let start = Place {
        offset: 0,
        line: 1,
        column: 1,
    };
    assert_eq!(Refusal::from_words(&answer).unwrap().place, start);
    let mut again = vec![7; file.len() + 1];
    let answer = lent::store(&rows, &table, &mut again);
    assert_eq!(answer, [0, 0, 0, 0, 0, 0, 2, 1024]);
    assert_eq!((&again[..1024], again[1024]), (&file[..], 7));
    assert_eq!(
        lent::store(&rows, &table, &mut again[..1023])[lent::NUMBER],
        4
    );
}
