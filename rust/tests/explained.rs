//! The examples of the numbers that no text gets, 1 to 7, 40 to 45 and 70, done as they are told: one side is refused with the number, the
//! other is fine. (Those of texts are tried in `src/diagnostic/explain.rs`.)

use compare::model::file::seal;
use spoonharbor::lent::{self, Change, Words};
use spoonharbor::{move_file, Document, Form, Refusal, Table};

const NUMBER: usize = lent::NUMBER;

/// A text's rows and table.
fn scanned(text: &str, rows: usize) -> (Vec<u32>, Words) {
    let mut words = vec![0; rows * lent::ROW_WORDS];
    let table = lent::scan(text.as_bytes(), &mut words);
    (words, table)
}

fn number<T>(answer: Result<T, Refusal>) -> u32 {
    answer.err().map_or(0, |refusal| refusal.number())
}

/// The example of a number on its refused side, and on its fine side.
fn is_on_both_sides(wanted: u32, refused: u32, fine: u32) {
    assert_eq!((refused, fine), (wanted, 0));
}

#[test]
fn texts_and_rooms() {
    let long = |bytes: usize| number(Document::open(vec![b'\n'; bytes]).unwrap().tree());
    is_on_both_sides(1, long(65_537), long(65_536));
    is_on_both_sides(
        2,
        number(Document::open(b"// \xb0")),
        number(Document::open(b"// \xc2\xb0")),
    );
    let allowed = |kind: u32| lent::allows(kind, 0)[NUMBER];
    is_on_both_sides(3, allowed(11), allowed(10));
    let room = |rows: usize| scanned("a b", rows).1[NUMBER];
    is_on_both_sides(4, room(2), room(3));
    let text = "unit u{ x+=-1; }";
    let (rows, table) = scanned(text, 9);
    let parsed = |nodes: usize| {
        let mut nodes = vec![0; nodes * lent::NODE_WORDS];
        lent::parse(text.as_bytes(), &rows, &table, &mut nodes)[NUMBER]
    };
    is_on_both_sides(5, parsed(8), parsed(9));
}

#[test]
fn edits() {
    let replaced = |end: usize| number(Document::open("abcde").unwrap().replace(4..end, "x"));
    is_on_both_sides(6, replaced(6), replaced(5));
    let (rows, table) = scanned("a b", 3);
    let change = Change { a: 0, b: 1, n: 2 };
    let shown = |window: &[u8]| lent::edit(&rows, &table, change, 0, window, &mut [0; 32])[NUMBER];
    is_on_both_sides(7, shown(b"x"), shown(b"xy b"));
}

#[test]
fn stored_tables() {
    let stored = |rows: usize| {
        let document = Document::open(vec![b';'; rows - 1]).unwrap();
        number(document.table().store())
    };
    is_on_both_sides(40, stored(65_536), stored(65_535));
    let file = Document::open("a b").unwrap().table().store().unwrap();
    let fine = number(Table::load(&file));
    let mut changed = file.clone();
    changed[600] ^= 1;
    is_on_both_sides(41, number(Table::load(&changed)), fine);
    let longer = [file.as_slice(), &[0]].concat();
    is_on_both_sides(42, number(Table::load(&longer)), fine);
    let rows = [&file[548..580], &file[516..548]].concat();
    let mut block = [&file[512..516], &rows, &file[580..]].concat();
    seal(&mut block);
    let swapped = [&file[..512], &block].concat();
    is_on_both_sides(43, number(Table::load(&swapped)), fine);
    let short = move_file(b"a b", &file, Form::Short).unwrap();
    let beside = |text: &[u8]| number(Table::load_beside(text, &short));
    is_on_both_sides(44, number(Table::load(&short)), beside(b"a b"));
    is_on_both_sides(45, beside(b"a bc"), beside(b"a b"));
}

#[test]
fn figures() {
    let joined = |statements: u64| {
        let [mut first, mut second] = [[0; lent::TALLY_COUNTS]; 2];
        first[17] = statements;
        second[17] = 1;
        lent::join(&first, &second).0
    };
    is_on_both_sides(
        70,
        joined(18_446_744_073_709_551_615),
        joined(18_446_744_073_709_551_614),
    );
}
