//! Times of the proved library beside the original's, on the same texts: `bench [ROUNDS] [alone] [layouts]`.
//!
//! Each time is the median of ROUNDS rounds, in each of which every side runs once, in an order drawn anew (`alone`: each side runs all its
//! rounds by itself; `layouts`: only what is said of layouts). The same driver times all sides, and all get their memory before the time begins, except what they take themselves: the
//! original's tokens and trees are taken and given back inside its own time, as its interface has it. A scanner made by re2c is a side
//! where re2c is there, and the library before a change where `SPOONHARBOR_BEFORE` named its archive when this was built.

#[cfg(before)]
use compare::bench::other::{
    edit_before, load_before, parse_before, scan_before, store_before, well_formed_before,
};
use compare::bench::rounds::{report, timed, Rounds, Side};
use compare::bench::texts::{dense_text, laid_texts, middle_of_a_name};
use compare::deep::on_deep_stack;
use compare::generate::probe::{half_greek, probe_text};
use compare::lexer::Lexer;
use compare::parser::{parse_program, Parser, Token};
use spoonharbor::lent::{self, Change, Words};
use spoonharbor::{move_file, Document, Form, Table};
use std::hint::black_box;

const SEED: u64 = 7;
const PROBE: usize = 60_000;
/// The bytes of a probe that has about as many as the others when its comments are half Greek.
const GREEK: usize = 54_000;
const WINDOW: usize = 256;
const KEYSTROKES: usize = 1_000;

fn main() {
    let words: Vec<String> = std::env::args().skip(1).collect();
    let rounds = Rounds {
        count: words
            .iter()
            .find_map(|word| word.parse().ok())
            .unwrap_or(301),
        interleaved: !words.iter().any(|word| word == "alone"),
    };
    on_deep_stack(move || {
        let order = if rounds.interleaved {
            "interleaved"
        } else {
            "each side alone"
        };
        println!("medians of {} rounds, {order}", rounds.count);
        if words.iter().any(|word| word == "layouts") {
            return all_layouts(rounds);
        }
        for length in [1 << 10, 8 << 10, PROBE, 64 << 10] {
            scans("probes", &probe_text(length, SEED), rounds);
        }
        scans("dense text", &dense_text(PROBE, SEED), rounds);
        greek(&probe_text(GREEK, SEED), rounds);
        for length in [1 << 10, 8 << 10, PROBE, 64 << 10] {
            parses(&probe_text(length, SEED), rounds);
        }
        typed("", &probe_text(PROBE, SEED), rounds);
        typed(
            ", comments half Greek",
            &half_greek(&probe_text(GREEK, SEED)),
            rounds,
        );
        replaced("the probes", &probe_text(PROBE, SEED), rounds);
        replaced("65,536 newlines", &vec![b'\n'; 64 << 10], rounds);
        stored("probes", &probe_text(PROBE, SEED), rounds);
        stored("dense text", &dense_text(PROBE, SEED), rounds);
        beside("probes", &probe_text(PROBE, SEED), rounds);
        beside("dense text", &dense_text(PROBE, SEED), rounds);
        all_layouts(rounds);
        keystrokes(&probe_text(PROBE, SEED), rounds);
        spellings(&probe_text(PROBE, SEED), rounds);
    });
}

/// Layouts of probes, and of texts that are hard to write, twice and four times as long.
fn all_layouts(rounds: Rounds) {
    for length in [8 << 10, PROBE] {
        layouts("probes", &probe_text(length, SEED), rounds);
    }
    let document = Document::open(probe_text(PROBE, SEED)).expect("a probe is taken");
    let laid = document.layout().expect("a probe has a layout");
    layouts("probes in their layout", laid.as_bytes(), rounds);
    for length in [16 << 10, 32 << 10, 64 << 10] {
        for (what, text) in laid_texts(length) {
            layouts(what, &text, rounds);
        }
    }
}

fn text_of(bytes: &[u8]) -> &str {
    std::str::from_utf8(bytes).expect("a probe is UTF-8")
}

/// Touched memory for the rows of a text.
fn row_memory(text: &[u8]) -> Vec<u32> {
    vec![1; (text.len() + 1) * 8]
}

/// The rows' words, without the room behind them, and what stands beside them.
fn scanned(text: &[u8]) -> (Vec<u32>, Words) {
    let mut rows = row_memory(text);
    let table = lent::scan(text, &mut rows);
    assert_eq!(table[lent::NUMBER], 0, "the text scans");
    rows.truncate(table[lent::COUNT] as usize * 8);
    (rows, table)
}

fn tokens_of(text: &[u8]) -> Vec<Token> {
    Lexer::new(text_of(text))
        .tokenize()
        .expect("the text scans")
}

/// The original's reading of a text, as a side.
fn original(text: &[u8]) -> Side<'_> {
    original_named("the Rust", text)
}

fn original_named<'a>(name: &str, text: &'a [u8]) -> Side<'a> {
    Side::new(name, || {
        black_box(Lexer::new(text_of(black_box(text))).tokenize().is_ok());
    })
}

/// A fresh scan by the library, as a side.
fn fresh<'a>(name: &str, text: &'a [u8]) -> Side<'a> {
    let mut rows = row_memory(text);
    Side::new(name, move || {
        black_box(lent::scan(black_box(text), &mut rows));
    })
}

fn scans(what: &str, text: &[u8], rounds: Rounds) {
    let (rows, _table) = scanned(text);
    #[allow(unused_mut)]
    let mut sides = vec![original(text), fresh("library", text)];
    #[cfg(before)]
    {
        let mut rows = row_memory(text);
        sides.push(Side::new("before", move || {
            black_box(scan_before(black_box(text), &mut rows));
        }));
    }
    #[cfg(re2c)]
    {
        let padded = [text, &[0]].concat();
        let mut own = row_memory(text);
        let told = compare::bench::other::re2c(&padded, &mut own);
        assert_eq!(
            (&own[..rows.len()], told),
            (&rows[..], _table),
            "re2c writes the same rows"
        );
        sides.push(Side::new("re2c", move || {
            black_box(compare::bench::other::re2c(black_box(&padded), &mut own));
        }));
    }
    let heading = format!(
        "scan, {} bytes of {what}, {} rows",
        text.len(),
        rows.len() / 8
    );
    report(
        &heading,
        "byte",
        text.len(),
        sides,
        &["the Rust", "re2c", "before"],
        rounds,
    );
}

/// A probe whose comments are half Greek beside the same probe in ASCII.
fn greek(probe: &[u8], rounds: Rounds) {
    let text = half_greek(probe);
    let (rows, _) = scanned(&text);
    assert_eq!(rows.len(), scanned(probe).0.len(), "the same rows");
    let sides = vec![
        original(&text),
        fresh("library", &text),
        original_named("the Rust, the same in ASCII", probe),
        fresh("library, the same in ASCII", probe),
    ];
    let heading = format!(
        "scan, {} bytes of probes, comments half Greek, {} rows",
        text.len(),
        rows.len() / 8
    );
    report(&heading, "byte", text.len(), sides, &["the Rust"], rounds);
}

fn parses(text: &[u8], rounds: Rounds) {
    let tokens = tokens_of(text);
    let (rows, table) = scanned(text);
    let mut nodes = vec![1; rows.len()];
    let answer = lent::parse(text, &rows, &table, &mut nodes);
    assert_eq!(answer[lent::NUMBER], 0, "a probe parses");
    #[cfg(before)]
    let mut own = vec![1; rows.len()];
    #[allow(unused_mut)]
    let mut sides = vec![
        // Each run has a copy of the tokens of its own that was made before its time began.
        Side::timed("the Rust", || {
            let mut parser = Parser::new(tokens.clone()).expect("tokens end with Eof");
            timed(|| {
                black_box(parse_program(&mut parser).is_ok());
            })
        }),
        Side::new("library", || {
            black_box(lent::parse(black_box(text), &rows, &table, &mut nodes));
        }),
    ];
    #[cfg(before)]
    sides.push(Side::new("before", || {
        black_box(parse_before(black_box(text), &rows, &table, &mut own));
    }));
    let heading = format!(
        "parse, {} bytes of probes, {} nodes",
        text.len(),
        answer[lent::COUNT]
    );
    report(
        &heading,
        "byte",
        text.len(),
        sides,
        &["the Rust", "before"],
        rounds,
    );
}

/// A text's layout beside a scan and a parse of the text.
fn layouts(what: &str, text: &[u8], rounds: Rounds) {
    let (rows, table) = scanned(text);
    let mut nodes = vec![1; rows.len()];
    let parsed = lent::parse(text, &rows, &table, &mut nodes);
    assert_eq!(parsed[lent::NUMBER], 0, "a probe parses");
    let document = Document::open(text).expect("a probe is taken");
    let laid = document.layout().expect("a probe has a layout");
    let count = parsed[lent::COUNT];
    nodes.truncate(count as usize * 8);
    let mut scratch = lent::scratch();
    let mut room = vec![1; laid.len()];
    let (mut own_rows, mut own_nodes) = (row_memory(text), vec![1; rows.len()]);
    let sides = vec![
        fresh("scan", text),
        Side::new("scan and parse", || {
            let table = lent::scan(black_box(text), &mut own_rows);
            black_box(lent::parse(text, &own_rows, &table, &mut own_nodes));
        }),
        Side::new("library, layout", || {
            black_box(lent::layout(
                black_box(text),
                &rows,
                &table,
                &nodes,
                count,
                &mut scratch,
                &mut room,
            ));
        }),
        Side::new("Document::layout", || {
            black_box(document.layout().is_ok());
        }),
    ];
    let heading = format!(
        "layout, {} bytes of {what}, {} rows, {count} nodes, a layout of {} bytes",
        text.len(),
        rows.len() / 8,
        laid.len()
    );
    report(
        &heading,
        "byte",
        text.len(),
        sides,
        &["scan and parse"],
        rounds,
    );
}

/// One byte typed in the middle of a probe, and what its parts cost.
fn typed(what: &str, old: &[u8], rounds: Rounds) {
    let (rows, table) = scanned(old);
    let at = middle_of_a_name(old);
    let new = [&old[..at], b"x", &old[at..]].concat();
    let change = Change {
        a: at as u32,
        b: at as u32,
        n: 1,
    };
    let start = lent::restart(&rows, &table, change.a)[lent::OFFSET];
    let window = &new[start as usize..start as usize + WINDOW];
    let mut memory = row_memory(&new);
    let answer = lent::edit(&rows, &table, change, start, window, &mut memory);
    let (fresh_rows, told) = scanned(&new);
    assert_eq!(
        (answer, &memory[..fresh_rows.len()]),
        (told, &fresh_rows[..]),
        "the edit is a fresh scan"
    );
    let mut other = row_memory(&new);
    let mut whole = row_memory(&new);
    let mut copied = row_memory(&new);
    #[cfg(before)]
    let mut own = row_memory(&new);
    #[allow(unused_mut)]
    let mut sides = vec![
        original(&new),
        fresh("library, fresh scan", &new),
        Side::new("library, restart place and edit", || {
            let start = lent::restart(black_box(&rows), &table, change.a)[lent::OFFSET];
            black_box(lent::edit(
                &rows,
                &table,
                change,
                start,
                black_box(window),
                &mut memory,
            ));
        }),
        Side::new("library, edit", || {
            black_box(lent::edit(
                black_box(&rows),
                &table,
                change,
                start,
                black_box(window),
                &mut other,
            ));
        }),
        Side::new("library, change by the whole new text", || {
            black_box(lent::change(
                black_box(&rows),
                &table,
                change,
                black_box(&new),
                &mut whole,
            ));
        }),
        Side::new("  of each the table test", || {
            black_box(lent::well_formed(black_box(&rows), &table));
        }),
        Side::new("a copy of the rows (memcpy)", || {
            copied[..rows.len()].copy_from_slice(black_box(&rows));
            black_box(&mut copied);
        }),
    ];
    // Before there were characters of two bytes and more, such a text was refused.
    #[cfg(before)]
    if old.is_ascii() {
        sides.push(Side::new("before, edit", || {
            black_box(edit_before(
                black_box(&rows),
                &table,
                change,
                start,
                black_box(window),
                &mut own,
            ));
        }));
        sides.push(Side::new("before, table test", || {
            black_box(well_formed_before(black_box(&rows), &table));
        }));
    }
    let heading = format!(
        "one byte typed in the middle of {} bytes{what}, window of {WINDOW}",
        old.len()
    );
    report(
        &heading,
        "byte",
        new.len(),
        sides,
        &["the Rust", "before, edit"],
        rounds,
    );
}

/// A whole text replaced by itself.
fn replaced(what: &str, text: &[u8], rounds: Rounds) {
    let (rows, table) = scanned(text);
    let length = text.len() as u32;
    let change = Change {
        a: 0,
        b: length,
        n: length,
    };
    let mut memory = row_memory(text);
    let answer = lent::edit(&rows, &table, change, 0, text, &mut memory);
    assert_eq!(
        (answer, &memory[..rows.len()]),
        (table, &rows[..]),
        "the edit is a fresh scan"
    );
    let mut by_change = row_memory(text);
    let answer = lent::change(&rows, &table, change, text, &mut by_change);
    assert_eq!(
        (answer, &by_change[..rows.len()]),
        (table, &rows[..]),
        "and so is the change"
    );
    #[cfg(before)]
    let mut own = row_memory(text);
    #[allow(unused_mut)]
    let mut sides = vec![
        original(text),
        fresh("own scan", text),
        Side::new("library, edit", || {
            black_box(lent::edit(
                black_box(&rows),
                &table,
                change,
                0,
                black_box(text),
                &mut memory,
            ));
        }),
        Side::new("library, change", || {
            black_box(lent::change(
                black_box(&rows),
                &table,
                change,
                black_box(text),
                &mut by_change,
            ));
        }),
    ];
    #[cfg(before)]
    sides.push(Side::new("before, edit", || {
        black_box(edit_before(
            black_box(&rows),
            &table,
            change,
            0,
            black_box(text),
            &mut own,
        ));
    }));
    report(
        &format!("{what} replaced by themselves"),
        "byte",
        text.len(),
        sides,
        &["the Rust", "own scan"],
        rounds,
    );
}

/// A table stored and loaded beside the scan of its text, by the calls and by what Rust makes of them.
fn stored(what: &str, text: &[u8], rounds: Rounds) {
    let (rows, table) = scanned(text);
    let document = Document::open(text).expect("a probe is taken");
    let file = document.table().store().expect("its table is stored");
    let mut memory = vec![1; rows.len()];
    let mut written = vec![1; file.len()];
    let mut copied = vec![1; rows.len()];
    assert_eq!(lent::load(&file, &mut memory), table, "the table is read");
    assert_eq!(memory, rows, "its rows are read");
    #[cfg(before)]
    let (mut memory_before, mut written_before) = (memory.clone(), written.clone());
    #[allow(unused_mut)]
    let mut sides = vec![
        fresh("own scan", text),
        Side::new("library, load", || {
            black_box(lent::load(black_box(&file), &mut memory));
        }),
        Side::new("library, store", || {
            black_box(lent::store(black_box(&rows), &table, &mut written));
        }),
        Side::new("  of each the table test", || {
            black_box(lent::well_formed(black_box(&rows), &table));
        }),
        Side::new("a copy of the rows (memcpy)", || {
            copied.copy_from_slice(black_box(&rows));
            black_box(&mut copied);
        }),
        Side::new("Document::open", || {
            black_box(Document::open(black_box(text)).is_ok());
        }),
        Side::new("Table::load, Document::open_with", || {
            let table = Table::load(black_box(&file));
            black_box(
                table
                    .and_then(|table| Document::open_with(text, table))
                    .is_ok(),
            );
        }),
    ];
    #[cfg(before)]
    {
        sides.push(Side::new("before, load", || {
            black_box(load_before(black_box(&file), &mut memory_before));
        }));
        sides.push(Side::new("before, store", || {
            black_box(store_before(black_box(&rows), &table, &mut written_before));
        }));
    }
    let heading = format!(
        "stored, {} bytes of {what}, {} rows in a file of {} bytes",
        text.len(),
        rows.len() / 8,
        file.len()
    );
    let against = ["own scan", "Document::open"];
    report(&heading, "row", rows.len() / 8, sides, &against, rounds);
}

/// Files of both forms with their text at hand: read, moved and mended, beside the scan of the text.
fn beside(what: &str, text: &[u8], rounds: Rounds) {
    let (rows, table) = scanned(text);
    let full = Document::open(text)
        .expect("a probe is taken")
        .table()
        .store();
    let full = full.expect("its table is stored");
    let short = move_file(text, &full, Form::Short).expect("its file is moved");
    let count = rows.len() / 8;
    let heading = format!(
        "beside the text, {} bytes of {what}, {count} rows, form 1 of {} bytes, form 2 of {}",
        text.len(),
        full.len(),
        short.len()
    );
    let memory = || vec![1; full.len()];
    let mut read = [vec![1; rows.len()], vec![1; rows.len()]];
    let mut moved = [memory(), memory(), memory(), memory()];
    let (full, short) = (&full[..], &short[..]);
    let mut sides = vec![fresh("own scan", text)];
    for ((name, file), rows) in [("form 1", full), ("form 2", short)]
        .into_iter()
        .zip(&mut read)
    {
        assert_eq!(
            lent::load_beside(text, file, rows),
            table,
            "the table is read"
        );
        sides.push(Side::new(&format!("read beside the text, {name}"), || {
            black_box(lent::load_beside(text, black_box(file), rows));
        }));
    }
    let moves = [
        ("1 to 2", full, 2),
        ("2 to 1", short, 1),
        ("1 to 1", full, 1),
        ("2 to 2", short, 2),
    ];
    for ((name, file, form), moved) in moves.into_iter().zip(&mut moved) {
        sides.push(Side::new(&format!("moved, {name}"), move || {
            black_box(lent::move_file(text, black_box(file), form, moved));
        }));
    }
    for (form, file) in [(1, full), (2, short)] {
        let mut right = file.to_vec();
        let mut damaged = file.to_vec();
        let mut blocks = vec![0; file.len() / 512 + 1];
        let mut other = blocks.clone();
        sides.push(Side::new(
            &format!("mended, form {form}, a right file"),
            move || {
                let length = right.len();
                black_box(lent::mend(
                    text,
                    form,
                    black_box(&mut right),
                    length,
                    &mut blocks,
                ));
            },
        ));
        sides.push(Side::new(
            &format!("mended, form {form}, three blocks damaged"),
            move || {
                let length = damaged.len();
                for block in [0, length / 1024, length / 512 - 1] {
                    damaged[512 * block + 9] ^= 1;
                }
                black_box(lent::mend(
                    text,
                    form,
                    black_box(&mut damaged),
                    length,
                    &mut other,
                ));
            },
        ));
    }
    report(&heading, "row", count, sides, &["own scan"], rounds);
}

/// A thousand bytes typed one after the other into a document.
fn keystrokes(text: &[u8], rounds: Rounds) {
    let at = middle_of_a_name(text);
    let opened = Document::open(text).expect("a probe is taken");
    let sides = vec![Side::timed("library, Document::replace", || {
        let mut document = opened.clone();
        timed(|| {
            for k in 0..KEYSTROKES {
                document
                    .replace(at + k..at + k, "x".as_ref())
                    .expect("a byte is typed");
            }
        })
    })];
    let few = Rounds {
        count: rounds.count.min(11),
        ..rounds
    };
    report(
        &format!(
            "{KEYSTROKES} keystrokes in a document of {} bytes",
            text.len()
        ),
        "keystroke",
        KEYSTROKES,
        sides,
        &[],
        few,
    );
}

/// The spelling of each row of a document.
fn spellings(text: &[u8], rounds: Rounds) {
    let document = Document::open(text).expect("a probe is taken");
    let count = document.rows().count();
    let sides = vec![Side::new("library, Document::spelling", || {
        for row in 0..count {
            black_box(document.spelling(row).expect("the row is there"));
        }
    })];
    let few = Rounds {
        count: rounds.count.min(5),
        ..rounds
    };
    report(
        &format!("spellings of all {count} rows of a document"),
        "row",
        count,
        sides,
        &[],
        few,
    );
}
