//! The library's calls over lent slices, as they are: every answer is eight words in the layout below, but for [`tally`] and [`join`], which
//! answer a number and twenty counts.
//!
//! Every call answers for every argument, so nothing here can go wrong but what the answer says. Lengths travel with the
//! slices; a table is lent in the words in which [`scan`], [`change`], [`edit`], [`load`] or [`load_beside`] told it.

use crate::ffi;
pub use crate::words::{
    Counts, Scratch, Words, COLUMN, COUNT, FIRST, LENGTH, LINE, MISSING, NODE_WORDS, NUMBER,
    OFFSET, ROW_END, ROW_WORDS, SCRATCH_WORDS, SECOND, TALLY_COUNTS, TALLY_MOST_NODES,
};

// Every unsafe block below is sound for the same reasons. Each pointer is that of a reference, which stays valid through the
// call, and the length beside it is the slice's own, so the library may read all of it; it writes only through pointers that
// come from `&mut`, which nothing else refers to during the call. It keeps no pointer. It is proved to read and write
// inside what it is lent for every content of it, so there is nothing else to ask for. The words of an answer are a
// `[u32; 8]`, as the header wants.

/// The version of the library that is linked: major, minor and patch in a byte each. It is [`crate::VERSION`] wherever the
/// build could ask the archive.
pub fn version() -> u32 {
    // SAFETY: nothing is lent.
    unsafe { ffi::spoonharbor_version() }
}

/// Scans a text into rows. Number 0 or 11 to 17: a table of so many rows, which ends so. 4: as many rows as there is room
/// for are written. 1, and 2 where the bytes are not valid UTF-8: the rows are untouched.
pub fn scan(text: &[u8], rows: &mut [u32]) -> Words {
    let mut answer = [0; 8];
    // SAFETY: `text` is lent for reading and `rows` and `answer` for writing, with their own lengths.
    unsafe {
        ffi::spoonharbor_scan(
            text.as_ptr(),
            text.len(),
            rows.as_mut_ptr(),
            rows.len(),
            &mut answer,
        );
    }
    answer
}

/// Whether a table is well formed.
pub fn well_formed(rows: &[u32], table: &Words) -> bool {
    // SAFETY: `rows`, with its own length, and `table` are lent for reading.
    unsafe { ffi::spoonharbor_well_formed(rows.as_ptr(), rows.len(), table) == 1 }
}

/// The part of the text that a row spells, from the word at [`FIRST`] to that at [`SECOND`]. Refusals 1, 2, 3. Rows of a scanned
/// text start and end between characters. A table that no text has may be well formed and have a row that cuts one, so the part is bytes:
/// whoever wants a `str` tests it.
pub fn spelling(text: &[u8], rows: &[u32], table: &Words, row: u32) -> Words {
    let mut answer = [0; 8];
    // SAFETY: `text` and `rows`, with their own lengths, and `table` are lent for reading, `answer` for writing.
    unsafe {
        ffi::spoonharbor_spelling(
            text.as_ptr(),
            text.len(),
            rows.as_ptr(),
            rows.len(),
            table,
            row,
            &mut answer,
        );
    }
    answer
}

/// Parses a table into nodes, or leaves node memory untouched. Room for as many nodes as rows suffices.
pub fn parse(text: &[u8], rows: &[u32], table: &Words, nodes: &mut [u32]) -> Words {
    let mut answer = [0; 8];
    // SAFETY: `text`, `rows` and `table` are lent for reading, `nodes` and `answer` for writing, with their own lengths.
    unsafe {
        ffi::spoonharbor_parse(
            text.as_ptr(),
            text.len(),
            rows.as_ptr(),
            rows.len(),
            table,
            nodes.as_mut_ptr(),
            nodes.len(),
            &mut answer,
        );
    }
    answer
}

/// Writes a text's tree back as source, in its one layout: at [`LENGTH`] how many bytes of `room` are written. The table must be the
/// scan of the text and the first `node_count` nodes its tree, every word of both, else it is 3; words that are lent after them play no
/// part. 4: the layout is longer than the room or than 65,536 bytes. Both leave the room untouched. What the scratch holds before plays
/// no part; what it holds afterwards tells nothing.
pub fn layout(
    text: &[u8],
    rows: &[u32],
    table: &Words,
    nodes: &[u32],
    node_count: u32,
    scratch: &mut Scratch,
    room: &mut [u8],
) -> Words {
    let mut answer = [0; 8];
    // SAFETY: `text`, `rows`, `table` and `nodes` are lent for reading, `scratch`, `room` and `answer` for writing, with their own lengths;
    // a `node_count` above the nodes that are lent is refused.
    unsafe {
        ffi::spoonharbor_layout(
            text.as_ptr(),
            text.len(),
            rows.as_ptr(),
            rows.len(),
            table,
            nodes.as_ptr(),
            nodes.len(),
            node_count,
            scratch,
            room.as_mut_ptr(),
            room.len(),
            &mut answer,
        );
    }
    answer
}

/// A scratch for [`layout`], on the heap. Where the system hands out memory that is cleared already, a call touches only so much of it as
/// its text has rows.
pub fn scratch() -> Box<Scratch> {
    match vec![0; SCRATCH_WORDS].into_boxed_slice().try_into() {
        Ok(scratch) => scratch,
        Err(_) => unreachable!("there are just so many words"),
    }
}

/// What became of a text: old bytes `a` to `b` (`b` not included) became `n` new ones.
#[derive(Debug, Clone, Copy, PartialEq, Eq)]
pub struct Change {
    /// Where the old bytes that went start.
    pub a: u32,
    /// Where they end.
    pub b: u32,
    /// How many new bytes came.
    pub n: u32,
}

/// Writes the new table behind a change, by all of the new text: that of a fresh scan. It is never 7, and 6 also where the text
/// is not as long as the change makes it.
///
/// The text must be the old one but for the change. The call does not look at what stands in front of the restart place.
/// Of what follows a meeting place it judges the UTF-8 alone. If either is another text, the arguments still determine
/// the answer, but it is no scan's. [`front_holds`] finds another front.
pub fn change(old: &[u32], table: &Words, change: Change, text: &[u8], new: &mut [u32]) -> Words {
    let mut answer = [0; 8];
    // SAFETY: `old`, `table` and `text` are lent for reading, `new` and `answer` for writing, with their own lengths.
    unsafe {
        ffi::spoonharbor_change(
            old.as_ptr(),
            old.len(),
            table,
            change.a,
            change.b,
            change.n,
            text.as_ptr(),
            text.len(),
            new.as_mut_ptr(),
            new.len(),
            &mut answer,
        );
    }
    answer
}

/// The same by a part of the new text, for whoever does not hold all of it. The window is a part that starts at the restart
/// place, whose offset is `start`. 7: show a longer window; it must show four bytes behind the new ones, or the text's end, before anything
/// else of it is judged. Its end may cut a character.
pub fn edit(
    old: &[u32],
    table: &Words,
    change: Change,
    start: u32,
    window: &[u8],
    new: &mut [u32],
) -> Words {
    let mut answer = [0; 8];
    // SAFETY: `old`, `table` and `window` are lent for reading, `new` and `answer` for writing, with their own lengths.
    unsafe {
        ffi::spoonharbor_edit(
            old.as_ptr(),
            old.len(),
            table,
            change.a,
            change.b,
            change.n,
            start,
            window.as_ptr(),
            window.len(),
            new.as_mut_ptr(),
            new.len(),
            &mut answer,
        );
    }
    answer
}

/// Where the window of an edit at `a` must start: offset, line and column with number 0. Refusals 3, 6.
pub fn restart(old: &[u32], table: &Words, a: u32) -> Words {
    let mut answer = [0; 8];
    // SAFETY: `old`, with its own length, and `table` are lent for reading, `answer` for writing.
    unsafe { ffi::spoonharbor_restart(old.as_ptr(), old.len(), table, a, &mut answer) };
    answer
}

/// For a `debug_assert!` before [`change`] or [`edit`] at `a`: whether a scan of the new text begins with the rows that
/// are kept, so that its front is what the old table was made of. It writes scratch memory, which may be that of the
/// new rows. If there is less room than kept rows, it compares as many as there is room for. If the call itself refuses
/// the old table, `a` or the text behind the front, the front is not held against it.
pub fn front_holds(old: &[u32], table: &Words, a: u32, text: &[u8], scratch: &mut [u32]) -> bool {
    let restart = restart(old, table, a);
    if restart[NUMBER] != 0 {
        return true;
    }
    let ends = old.iter().skip(ROW_END).step_by(ROW_WORDS);
    let rows = ends.take(table[COUNT] as usize);
    let kept = rows.take_while(|&&end| end < a).count();
    let compared = kept.min(scratch.len() / ROW_WORDS);
    let words = compared * ROW_WORDS;
    let told = scan(text, &mut scratch[..words]);
    match told[NUMBER] {
        1 => true,
        2 => told[OFFSET] >= restart[OFFSET],
        _ => told[COUNT] as usize == compared && scratch[..words] == old[..words],
    }
}

/// Stores a table as a file: at [`LENGTH`] how many bytes of it are written, at [`COUNT`] how many blocks. Refusals 3, 40, 4 leave the
/// file untouched.
pub fn store(rows: &[u32], table: &Words, file: &mut [u8]) -> Words {
    let mut answer = [0; 8];
    // SAFETY: `rows` and `table` are lent for reading, `file` and `answer` for writing, with their own lengths.
    unsafe {
        ffi::spoonharbor_store(
            rows.as_ptr(),
            rows.len(),
            table,
            file.as_mut_ptr(),
            file.len(),
            &mut answer,
        );
    }
    answer
}

/// Reads a stored table into rows; it is told as a scan tells it, and its words can be lent on. The file is all that is lent. Refusals
/// in this order: 42, 41 (its block at [`FIRST`]) of block 0, 44, 42, 41, 43, 4; they leave the rows untouched.
pub fn load(file: &[u8], rows: &mut [u32]) -> Words {
    let mut answer = [0; 8];
    // SAFETY: `file` is lent for reading, `rows` and `answer` for writing, with their own lengths.
    unsafe {
        ffi::spoonharbor_load(
            file.as_ptr(),
            file.len(),
            rows.as_mut_ptr(),
            rows.len(),
            &mut answer,
        );
    }
    answer
}

/// Reads a file of either form beside its text; else as [`load`]. Refusals in this order: those of [`load`] up to 4, then 45; they leave the
/// rows untouched. The text itself is not judged.
pub fn load_beside(text: &[u8], file: &[u8], rows: &mut [u32]) -> Words {
    let mut answer = [0; 8];
    // SAFETY: `text` and `file` are lent for reading, `rows` and `answer` for writing, with their own lengths.
    unsafe {
        ffi::spoonharbor_load_beside(
            text.as_ptr(),
            text.len(),
            file.as_ptr(),
            file.len(),
            rows.as_mut_ptr(),
            rows.len(),
            &mut answer,
        );
    }
    answer
}

/// Moves a file to the form of a number, beside its text: at [`LENGTH`] how many bytes of `moved` are written, at [`COUNT`] how many
/// blocks. Refusals in this order: 44 of the form asked for, then those of [`load_beside`]; they leave `moved` untouched.
pub fn move_file(text: &[u8], file: &[u8], form: u32, moved: &mut [u8]) -> Words {
    let mut answer = [0; 8];
    // SAFETY: `text` and `file` are lent for reading, `moved` and `answer` for writing, with their own lengths.
    unsafe {
        ffi::spoonharbor_move(
            text.as_ptr(),
            text.len(),
            file.as_ptr(),
            file.len(),
            form,
            moved.as_mut_ptr(),
            moved.len(),
            &mut answer,
        );
    }
    answer
}

/// Mends a file, the first `length` bytes of `file`, to what a scan of the text gives in the form of a number: at [`LENGTH`] how long it is
/// then, at [`COUNT`] how many blocks differed, whose numbers stand in `blocks`. Refusals in this order: 44, 1, 2, 40, 4; they leave file
/// and list untouched.
pub fn mend(text: &[u8], form: u32, file: &mut [u8], length: usize, blocks: &mut [u32]) -> Words {
    let mut answer = [0; 8];
    // SAFETY: `text` is lent for reading, `file`, `blocks` and `answer` for writing, with their own lengths; a `length` above that of
    // `file` is refused.
    unsafe {
        ffi::spoonharbor_mend(
            text.as_ptr(),
            text.len(),
            form,
            file.as_mut_ptr(),
            file.len(),
            length,
            blocks.as_mut_ptr(),
            blocks.len(),
            &mut answer,
        );
    }
    answer
}

/// At [`FIRST`] 1 if a program kind (0 to 10) allows a context method (0 to 15), else 0. Refusal 3.
pub fn allows(kind: u32, method: u32) -> Words {
    let mut answer = [0; 8];
    // SAFETY: `answer` is lent for writing.
    unsafe { ffi::spoonharbor_allows(kind, method, &mut answer) };
    answer
}

/// At [`FIRST`] how many context methods a program kind allows. Refusal 3.
pub fn set_size(kind: u32) -> Words {
    let mut answer = [0; 8];
    // SAFETY: `answer` is lent for writing.
    unsafe { ffi::spoonharbor_set_size(kind, &mut answer) };
    answer
}

/// The program kind of a section's text, 0 to 10.
pub fn section_kind(text: &[u8]) -> u32 {
    // SAFETY: `text` is lent for reading with its own length.
    unsafe { ffi::spoonharbor_section_kind(text.as_ptr(), text.len()) }
}

/// Counts the first `node_count` nodes: 0 and the tally. 3 and twenty zeros: over [`TALLY_MOST_NODES`] nodes, fewer lent than said, a node's
/// kind outside 1 to 29, a unit's program kind over 10, a map's type outside 1 to 5. Nothing else of the nodes is looked at.
pub fn tally(nodes: &[u32], node_count: u32) -> (u32, Counts) {
    let mut counts = [0; TALLY_COUNTS];
    // SAFETY: `nodes` is lent for reading with its own length, `counts` for writing; a `node_count` above the nodes that are lent is
    // refused.
    let number =
        unsafe { ffi::spoonharbor_tally(nodes.as_ptr(), nodes.len(), node_count, &mut counts) };
    (number, counts)
}

/// Adds two tallies count by count: 0 and the sums; or 70 and the first tally, where a sum passes 64 bits.
pub fn join(first: &Counts, second: &Counts) -> (u32, Counts) {
    let mut joined = [0; TALLY_COUNTS];
    // SAFETY: both tallies are lent for reading and `joined`, which is neither of them, for writing.
    let number = unsafe { ffi::spoonharbor_join(first, second, &mut joined) };
    (number, joined)
}
