//! Scanners that may be there to measure against: one made by re2c, and the library before a change.

#[cfg(before)]
use spoonharbor::lent::Change;
#[cfg(any(before, re2c))]
use spoonharbor::lent::Words;

#[cfg(re2c)]
extern "C" {
    fn re2c_scan(text: *const u8, length: usize, rows: *mut u32, room: usize, answer: *mut Words);
}

/// The rows of a text by the scanner that re2c makes. `padded` is the text with a byte 0 behind it.
#[cfg(re2c)]
pub fn re2c(padded: &[u8], rows: &mut [u32]) -> Words {
    assert_eq!(padded.last(), Some(&0), "a byte 0 stands behind the text");
    let mut answer = [0; 8];
    // SAFETY: the text is lent for reading with the byte behind it that the scanner looks at, and the rows are lent for writing with
    // room for as many as are told.
    unsafe {
        re2c_scan(
            padded.as_ptr(),
            padded.len() - 1,
            rows.as_mut_ptr(),
            rows.len() / 8,
            &mut answer,
        );
    }
    answer
}

#[cfg(before)]
extern "C" {
    fn before_scan(
        text: *const u8,
        length: usize,
        rows: *mut u32,
        words: usize,
        answer: *mut Words,
    );
    fn before_parse(
        text: *const u8,
        length: usize,
        rows: *const u32,
        words: usize,
        table: *const Words,
        nodes: *mut u32,
        node_words: usize,
        answer: *mut Words,
    );
    fn before_edit(
        old: *const u32,
        words: usize,
        table: *const Words,
        a: u32,
        b: u32,
        n: u32,
        start: u32,
        window: *const u8,
        length: usize,
        new: *mut u32,
        new_words: usize,
        answer: *mut Words,
    );
    fn before_well_formed(rows: *const u32, words: usize, table: *const Words) -> u32;
    fn before_store(
        rows: *const u32,
        words: usize,
        table: *const Words,
        file: *mut u8,
        room: usize,
        answer: *mut Words,
    );
    fn before_load(
        file: *const u8,
        length: usize,
        rows: *mut u32,
        words: usize,
        answer: *mut Words,
    );
}

// The calls of the library before a change are sound for the reasons that the crate `spoonharbor` gives for today's: each pointer is
// that of a slice, lent with the slice's own length.

/// `spoonharbor_scan` before the change.
#[cfg(before)]
pub fn scan_before(text: &[u8], rows: &mut [u32]) -> Words {
    let mut answer = [0; 8];
    // SAFETY: see above.
    unsafe {
        before_scan(
            text.as_ptr(),
            text.len(),
            rows.as_mut_ptr(),
            rows.len(),
            &mut answer,
        )
    };
    answer
}

/// `spoonharbor_parse` before the change.
#[cfg(before)]
pub fn parse_before(text: &[u8], rows: &[u32], table: &Words, nodes: &mut [u32]) -> Words {
    let mut answer = [0; 8];
    // SAFETY: see above.
    unsafe {
        before_parse(
            text.as_ptr(),
            text.len(),
            rows.as_ptr(),
            rows.len(),
            table,
            nodes.as_mut_ptr(),
            nodes.len(),
            &mut answer,
        );
    }
    answer
}

/// `spoonharbor_edit` before the change.
#[cfg(before)]
pub fn edit_before(
    rows: &[u32],
    table: &Words,
    change: Change,
    start: u32,
    window: &[u8],
    new: &mut [u32],
) -> Words {
    let mut answer = [0; 8];
    // SAFETY: see above.
    unsafe {
        before_edit(
            rows.as_ptr(),
            rows.len(),
            table,
            change.a,
            change.b,
            change.n,
            start,
            window.as_ptr(),
            window.len(),
            new.as_mut_ptr(),
            new.len(),
            &mut answer,
        );
    }
    answer
}

/// `spoonharbor_well_formed` before the change.
#[cfg(before)]
pub fn well_formed_before(rows: &[u32], table: &Words) -> bool {
    // SAFETY: see above.
    unsafe { before_well_formed(rows.as_ptr(), rows.len(), table) == 1 }
}

/// `spoonharbor_store` before the change.
#[cfg(before)]
pub fn store_before(rows: &[u32], table: &Words, file: &mut [u8]) -> Words {
    let mut answer = [0; 8];
    // SAFETY: see above.
    unsafe {
        before_store(
            rows.as_ptr(),
            rows.len(),
            table,
            file.as_mut_ptr(),
            file.len(),
            &mut answer,
        );
    }
    answer
}

/// `spoonharbor_load` before the change.
#[cfg(before)]
pub fn load_before(file: &[u8], rows: &mut [u32]) -> Words {
    let mut answer = [0; 8];
    // SAFETY: see above.
    unsafe {
        before_load(
            file.as_ptr(),
            file.len(),
            rows.as_mut_ptr(),
            rows.len(),
            &mut answer,
        );
    }
    answer
}
