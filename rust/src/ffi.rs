//! The library's C face, as `include/spoonharbor.h` declares it. Nothing but `lent` calls these.

use crate::words::{Counts, Scratch, Words};

extern "C" {
    pub fn spoonharbor_version() -> u32;

    pub fn spoonharbor_scan(
        text: *const u8,
        text_length: usize,
        rows: *mut u32,
        row_words: usize,
        answer: *mut Words,
    );

    pub fn spoonharbor_well_formed(rows: *const u32, row_words: usize, table: *const Words) -> u32;

    pub fn spoonharbor_spelling(
        text: *const u8,
        text_length: usize,
        rows: *const u32,
        row_words: usize,
        table: *const Words,
        row: u32,
        answer: *mut Words,
    );

    pub fn spoonharbor_parse(
        text: *const u8,
        text_length: usize,
        rows: *const u32,
        row_words: usize,
        table: *const Words,
        nodes: *mut u32,
        node_words: usize,
        answer: *mut Words,
    );

    pub fn spoonharbor_layout(
        text: *const u8,
        text_length: usize,
        rows: *const u32,
        row_words: usize,
        table: *const Words,
        nodes: *const u32,
        node_words: usize,
        node_count: u32,
        scratch: *mut Scratch,
        room: *mut u8,
        room_length: usize,
        answer: *mut Words,
    );

    pub fn spoonharbor_change(
        old_rows: *const u32,
        old_words: usize,
        table: *const Words,
        a: u32,
        b: u32,
        n: u32,
        text: *const u8,
        text_length: usize,
        new_rows: *mut u32,
        new_words: usize,
        answer: *mut Words,
    );

    pub fn spoonharbor_edit(
        old_rows: *const u32,
        old_words: usize,
        table: *const Words,
        a: u32,
        b: u32,
        n: u32,
        start: u32,
        window: *const u8,
        window_length: usize,
        new_rows: *mut u32,
        new_words: usize,
        answer: *mut Words,
    );

    pub fn spoonharbor_restart(
        old_rows: *const u32,
        old_words: usize,
        table: *const Words,
        a: u32,
        answer: *mut Words,
    );

    pub fn spoonharbor_store(
        rows: *const u32,
        row_words: usize,
        table: *const Words,
        file: *mut u8,
        file_room: usize,
        answer: *mut Words,
    );

    pub fn spoonharbor_load(
        file: *const u8,
        file_length: usize,
        rows: *mut u32,
        row_words: usize,
        answer: *mut Words,
    );

    pub fn spoonharbor_load_beside(
        text: *const u8,
        text_length: usize,
        file: *const u8,
        file_length: usize,
        rows: *mut u32,
        row_words: usize,
        answer: *mut Words,
    );

    pub fn spoonharbor_move(
        text: *const u8,
        text_length: usize,
        file: *const u8,
        file_length: usize,
        form: u32,
        moved: *mut u8,
        moved_room: usize,
        answer: *mut Words,
    );

    pub fn spoonharbor_mend(
        text: *const u8,
        text_length: usize,
        form: u32,
        file: *mut u8,
        file_room: usize,
        file_length: usize,
        blocks: *mut u32,
        block_words: usize,
        answer: *mut Words,
    );

    pub fn spoonharbor_allows(kind: u32, method: u32, answer: *mut Words);

    pub fn spoonharbor_set_size(kind: u32, answer: *mut Words);

    pub fn spoonharbor_section_kind(text: *const u8, text_length: usize) -> u32;

    pub fn spoonharbor_tally(
        nodes: *const u32,
        node_words: usize,
        node_count: u32,
        tally: *mut Counts,
    ) -> u32;

    pub fn spoonharbor_join(
        first: *const Counts,
        second: *const Counts,
        joined: *mut Counts,
    ) -> u32;
}
