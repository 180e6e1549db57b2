//! Every two map fields and every event field of a list of good and bad ones.

const MAP_FIELDS: [&str; 10] = [
    "type:.lru_hash;",
    "type:.ringbuf;",
    "type:.q;",
    "type:.prog_array",
    "key:u32;",
    "key:q;",
    "value:i64;",
    "max:8;",
    "max:-1;",
    "",
];

/// What follows a map's last field: its end, another declaration, or nothing.
const MAP_ENDS: [&str; 3] = ["}", "}\nevent e{}", ""];

const EVENT_FIELDS: [&str; 12] = [
    "a:u32;",
    "a:u64[7];",
    "a:bytes[9];",
    "a:bytes;",
    "a:i32[];",
    "a:i64[b];",
    "a:q;",
    "a:",
    "a u32;",
    "a:u32",
    "u32:u32;",
    "a:bytes[1;",
];

/// Every map of two fields, and every event of one field behind a good one.
pub fn texts() -> Vec<Vec<u8>> {
    maps().chain(events()).map(String::into_bytes).collect()
}

fn maps() -> impl Iterator<Item = String> {
    MAP_FIELDS.into_iter().enumerate().flat_map(|(row, first)| {
        MAP_FIELDS
            .into_iter()
            .enumerate()
            .map(move |(column, second)| {
                let end = MAP_ENDS[(row + column) % MAP_ENDS.len()];
                format!("map m{{{first}{second}{end}")
            })
    })
}

fn events() -> impl Iterator<Item = String> {
    EVENT_FIELDS
        .into_iter()
        .map(|field| format!("event e{{b:i64;{field}}}"))
}
