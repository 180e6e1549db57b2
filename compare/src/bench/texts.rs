//! Texts to measure with, besides probes as people write them.

use crate::generate::random::Random;

/// Pieces of a text without comments and with hardly a blank.
const PIECES: [&str; 12] = [
    "count+=bytes_seen;",
    "context.load_u32(offset,-3);",
    "reg result=address<<12;",
    "*pointer=queue.first;",
    "return(0x1fff);",
    "index=index+100;",
    "if guard(shutter){state=1;}else{state=2;}",
    "imm name=\"dome\";",
    "frame:bytes[16];",
    "table.lookup(key_of).total-=7;",
    "heap entry=table.lookup(source);",
    "retries%=limit/window*share;",
];

/// A text of exactly `length` bytes in which nearly every byte belongs to a short row.
pub fn dense_text(length: usize, seed: u64) -> Vec<u8> {
    let mut random = Random::new(seed);
    let mut text = Vec::new();
    while text.len() < length {
        text.extend_from_slice(random.pick(&PIECES).as_bytes());
    }
    text.truncate(length);
    let cut = text
        .iter()
        .rposition(|&byte| byte == b';')
        .map_or(0, |at| at + 1);
    text.truncate(cut);
    text.resize(length, b'\n');
    text
}

/// Texts of at most `length` bytes that are their own layouts and are hard to write: long chains, deep groups, many arguments, many
/// short lines. Each by its name.
pub fn laid_texts(length: usize) -> Vec<(&'static str, Vec<u8>)> {
    let unit = |before: &str, part: &str, behind: &str| {
        let around = "unit u {\n".len() + before.len() + behind.len() + "}\n".len();
        let parts = part.repeat((length - around) / part.len());
        format!("unit u {{\n{before}{parts}{behind}}}\n").into_bytes()
    };
    let group = format!("{}a {};\n", "* ( a - ".repeat(32), ") ".repeat(32));
    let call = format!("{}a {};\n", "a . f ( ".repeat(64), ") ".repeat(64));
    vec![
        ("one sum", unit("a ", "+ a ", ";\n")),
        ("one chain of fields", unit("a ", ". f ", ";\n")),
        ("one list of arguments", unit("a . f ( 1 ", ", 1 ", ") ;\n")),
        ("groups, 64 deep", unit("", &group, "")),
        ("calls, 64 deep", unit("", &call, "")),
        ("short lines", unit("", "x ;\n", "")),
        ("long numbers", unit("", "-9223372036854775807 ;\n", "")),
    ]
}

/// An offset near the middle with letters on both sides, in a line without a comment.
pub fn middle_of_a_name(text: &[u8]) -> usize {
    (text.len() / 2..text.len())
        .find(|&at| {
            text[at - 1].is_ascii_lowercase() && text[at].is_ascii_lowercase() && is_code(text, at)
        })
        .expect("a probe has names in its second half")
}

/// Whether the line of an offset has no comment before it.
fn is_code(text: &[u8], at: usize) -> bool {
    let begin = text[..at]
        .iter()
        .rposition(|&byte| byte == b'\n')
        .map_or(0, |newline| newline + 1);
    !text[begin..at]
        .windows(2)
        .any(|pair| pair == b"//" || pair == b"/*")
}
