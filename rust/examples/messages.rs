//! Writes the C header of messages: `cargo run --offline --example messages > ../include/spoonharbor_messages.h`, in `rust/`.

use spoonharbor::diagnostic::{explained, Explained};
use spoonharbor::Kind;

const HEAD: &str = r#"/* What each number that spoonharbor.h tells means, in words, and what each kind of row is called.
 *
 * The archive has no texts, so a program that shows none pays for none: include this file where they are wanted. It is written from the
 * table of the Rust crate (rust/src/diagnostic/explain.rs), by
 *
 *     cargo run --offline --example messages > ../include/spoonharbor_messages.h
 *
 * in rust/, and a test holds it to that table. Do not change it by hand.
 */
#ifndef SPOONHARBOR_MESSAGES_H
#define SPOONHARBOR_MESSAGES_H

#include <stddef.h>
#include <stdint.h>

/* A refusal's number, a few words for it, when it is told, and an example on either side of its edge: one that is refused with it, and one
 * close by that is fine. From 11 to 32 the examples are texts. */
struct spoonharbor_message {
    uint32_t number;
    const char *title;
    const char *meaning;
    const char *refused;
    const char *fine;
};

/* The message of a refusal's number (SH_NUMBER of an answer), or NULL if no call gives that number. */
static inline const struct spoonharbor_message *spoonharbor_message(uint32_t number)
{
    static const struct spoonharbor_message messages[] = {
"#;

const BETWEEN: &str = r#"    };
    size_t count = sizeof messages / sizeof messages[0];
    for (size_t at = 0; at < count; at++) {
        if (messages[at].number == number) {
            return &messages[at];
        }
    }
    return NULL;
}

/* What a kind of row is called where it was wanted or found, as ';' in quotes or "a number"; NULL if no row has that kind. */
static inline const char *spoonharbor_kind_name(uint32_t kind)
{
    static const char *const names[] = {
"#;

const TAIL: &str = r#"    };
    return kind < sizeof names / sizeof names[0] ? names[kind] : NULL;
}

#endif
"#;

/// The most bytes of a text on one line.
const LONGEST_PART: usize = 110;

/// A text as C writes it; a long one is several strings behind each other, which C joins.
fn in_c(text: &str) -> String {
    let escaped = text
        .replace('\\', "\\\\")
        .replace('"', "\\\"")
        .replace('\n', "\\n")
        .replace('\r', "\\r");
    let mut parts = vec![String::new()];
    for word in escaped.split_inclusive(' ') {
        match parts.last_mut() {
            Some(part) if part.len() + word.len() <= LONGEST_PART => *part += word,
            _ => parts.push(word.to_string()),
        }
    }
    let quoted = parts.iter().map(|part| format!("\"{part}\""));
    quoted.collect::<Vec<String>>().join("\n            ")
}

/// A message's row, a line for each of its texts.
fn message(one: &Explained) -> String {
    let texts = [one.title, one.meaning, one.refused, one.fine];
    let texts = texts.map(|text| format!("            {}", in_c(text)));
    format!(
        "        {{\n            {},\n{}\n        }},\n",
        one.number,
        texts.join(",\n")
    )
}

/// What a kind is called.
fn kind_name(number: u32) -> String {
    let name = match Kind::from_number(number) {
        None => return "        NULL,\n".to_string(),
        Some(Kind::Identifier) => "an identifier".to_string(),
        Some(Kind::StringLiteral) => "a string".to_string(),
        Some(Kind::Number) => "a number".to_string(),
        Some(kind) => kind.to_string(),
    };
    format!("        {},\n", in_c(&name))
}

/// The whole header. Warnings are the command's, and no call gives them.
pub fn header() -> String {
    let refusals = explained().iter().filter(|one| one.number < 100);
    let messages: String = refusals.map(message).collect();
    let kinds: String = (0..=Kind::Eof.number()).map(kind_name).collect();
    format!("{HEAD}{messages}{BETWEEN}{kinds}{TAIL}")
}

fn main() {
    print!("{}", header());
}
