/* What each number that spoonharbor.h tells means, in words, and what each kind of row is called.
 *
 * The archive has no texts, so a program that shows none pays for none: include this file where they are wanted. It is written from the
 * table of the Rust crate (rust/src/diagnostic/explain.rs), by
 *
 *     cargo run --offline --example messages > ../include/spoonharbor_messages.h
 *
 * in rust/, and a test holds it to that table. Do not change it by hand.
 */
#ifndef SPOONHARBOR_MESSAGES_H
#define SPOONHARBOR_MESSAGES_H

#include <stddef.h>
#include <stdint.h>

/* A refusal's number, a few words for it, when it is told, and an example on either side of its edge: one that is refused with it, and one
 * close by that is fine. From 11 to 32 the examples are texts. */
struct spoonharbor_message {
    uint32_t number;
    const char *title;
    const char *meaning;
    const char *refused;
    const char *fine;
};

/* The message of a refusal's number (SH_NUMBER of an answer), or NULL if no call gives that number. */
static inline const struct spoonharbor_message *spoonharbor_message(uint32_t number)
{
    static const struct spoonharbor_message messages[] = {
        {
            1,
            "the text is too long",
            "A text has at most 65,536 bytes. Characters of several bytes count with all of them.",
            "a text of 65,537 bytes",
            "a text of 65,536 bytes"
        },
        {
            2,
            "the text is not UTF-8",
            "All of a text is judged before any of it is read. The place is where the first character starts that is "
            "broken, or that the text's end cuts.",
            "a comment with the byte B0, which is a degree sign in Latin-1",
            "a comment with the bytes C2 B0, which are a degree sign in UTF-8"
        },
        {
            3,
            "what was lent is not well formed",
            "A table, a row number or a set number was lent to a call that no text has: rows that overlap, a row that is "
            "not there, a program kind over 10. Or a layout was lent rows or nodes that are not its text's, or a tally "
            "nodes that no tree has.",
            "asking whether program kind 11 allows method 0",
            "asking whether program kind 10 allows method 0"
        },
        {
            4,
            "no room for the rows",
            "The memory that was lent has fewer rows, bytes or entries than the answer needs. A text of n bytes has at "
            "most n + 1 rows. No room is enough for a layout of over 65,536 bytes.",
            "scanning 'a b' with room for two rows",
            "scanning 'a b' with room for three rows: a, b and the end"
        },
        {
            5,
            "no room for the nodes",
            "A parse asks for room for as many nodes as the text has rows.",
            "parsing 'unit u{ x+=-1; }', which has nine rows, with room for eight nodes",
            "parsing it with room for nine nodes"
        },
        {
            6,
            "the edit is not sensible",
            "The edit does not lie in the old text, or what was lent for the new text is not what the edit makes of it.",
            "replacing bytes 4 to 6 of a text of five bytes",
            "replacing bytes 4 to 5 of a text of five bytes"
        },
        {
            7,
            "the window is short",
            "An edit was shown a part of the new text that does not tell where old and new rows meet. Show a longer part, "
            "or use the change call, which is never short.",
            "a window that ends before the new bytes do",
            "a window that ends where the text does"
        },
        {
            11,
            "nothing begins with this character",
            "A character begins no row. Outside of comments and strings all characters are ASCII: no typographic quotes, "
            "no blanks other than those of the keyboard, no letters with accents.",
            "unit u { x = 1 @ 2; }",
            "unit u { x = 1 * 2; }"
        },
        {
            12,
            "a comment is not closed",
            "A comment that begins with /* ends with the first */ behind these two characters, so /*/ is still open.",
            "/* a map of samples",
            "/* a map of samples */"
        },
        {
            13,
            "a string is not closed",
            "A string ends with a quote on the line on which it begins.",
            "unit u { section \"xdp; }",
            "unit u { section \"xdp\"; license \"GPL\"; }"
        },
        {
            14,
            "an unknown escape",
            "In a string a backslash stands in front of a quote, a backslash or an n, and nothing else.",
            "unit u { section \"xdp\\t\"; }",
            "unit u { section \"xdp\\n\"; }"
        },
        {
            15,
            "a number is too large",
            "The digits of a number spell at most 9223372036854775807, which is 2^63 - 1, with a '-' in front of them too.",
            "unit u { x = 9223372036854775808; }",
            "unit u { x = 9223372036854775807; }"
        },
        {
            16,
            "a lone '<' or '>'",
            "Solnix has no comparisons. A shift is '<<' or '>>'.",
            "unit u { x = a < 2; }",
            "unit u { x = a << 2; }"
        },
        {
            17,
            "'0x' without a digit",
            "A hex number is 0x and at least one of 0 to 9, a to f, A to F.",
            "unit u { x = 0x; }",
            "unit u { x = 0x0; }"
        },
        {
            21,
            "something else was expected",
            "No program goes on with this row. What would have fitted is exactly the kinds of rows with which some program "
            "does.",
            "unit u { x = 1 }",
            "unit u { x = 1; }"
        },
        {
            22,
            "no declaration begins here",
            "At the top of a text stand maps, events and units, and nothing else.",
            "units u { }",
            "unit u { }"
        },
        {
            23,
            "no field of a map begins here",
            "The fields of a map are type, key, value and max.",
            "map m { type: .array; key: u32; value: u64; size: 8; }",
            "map m { type: .array; key: u32; value: u64; max: 8; }"
        },
        {
            24,
            "an unknown map type",
            "The map types are .hash, .array, .ringbuf, .lru_hash and .prog_array.",
            "map m { type: .hashmap; key: u32; value: u64; max: 8; }",
            "map m { type: .hash; key: u32; value: u64; max: 8; }"
        },
        {
            25,
            "not a type",
            "A key or a value has one of the types u32, u64, i32 and i64.",
            "map m { type: .hash; key: int; value: u64; max: 8; }",
            "map m { type: .hash; key: i32; value: u64; max: 8; }"
        },
        {
            26,
            "max is negative",
            "A max is worked out from left to right in 64 bits with a sign, so 1 << 63 is negative.",
            "map m { type: .ringbuf; max: -1; }",
            "map m { type: .ringbuf; max: 0; }"
        },
        {
            27,
            "a max or a length is out of range",
            "A max, and the length of an event's field, is 0 to 4294967295, which is 2^32 - 1.",
            "map m { type: .ringbuf; max: 1 << 32; }",
            "map m { type: .ringbuf; max: 4294967295; }"
        },
        {
            28,
            "a shift count is out of range",
            "In a max a shift is by 0 to 63.",
            "map m { type: .ringbuf; max: 0 << 64; }",
            "map m { type: .ringbuf; max: 0 << 63; }"
        },
        {
            29,
            "a map lacks a field",
            "A map has a type, a key, a value and a max. A ringbuf needs a type and a max only.",
            "map m { type: .hash; max: 8; }",
            "map m { type: .ringbuf; max: 8; }"
        },
        {
            30,
            "not a type of an event's field",
            "A field of an event has one of the types u32, u64, i32 and i64, such a type and a length, or bytes and a "
            "length.",
            "event e { a: u8; }",
            "event e { a: bytes[1]; }"
        },
        {
            31,
            "a method of something other than a variable",
            "A method is called on a variable, in parentheses or not, and on nothing else.",
            "unit u { a.b.c(); }",
            "unit u { (a).c(); }"
        },
        {
            32,
            "nested too deeply",
            "At most 64 constructs are open at a time: parentheses, argument lists, dereference stars, and bodies of if "
            "and else. The example opens 65.",
            "unit u { x = *****************************************************************a; }",
            "unit u { x = ****************************************************************a; }"
        },
        {
            40,
            "too many rows to store",
            "A file holds at most 65,535 rows.",
            "storing a table of 65,536 rows",
            "storing a table of 65,535 rows"
        },
        {
            41,
            "a block of the file is damaged",
            "A block's check, number, row count or filler is wrong. The first such block is told; block 0 is the first 512 "
            "bytes.",
            "a stored file with one byte changed",
            "the file as it was stored"
        },
        {
            42,
            "the file has another length than it says",
            "A stored file has 512 bytes at least, and as many as its first block says.",
            "a stored file and one byte more",
            "the file as it was stored"
        },
        {
            43,
            "the file holds no table",
            "All blocks are sound, but the rows in them are those of no table.",
            "sound blocks whose rows stand in the wrong order",
            "the file as it was stored"
        },
        {
            44,
            "the file has another form",
            "Without its text a file of form 1 is read, beside its text one of form 1 or 2.",
            "reading a file of form 2 without its text",
            "reading a file of form 2 beside its text"
        },
        {
            45,
            "the file is another text's",
            "The text has another length than the table says, or its lines and columns are not the table's.",
            "the stored table of 'a b' beside the text 'a bc'",
            "the stored table of 'a b' beside the text 'a b'"
        },
        {
            70,
            "a count passes 64 bits",
            "Two tallies are added up count by count. Where a sum passes 64 bits nothing is added, and the first tally "
            "stays as it was.",
            "a tally of 18446744073709551615 statements and one of 1",
            "a tally of 18446744073709551614 statements and one of 1"
        },
    };
    size_t count = sizeof messages / sizeof messages[0];
    for (size_t at = 0; at < count; at++) {
        if (messages[at].number == number) {
            return &messages[at];
        }
    }
    return NULL;
}

/* What a kind of row is called where it was wanted or found, as ';' in quotes or "a number"; NULL if no row has that kind. */
static inline const char *spoonharbor_kind_name(uint32_t kind)
{
    static const char *const names[] = {
        "'unit'",
        "'section'",
        "'license'",
        "'return'",
        "'reg'",
        "'imm'",
        "'map'",
        "'type'",
        "'key'",
        "'value'",
        "'max'",
        "'if'",
        "'else'",
        "'guard'",
        "'heap'",
        "'event'",
        NULL,
        NULL,
        NULL,
        NULL,
        NULL,
        "'u32'",
        "'u64'",
        "'i32'",
        "'i64'",
        "'{'",
        "'}'",
        "'('",
        "')'",
        "':'",
        "'.'",
        "','",
        "';'",
        "'['",
        "']'",
        "'='",
        "'+='",
        "'-='",
        "'*='",
        "'/='",
        "'%='",
        "'+'",
        "'-'",
        "'*'",
        "'/'",
        "'%'",
        "'>>'",
        "'<<'",
        "an identifier",
        "a string",
        "a number",
        "'bytes'",
        "end of file",
    };
    return kind < sizeof names / sizeof names[0] ? names[kind] : NULL;
}

#endif
