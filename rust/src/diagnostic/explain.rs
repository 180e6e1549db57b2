//! What each number means, with an example on either side of its edge: one table, from which the C header of messages
//! is written too.

/// What a refusal's or a warning's number means.
#[derive(Debug, Clone, Copy, PartialEq, Eq)]
#[non_exhaustive]
pub struct Explained {
    /// The number.
    pub number: u32,
    /// A few words for it.
    pub title: &'static str,
    /// When it is told, and where it stands.
    pub meaning: &'static str,
    /// An example that gets it. From 11 to 32 and from 101 on it is a text.
    pub refused: &'static str,
    /// One close by that does not.
    pub fine: &'static str,
}

/// What a number means, if there is such a number.
pub fn explain(number: u32) -> Option<&'static Explained> {
    EXPLAINED.iter().find(|one| one.number == number)
}

/// Every number, in order: 1 to 7 of what a call was lent, 11 to 17 of the scan, 21 to 32 of the grammar, 40 to 45 of
/// stored tables, 70 of figures, and from 101 on the warnings.
pub fn explained() -> &'static [Explained] {
    &EXPLAINED
}

const fn number(
    number: u32,
    title: &'static str,
    meaning: &'static str,
    refused: &'static str,
    fine: &'static str,
) -> Explained {
    Explained {
        number,
        title,
        meaning,
        refused,
        fine,
    }
}

#[rustfmt::skip]
const EXPLAINED: [Explained; 41] = [
    number(1, "the text is too long",
        "A text has at most 65,536 bytes. Characters of several bytes count with all of them.",
        "a text of 65,537 bytes",
        "a text of 65,536 bytes"),
    number(2, "the text is not UTF-8",
        "All of a text is judged before any of it is read. The place is where the first character starts that is \
         broken, or that the text's end cuts.",
        "a comment with the byte B0, which is a degree sign in Latin-1",
        "a comment with the bytes C2 B0, which are a degree sign in UTF-8"),
    number(3, "what was lent is not well formed",
        "A table, a row number or a set number was lent to a call that no text has: rows that overlap, a row that is \
         not there, a program kind over 10. Or a layout was lent rows or nodes that are not its text's, or a tally nodes that \
         no tree has.",
        "asking whether program kind 11 allows method 0",
        "asking whether program kind 10 allows method 0"),
    number(4, "no room for the rows",
        "The memory that was lent has fewer rows, bytes or entries than the answer needs. A text of n bytes has at \
         most n + 1 rows. No room is enough for a layout of over 65,536 bytes.",
        "scanning 'a b' with room for two rows",
        "scanning 'a b' with room for three rows: a, b and the end"),
    number(5, "no room for the nodes",
        "A parse asks for room for as many nodes as the text has rows.",
        "parsing 'unit u{ x+=-1; }', which has nine rows, with room for eight nodes",
        "parsing it with room for nine nodes"),
    number(6, "the edit is not sensible",
        "The edit does not lie in the old text, or what was lent for the new text is not what the edit makes of it.",
        "replacing bytes 4 to 6 of a text of five bytes",
        "replacing bytes 4 to 5 of a text of five bytes"),
    number(7, "the window is short",
        "An edit was shown a part of the new text that does not tell where old and new rows meet. Show a longer \
         part, or use the change call, which is never short.",
        "a window that ends before the new bytes do",
        "a window that ends where the text does"),
    number(11, "nothing begins with this character",
        "A character begins no row. Outside of comments and strings all characters are ASCII: no typographic quotes, \
         no blanks other than those of the keyboard, no letters with accents.",
        "unit u { x = 1 @ 2; }",
        "unit u { x = 1 * 2; }"),
    number(12, "a comment is not closed",
        "A comment that begins with /* ends with the first */ behind these two characters, so /*/ is still open.",
        "/* a map of samples",
        "/* a map of samples */"),
    number(13, "a string is not closed",
        "A string ends with a quote on the line on which it begins.",
        "unit u { section \"xdp; }",
        "unit u { section \"xdp\"; license \"GPL\"; }"),
    number(14, "an unknown escape",
        "In a string a backslash stands in front of a quote, a backslash or an n, and nothing else.",
        "unit u { section \"xdp\\t\"; }",
        "unit u { section \"xdp\\n\"; }"),
    number(15, "a number is too large",
        "The digits of a number spell at most 9223372036854775807, which is 2^63 - 1, with a '-' in front of them too.",
        "unit u { x = 9223372036854775808; }",
        "unit u { x = 9223372036854775807; }"),
    number(16, "a lone '<' or '>'",
        "Solnix has no comparisons. A shift is '<<' or '>>'.",
        "unit u { x = a < 2; }",
        "unit u { x = a << 2; }"),
    number(17, "'0x' without a digit",
        "A hex number is 0x and at least one of 0 to 9, a to f, A to F.",
        "unit u { x = 0x; }",
        "unit u { x = 0x0; }"),
    number(21, "something else was expected",
        "No program goes on with this row. What would have fitted is exactly the kinds of rows with which some \
         program does.",
        "unit u { x = 1 }",
        "unit u { x = 1; }"),
    number(22, "no declaration begins here",
        "At the top of a text stand maps, events and units, and nothing else.",
        "units u { }",
        "unit u { }"),
    number(23, "no field of a map begins here",
        "The fields of a map are type, key, value and max.",
        "map m { type: .array; key: u32; value: u64; size: 8; }",
        "map m { type: .array; key: u32; value: u64; max: 8; }"),
    number(24, "an unknown map type",
        "The map types are .hash, .array, .ringbuf, .lru_hash and .prog_array.",
        "map m { type: .hashmap; key: u32; value: u64; max: 8; }",
        "map m { type: .hash; key: u32; value: u64; max: 8; }"),
    number(25, "not a type",
        "A key or a value has one of the types u32, u64, i32 and i64.",
        "map m { type: .hash; key: int; value: u64; max: 8; }",
        "map m { type: .hash; key: i32; value: u64; max: 8; }"),
    number(26, "max is negative",
        "A max is worked out from left to right in 64 bits with a sign, so 1 << 63 is negative.",
        "map m { type: .ringbuf; max: -1; }",
        "map m { type: .ringbuf; max: 0; }"),
    number(27, "a max or a length is out of range",
        "A max, and the length of an event's field, is 0 to 4294967295, which is 2^32 - 1.",
        "map m { type: .ringbuf; max: 1 << 32; }",
        "map m { type: .ringbuf; max: 4294967295; }"),
    number(28, "a shift count is out of range",
        "In a max a shift is by 0 to 63.",
        "map m { type: .ringbuf; max: 0 << 64; }",
        "map m { type: .ringbuf; max: 0 << 63; }"),
    number(29, "a map lacks a field",
        "A map has a type, a key, a value and a max. A ringbuf needs a type and a max only.",
        "map m { type: .hash; max: 8; }",
        "map m { type: .ringbuf; max: 8; }"),
    number(30, "not a type of an event's field",
        "A field of an event has one of the types u32, u64, i32 and i64, such a type and a length, or bytes and a \
         length.",
        "event e { a: u8; }",
        "event e { a: bytes[1]; }"),
    number(31, "a method of something other than a variable",
        "A method is called on a variable, in parentheses or not, and on nothing else.",
        "unit u { a.b.c(); }",
        "unit u { (a).c(); }"),
    number(32, "nested too deeply",
        "At most 64 constructs are open at a time: parentheses, argument lists, dereference stars, and bodies of if \
         and else. The example opens 65.",
        "unit u { x = *****************************************************************a; }",
        "unit u { x = ****************************************************************a; }"),
    number(40, "too many rows to store",
        "A file holds at most 65,535 rows.",
        "storing a table of 65,536 rows",
        "storing a table of 65,535 rows"),
    number(41, "a block of the file is damaged",
        "A block's check, number, row count or filler is wrong. The first such block is told; block 0 is the first \
         512 bytes.",
        "a stored file with one byte changed",
        "the file as it was stored"),
    number(42, "the file has another length than it says",
        "A stored file has 512 bytes at least, and as many as its first block says.",
        "a stored file and one byte more",
        "the file as it was stored"),
    number(43, "the file holds no table",
        "All blocks are sound, but the rows in them are those of no table.",
        "sound blocks whose rows stand in the wrong order",
        "the file as it was stored"),
    number(44, "the file has another form",
        "Without its text a file of form 1 is read, beside its text one of form 1 or 2.",
        "reading a file of form 2 without its text",
        "reading a file of form 2 beside its text"),
    number(45, "the file is another text's",
        "The text has another length than the table says, or its lines and columns are not the table's.",
        "the stored table of 'a b' beside the text 'a bc'",
        "the stored table of 'a b' beside the text 'a b'"),
    number(70, "a count passes 64 bits",
        "Two tallies are added up count by count. Where a sum passes 64 bits nothing is added, and the first tally \
         stays as it was.",
        "a tally of 18446744073709551615 statements and one of 1",
        "a tally of 18446744073709551614 statements and one of 1"),
    number(101, "a section gives no program kind",
        "The first section of a unit gives its program kind, by what it begins with. Of an unknown kind no method of \
         the context is allowed.",
        "unit u { section \"kprobes/read\"; license \"GPL\"; }",
        "unit u { section \"kprobe/read\"; license \"GPL\"; }"),
    number(102, "a unit has no section",
        "Without a section a unit has no program kind, and nothing says where it is to be attached.",
        "unit u { license \"GPL\"; }",
        "unit u { section \"xdp\"; license \"GPL\"; }"),
    number(103, "a unit has no license",
        "Without a license the kernel keeps most of its functions from a probe.",
        "unit u { section \"xdp\"; }",
        "unit u { section \"xdp\"; license \"GPL\"; }"),
    number(104, "a method that the program kind does not have",
        "Each program kind allows some methods of the context ctx.",
        "unit u { section \"kprobe/read\"; license \"GPL\"; reg a = ctx.load_u8(0); }",
        "unit u { section \"kprobe/read\"; license \"GPL\"; reg a = ctx.load_u64(0); }"),
    number(105, "no such method",
        "The context ctx has no method of this name in any program kind.",
        "unit u { section \"xdp\"; license \"GPL\"; reg a = ctx.load_u46(0); }",
        "unit u { section \"xdp\"; license \"GPL\"; reg a = ctx.load_u64(0); }"),
    number(106, "two declarations of one name",
        "A map, an event or a unit has the name of one in front of it.",
        "event e { a: u32; } event e { b: u32; }",
        "event e { a: u32; } event f { b: u32; }"),
    number(107, "lines that end in CR alone",
        "A newline is the only character that ends a line. A comment with // goes on behind a CR alone, and hides \
         what follows.",
        "// samples\rmap m { type: .ringbuf; max: 8; }",
        "// samples\r\nmap m { type: .ringbuf; max: 8; }"),
    number(108, "a map without a comment",
        "The style for probes wants a comment above each map. It is told where that is asked for, by --style.",
        "map m { type: .ringbuf; max: 8; }",
        "// samples of the encoder\nmap m { type: .ringbuf; max: 8; }"),
];

#[cfg(test)]
mod tests {
    use super::*;
    use crate::diagnostic::{diagnose, Checks};
    use crate::refusal::Refusal;

    #[test]
    fn every_number_is_explained_once() {
        let numbers: Vec<u32> = EXPLAINED.iter().map(|one| one.number).collect();
        let wanted = (1..=7)
            .chain(11..=17)
            .chain(21..=32)
            .chain(40..=45)
            .chain([70])
            .chain(101..=108);
        assert_eq!(numbers, wanted.collect::<Vec<u32>>());
        for one in explained() {
            assert_eq!(explain(one.number), Some(one));
            let words = [one.number, 0, 1, 1, 1, 0, 0, 0];
            assert!(one.number > 100 || Refusal::from_words(&words).is_some());
        }
        assert_eq!((explain(0), explain(8), explain(46)), (None, None, None));
    }

    /// An example that is a text gets its number alone, or at least first, and the one beside it does not.
    #[test]
    fn examples_stand_on_either_side_of_the_edge() {
        let checks = Checks { style: true };
        for one in EXPLAINED
            .iter()
            .filter(|one| matches!(one.number, 11..=32 | 101..))
        {
            let numbers = |text: &str| -> Vec<u32> {
                diagnose(text.as_bytes(), &checks)
                    .iter()
                    .map(|told| told.number)
                    .collect()
            };
            let (refused, fine) = (numbers(one.refused), numbers(one.fine));
            assert!(refused.contains(&one.number), "{}: {refused:?}", one.number);
            assert!(!fine.contains(&one.number), "{}: {fine:?}", one.number);
            let is_error = |number: &u32| *number < 100;
            assert!(!fine.iter().any(is_error), "{}: {fine:?}", one.number);
        }
    }
}
