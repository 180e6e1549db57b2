//! The edits whose answers LANGUAGE.md and DECISIONS.md state.

use super::expected::Asked;
use super::{Call, Edit, Kind};
use crate::edge_cases::LISTER_TEXT;

/// A paper's case: windows of these sizes get these numbers, 0 where all rows are written, with room for so many rows.
pub struct Worked {
    pub source: &'static str,
    pub old: &'static [u8],
    pub a: usize,
    pub b: usize,
    pub new_bytes: &'static [u8],
    pub restart: u32,
    pub room: usize,
    pub windows: &'static [(usize, u32)],
}

const fn reading(
    source: &'static str,
    old: &'static [u8],
    (a, b): (usize, usize),
    new_bytes: &'static [u8],
    windows: &'static [(usize, u32)],
) -> Worked {
    Worked {
        source,
        old,
        a,
        b,
        new_bytes,
        restart: 0,
        room: 9,
        windows,
    }
}

pub const WORKED: [Worked; 24] = [
    Worked {
        restart: 12,
        ..reading(
            "LANGUAGE, seven bytes suffice and six are short",
            LISTER_TEXT,
            (13, 14),
            b"12",
            &[(7, 0), (6, 7), (5, 7), (4, 7)],
        )
    },
    Worked {
        restart: 1,
        ..reading(
            "LANGUAGE, a row that ends exactly at a is not kept",
            b"a b",
            (3, 3),
            b"c",
            &[(3, 0)],
        )
    },
    Worked {
        restart: 1,
        ..reading(
            "LANGUAGE, no old row is met inside a new comment",
            b"a b",
            (2, 2),
            b"/*",
            &[(4, 12), (3, 7)],
        )
    },
    reading(
        "DECISIONS, a `/` last in the window may be a meeting",
        b"    /\"",
        (0, 0),
        b"",
        &[(4, 7), (5, 13)],
    ),
    reading(
        "DECISIONS, no meeting lies before a + n",
        b"/",
        (0, 1),
        b"*",
        &[(1, 0)],
    ),
    reading(
        "DECISIONS, no meeting lies at the window's end",
        b"    /",
        (0, 0),
        b"",
        &[(4, 7), (5, 0)],
    ),
    reading(
        "DECISIONS, a lone `<` at the window's end",
        b"   <a;",
        (0, 0),
        b"",
        &[(4, 7), (5, 16)],
    ),
    reading(
        "DECISIONS, `0x` at the window's end",
        b"  0xg;",
        (0, 0),
        b"",
        &[(4, 7), (5, 17)],
    ),
    reading(
        "DECISIONS, 15 behind the digit too many",
        b"999999999999999999999a;",
        (0, 0),
        b"",
        &[(21, 7), (22, 15)],
    ),
    reading(
        "DECISIONS, columns move on one line",
        b"/;;;;\n",
        (0, 0),
        b"*",
        &[(4, 7), (5, 0)],
    ),
    Worked {
        restart: 1,
        ..reading(
            "DECISIONS, the restart column",
            b"/\"",
            (2, 2),
            b"",
            &[(1, 13)],
        )
    },
    Worked {
        room: 0,
        ..reading(
            "DECISIONS, 7 before 4",
            b"",
            (0, 0),
            b"/",
            &[(0, 7), (1, 4)],
        )
    },
    Worked {
        room: 1,
        restart: 3,
        ..reading(
            "DECISIONS, room below the kept rows",
            b"a b c",
            (5, 5),
            b"d",
            &[(3, 4)],
        )
    },
    reading(
        "DECISIONS, 2 behind the 7 of judging",
        b"\"",
        (0, 0),
        b"\x80",
        &[(1, 7), (2, 2)],
    ),
    reading(
        "DECISIONS, 2 before the other 7",
        "\u{e9}\u{1f600}".as_bytes(),
        (0, 1),
        b"\"",
        &[(4, 7), (5, 2), (6, 2)],
    ),
    reading(
        "DECISIONS, three bytes past the new ones are short",
        "\u{1f600}".as_bytes(),
        (0, 0),
        b"",
        &[(3, 7), (4, 11)],
    ),
    reading(
        "DECISIONS, the four bytes stand behind the new ones",
        "\u{20ac}".as_bytes(),
        (0, 0),
        b"*/",
        &[(4, 7), (5, 11)],
    ),
    reading(
        "DECISIONS, ASCII texts need the four bytes too",
        b"\"\"",
        (0, 0),
        b"",
        &[(1, 7), (2, 0)],
    ),
    reading(
        "DECISIONS, the text's end excuses",
        b"",
        (0, 0),
        b"",
        &[(0, 0)],
    ),
    reading(
        "DECISIONS, a character that the window's end cuts",
        "\"\u{1f600}".as_bytes(),
        (0, 0),
        b"",
        &[(4, 7), (5, 13)],
    ),
    reading(
        "DECISIONS, a character that the text's end cuts",
        b"",
        (0, 0),
        b"\xC3",
        &[(1, 2)],
    ),
    reading(
        "DECISIONS, 2 at the start of the broken character",
        b"\"",
        (0, 0),
        b"\xC3",
        &[(2, 2)],
    ),
    reading(
        "DECISIONS, 11 is decided by a character's first byte",
        "\n\u{1f600}".as_bytes(),
        (0, 0),
        b"",
        &[(4, 11), (5, 11)],
    ),
    reading(
        "LANGUAGE, a character typed into a comment",
        "/*\u{b0}*/a".as_bytes(),
        (2, 2),
        "\u{3b1}".as_bytes(),
        &[(7, 7), (8, 7), (9, 0)],
    ),
];

impl Worked {
    pub fn edit(&self) -> Edit {
        Edit::of(Kind::Worked, self.old, self.a, self.b, self.new_bytes)
    }
}

/// The cases with their calls. What is expected of them must be what the paper says.
pub fn edits() -> Vec<(Asked, Vec<Call>)> {
    WORKED.iter().map(with_calls).collect()
}

fn with_calls(case: &Worked) -> (Asked, Vec<Call>) {
    let asked = Asked::new(case.edit());
    assert_eq!(asked.restart()[..2], [0, case.restart], "{}", case.source);
    let calls = case.windows.iter().map(|&(size, number)| {
        let call = asked.call(case.restart, size, case.room * 8);
        assert_eq!(call.told[0], number, "{}", case.source);
        call
    });
    let calls = calls.collect();
    (asked, calls)
}
