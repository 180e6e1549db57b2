//! What `replay_edits` writes of the stored edits where all that is expected of them holds.

use super::{Call, Edits, Kind};

/// The kinds of edits, and what the program calls them.
const KINDS: [(Kind, &str); 11] = [
    (Kind::Worked, "worked cases"),
    (Kind::AtStart, "at the text's start"),
    (Kind::AtEnd, "at the text's end"),
    (Kind::InComment, "in a comment"),
    (Kind::InString, "in a string"),
    (Kind::Opening, "opening a comment or string"),
    (Kind::Closing, "closing a comment or string"),
    (Kind::OldRefused, "in a text that ends in a refusal"),
    (Kind::Anywhere, "anywhere"),
    (Kind::Outside, "with numbers or bytes that no text allows"),
    (Kind::Damaged, "of a damaged table"),
];

/// Numbers that a call may be answered with.
const NUMBERS: [u32; 14] = [0, 1, 2, 3, 4, 6, 7, 11, 12, 13, 14, 15, 16, 17];

/// A call that writes rows is made as a change too.
fn writes(call: &Call) -> bool {
    matches!(call.told[0], 0 | 4 | 11..)
}

/// The program's lines.
pub fn report(edits: &Edits) -> String {
    let calls = || edits.iter().flat_map(|(_, calls)| calls);
    let line = |what: &str, count: usize| format!("{what}{count}, agreed {count}\n");
    let changes = calls().filter(|call| writes(call)).count();
    let rows: u32 = calls()
        .map(|call| call.told[4] * (1 + u32::from(writes(call))))
        .sum();
    let mut report = format!(
        "edits {0} of {0}\nbytes behind the last edit 0\n",
        edits.len()
    );
    report += &line("restart places ", edits.len());
    report += &line("calls ", calls().count());
    report += &line("changes ", changes);
    report += &line("rows ", rows as usize);
    for (kind, name) in KINDS {
        let of_kind = edits.iter().filter(|(asked, _)| asked.edit.kind == kind);
        let count = of_kind.map(|(_, calls)| calls.len()).sum();
        report += &line(&format!("{name}: "), count);
    }
    for number in NUMBERS {
        let name = match number {
            0 => "expected all rows: ".to_string(),
            _ => format!("expected {number}: "),
        };
        let count = calls().filter(|call| call.told[0] == number).count();
        report += &line(&name, count);
    }
    report + "differences 0\n"
}
