//! What `replay_layouts` writes of the sample where all that is expected of it holds.

use super::{Call, Case, Forged};

/// What the program calls what is changed.
const FORGED: [(Forged, &str); 4] = [
    (Forged::Nothing, "nothing changed"),
    (Forged::Row, "a word of the rows"),
    (Forged::Node, "a word of the nodes"),
    (Forged::Count, "the node count"),
];

/// The program's lines.
pub fn report(cases: &[Case]) -> String {
    let calls: Vec<&Call> = cases.iter().flat_map(|case| &case.calls).collect();
    let count = |which: &dyn Fn(&Call) -> bool| calls.iter().filter(|call| which(call)).count();
    let mut report = format!(
        "cases {0} of {0}\nbytes behind the last case 0\n",
        cases.len()
    );
    for (forged, name) in FORGED {
        let held = count(&|call| call.forged == forged);
        report += &format!("{name}: {held}, agreed {held}\n");
    }
    for number in [0, 3, 4] {
        let held = count(&|call| call.number == number);
        report += &format!("expected {number}: {held}, agreed {held}\n");
    }
    report + "differences 0\n"
}
