//! What `replay_forms` writes of the sample where all that is expected of it holds.

use super::{Call, Case, Kind};

/// What the program calls the kinds of calls.
const KINDS: [(Kind, &str); 3] = [
    (Kind::Load, "readings beside the text"),
    (Kind::Move, "moves"),
    (Kind::Mend, "mendings"),
];

/// The most that a call may be answered with.
const MOST_NUMBER: u32 = 45;

/// The program's lines.
pub fn report(cases: &[Case]) -> String {
    let calls: Vec<&Call> = cases.iter().flat_map(|case| &case.calls).collect();
    let count = |which: &dyn Fn(&Call) -> bool| calls.iter().filter(|call| which(call)).count();
    let mut report = format!(
        "cases {0} of {0}\nbytes behind the last case 0\n",
        cases.len()
    );
    for (kind, name) in KINDS {
        let agreed = count(&|call| call.kind == kind);
        report += &format!("{name}: agreed {agreed}\n");
    }
    for number in 0..=MOST_NUMBER {
        let agreed = count(&|call| call.told[0] == number);
        if agreed > 0 {
            report += &format!("expected {number}: agreed {agreed}\n");
        }
    }
    report + "differences 0\n"
}
