//! What `replay_files` writes of the stored tables where all that is expected of them holds.

use super::damage::Damage;
use super::Case;

/// What the program calls the damages.
const DAMAGES: [(Damage, &str); 7] = [
    (Damage::Sound, "sound"),
    (Damage::Byte, "one byte changed"),
    (Damage::Sealed, "one byte changed, its check made right"),
    (Damage::Swapped, "two blocks swapped"),
    (Damage::Cut, "cut"),
    (Damage::Longer, "a block or bytes too many"),
    (
        Damage::Said,
        "block 0 says something else, its check made right",
    ),
];

/// Numbers that a call may be answered with.
const NUMBERS: [u32; 14] = [0, 3, 4, 11, 12, 13, 14, 15, 16, 17, 41, 42, 43, 44];

/// The program's lines.
pub fn report(cases: &[Case]) -> String {
    let line = |what: &str, count: usize| format!("{what}{count}, agreed {count}\n");
    let stores = || cases.iter().flat_map(|case| &case.stores);
    let loads = || cases.iter().flat_map(|case| &case.loads);
    let mut report = format!(
        "tables {0} of {0}\nbytes behind the last table 0\n",
        cases.len()
    );
    report += &line("stores ", stores().count());
    report += &line("loads ", loads().count());
    report += &line(
        "blocks ",
        stores().map(|store| store.told[6] as usize).sum(),
    );
    report += &line("rows ", loads().map(|load| load.told[6] as usize).sum());
    for (damage, name) in DAMAGES {
        let count = loads().filter(|load| load.damage == damage).count();
        report += &line(&format!("{name}: "), count);
    }
    for number in NUMBERS {
        let told = stores().map(|store| store.told);
        let told = told.chain(loads().map(|load| load.told));
        let count = told.filter(|told| told[0] == number).count();
        report += &line(&format!("expected {number}: "), count);
    }
    report + "differences 0\n"
}
