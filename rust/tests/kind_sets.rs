//! What is said of each of the 42 sets of kinds that a refusal tells, and that the library tells them.

use compare::told_sets::TOLD_SETS;
use spoonharbor::{Document, Kind, KindSet, Reason, Refusal};

/// How each set is said, in the order of the sets.
#[rustfmt::skip]
const SAID: [&str; 42] = [
    "'unit', 'map', 'event' or end of file",
    "an identifier",
    "'{'",
    "'type', 'key', 'value', 'max' or '}'",
    "':'",
    "'.'",
    "a type",
    "a number",
    "';', '>>' or '<<'",
    "';'",
    "an identifier or '}'",
    "a type or 'bytes'",
    "';' or '['",
    "'['",
    "']'",
    "a statement, 'section', 'license' or '}'",
    "a statement, 'section', 'license', 'else' or '}'",
    "a statement or '}'",
    "a statement, 'else' or '}'",
    "a string",
    "'='",
    "'guard'",
    "'('",
    "')'",
    "an expression",
    "an expression or ')'",
    "';', '.', an operator, '=' or '+='",
    "';', '(', '.', an operator, '=' or '+='",
    "';', '.', an operator other than a shift, '=' or '+='",
    "';', '(', '.', an operator other than a shift, '=' or '+='",
    "';', '.' or an operator",
    "';', '(', '.' or an operator",
    "';', '.' or an operator other than a shift",
    "';', '(', '.' or an operator other than a shift",
    "')', '.' or an operator",
    "')', '(', '.' or an operator",
    "')', '.' or an operator other than a shift",
    "')', '(', '.' or an operator other than a shift",
    "',', ')', '.' or an operator",
    "',', ')', '(', '.' or an operator",
    "',', ')', '.' or an operator other than a shift",
    "',', ')', '(', '.' or an operator other than a shift",
];

#[test]
fn each_set_is_said_as_people_do() {
    for ((bits, _, _), said) in TOLD_SETS.into_iter().zip(SAID) {
        let set = KindSet::from_bits(bits);
        assert_eq!(set.bits(), bits, "{said}");
        assert_eq!(set.to_string(), said);
    }
}

/// Each kind of a set by itself, the last behind an `or`.
#[test]
fn each_kind_can_be_said_by_itself() {
    for (bits, _, _) in TOLD_SETS {
        let set = KindSet::from_bits(bits);
        let said = format!("{set:#}").replace(" or ", ", ");
        assert_eq!(said.replace("','", "comma").split(", ").count(), set.len());
        for kind in set {
            let said_alone = [kind].into_iter().collect::<KindSet>().to_string();
            assert!(said.contains(&said_alone), "{said}: {said_alone}");
        }
    }
}

fn refused(text: &str) -> Refusal {
    Document::open(text).unwrap().tree().unwrap_err()
}

#[test]
fn the_library_tells_each_set() {
    for (bits, number, texts) in TOLD_SETS {
        for text in texts {
            let refusal = refused(text);
            assert_eq!(refusal.number(), number, "{text}");
            let told = refusal.reason.fitting().map(KindSet::bits);
            assert_eq!(told, Some(bits), "{text}");
        }
    }
}

/// The kind that was found is in no set, but for 25, which tells the set of the row in front of its place.
#[test]
fn what_was_found_does_not_fit() {
    for text in TOLD_SETS.iter().flat_map(|(_, _, texts)| *texts) {
        let Refusal { reason, place, .. } = refused(text);
        let document = Document::open(*text).unwrap();
        let found = document.rows().find(|row| row.start == place.offset);
        let found = found.unwrap().kind;
        if let Reason::Wanted { found: told, .. } = reason {
            assert_eq!(told, found, "{text}");
        }
        if reason.number() != 25 {
            assert!(!reason.fitting().unwrap().contains(found), "{text}");
        }
    }
    let refusal = refused("map m{key:q u32;");
    assert!(refusal.reason.fitting().unwrap().contains(Kind::TypeU32));
    assert_eq!(refusal.place.offset, 12);
}
