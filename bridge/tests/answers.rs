//! Errors as the compiler tells its own, and an answer for every document.

use bridge::parser::SourceLoc;
use bridge::{error, errors, program};
use compare::generate::damage;
use compare::generate::random::Random;
use compare::generate::{programs, soup};
use spoonharbor::{Document, Table};

#[test]
fn a_refusal_is_an_error_with_its_number_and_place() {
    let document = Document::open("unit u {\n  reg now = 1\n  return 0;\n}\n").unwrap();
    let refusal = program(&document).unwrap_err();
    assert_eq!(refusal, document.tree().unwrap_err());
    let (loc, message) = error(&refusal);
    assert_eq!(loc, SourceLoc::new(3, 3, 25));
    assert!(
        message.starts_with("error[21]: expected ';', "),
        "{message}"
    );
    assert!(message.ends_with(", found 'return'"), "{message}");
}

/// Every problem is told where its fault is, as `Diagnostic` has it.
#[test]
fn all_errors_of_a_text_are_told() {
    let text = b"unit a {\n x = 1\n}\nunit b {\n y = 2 @ 3;\n}\n";
    let told = [
        (
            SourceLoc::new(2, 7, 15),
            "error[21]: expected ';' after this".to_string(),
        ),
        (
            SourceLoc::new(5, 8, 34),
            "error[11]: nothing begins with '@'".to_string(),
        ),
    ];
    assert_eq!(errors(text), told);
    assert_eq!(errors(b"unit u{ section \"nothing\"; }"), []);
    let (loc, message) = &errors(b"unit\n\xff")[0];
    assert_eq!((loc.line, loc.column, loc.offset), (2, 1, 5));
    assert!(message.starts_with("error[2]: "), "{message}");
    let too_long = vec![b' '; 65_537];
    assert!(errors(&too_long)[0].1.starts_with("error[1]: "));
}

/// A text has errors exactly if it has no tree.
#[test]
fn what_has_no_tree_has_errors() {
    let mut random = Random::new(3);
    for _ in 0..1_000 {
        let text = damage::text(&mut random, 30);
        let made = Document::open(text.as_slice()).and_then(|document| program(&document));
        assert_eq!(
            made.is_err(),
            !errors(&text).is_empty(),
            "{}",
            text.escape_ascii()
        );
    }
}

/// A tree follows the text's changes.
#[test]
fn a_changed_document_has_the_tree_of_its_text() {
    let mut document = Document::open("unit u { return 0; }").unwrap();
    assert!(program(&document).is_ok());
    document.replace(16..17, "ctx.load_u64(8)").unwrap();
    let fresh = Document::open(document.text()).unwrap();
    let trees = [&document, &fresh].map(|document| format!("{:?}", program(document).unwrap()));
    assert_eq!(trees[0], trees[1]);
    document.replace(0..4, "").unwrap();
    assert_eq!(program(&document).unwrap_err().number(), 22);
}

/// With a stored table of another text of the same length there is an answer too: that table's tree, or a refusal.
#[test]
fn tables_of_other_texts_are_answered() {
    let mut random = Random::new(4);
    let (mut trees, mut refusals) = (0, 0);
    for _ in 0..2_000 {
        let own = programs::text(&mut random, 30);
        let mut other = soup::text(&mut random, 60);
        other.resize(own.len(), b'"');
        let table: Table = Document::open(own).unwrap().table().clone();
        let Ok(document) = Document::open_with(other, table) else {
            continue;
        };
        match program(&document) {
            Ok(_) => trees += 1,
            Err(_) => refusals += 1,
        }
    }
    assert!(trees > 200 && refusals > 200, "{trees} {refusals}");
}
