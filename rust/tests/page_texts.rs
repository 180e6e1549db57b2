//! The texts of the page and of the JavaScript module are what the crate's tables say.

#[allow(dead_code)]
#[path = "../examples/page_texts.rs"]
mod page_texts;

#[test]
fn the_texts_are_the_tables() {
    assert!(
        include_str!("../../web/src/texts.js") == page_texts::texts(),
        "write them anew: cargo run --offline --example page_texts > ../web/src/texts.js"
    );
}
