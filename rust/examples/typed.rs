//! A probe without a semicolon, which is then typed: `cargo run --release --offline --example typed`.

use spoonharbor::{Document, Refusal};

/// What is told of a document: its rows, and its nodes or its refusal.
fn told(document: &Document) -> String {
    let rows = document.rows().count();
    match document.tree() {
        Ok(tree) => format!("{rows} rows, {} nodes\n", tree.len()),
        Err(refusal) => format!("{rows} rows, refused {}: {refusal}\n", refusal.number()),
    }
}

/// Opens the probe, types the semicolon, and makes the map larger.
pub fn story() -> Result<String, Refusal> {
    let text = include_str!("encoder.snx");
    let mut document = Document::open(text)?;
    let mut said = told(&document);

    let semicolon = text.find("\n    return").expect("the probe has a return");
    document.replace(semicolon..semicolon, ";")?;
    said += &told(&document);

    let size = text.find("1 << 10").expect("the map has a size");
    document.replace(size..size + 7, "1 << 12")?;
    assert!(document == Document::open(document.text())?);
    said += &told(&document);
    Ok(said)
}

fn main() -> Result<(), Refusal> {
    print!("{}", story()?);
    Ok(())
}
