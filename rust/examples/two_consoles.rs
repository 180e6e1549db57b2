//! Two people, one probe: each changes a part of it, and the changes reach two consoles in different orders.
//! `cargo run --release --offline --example two_consoles`.

use spoonharbor::{Conflict, Document, Edit, Refusal};

/// A console: the text as it is there, and the changes made there that the other console has not taken yet.
struct Console {
    document: Document,
    since: Vec<Edit>,
}

impl Console {
    fn open(text: &str) -> Result<Console, Refusal> {
        let document = Document::open(text)?;
        let since = Vec::new();
        Ok(Console { document, since })
    }

    /// Someone types here: the first `old` in the text becomes `new`. What is handed on is told in places of the text as it was.
    fn types(&mut self, old: &str, new: &str) -> Result<Edit, Refusal> {
        let start = self.document.text().find(old).expect("the text has it");
        let edit = Edit::new(start..start + old.len(), new);
        self.document.apply(&edit)?;
        self.since.push(edit.clone());
        Ok(edit)
    }

    /// Changes arrive from the other console, in the order in which they were made there.
    fn takes(&mut self, edits: &[Edit]) -> Result<(), Conflict> {
        for edit in edits {
            self.document.merge(&mut self.since, edit)?;
        }
        Ok(())
    }

    /// What a person at this console reads of it.
    fn told(&self, name: &str) -> String {
        let rows = self.document.rows().count();
        match self.document.tree() {
            Ok(tree) => format!("{name}: {rows} rows, {} nodes\n", tree.len()),
            Err(refusal) => format!("{name}: {rows} rows, refused {}\n", refusal.number()),
        }
    }
}

/// Two consoles open the probe. In the dome someone types the missing semicolon and makes the map larger; in the office someone else
/// writes a comment and changes the license. Each console takes what was typed at the other, and both have the same text, rows and tree.
/// Then both type at one place.
pub fn story() -> Result<String, Conflict> {
    let text = include_str!("encoder.snx");
    let mut dome = Console::open(text)?;
    let mut office = Console::open(text)?;

    let from_dome = [
        dome.types("ctx.load_u64(0)", "ctx.load_u64(0);")?,
        dome.types("1 << 10", "1 << 12")?,
    ];
    let from_office = [
        office.types("unit ", "/* ±0.1° */ unit ")?,
        office.types("\"GPL\"", "\"MIT\"")?,
    ];
    let mut said = dome.told("dome") + &office.told("office");

    dome.takes(&from_office)?;
    office.takes(&from_dome)?;
    assert_eq!(dome.document, office.document);
    said += &(dome.told("dome") + &office.told("office"));

    // Each has all of the other's now, so this text is the common one.
    dome.since.clear();
    office.since.clear();
    dome.types("1 << 12", "4096")?;
    let from_office = [office.types(" << 12", " << 14")?];
    match dome.takes(&from_office) {
        Err(conflict @ Conflict::Touching { .. }) => said += &format!("dome: {conflict}\n"),
        other => other?,
    }
    Ok(said)
}

fn main() -> Result<(), Conflict> {
    print!("{}", story()?);
    Ok(())
}
