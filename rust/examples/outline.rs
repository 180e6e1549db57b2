//! What a probe declares, with lines and names, as an editor's outline has it: `cargo run --offline --example outline`.

use spoonharbor::{Document, NodeKind, Refusal};

/// A line for each map, event and unit of a text.
pub fn outline(text: &str) -> Result<String, Refusal> {
    let document = Document::open(text)?;
    let tree = document.tree()?;
    let mut told = String::new();
    for index in tree.children(tree.root()) {
        let (Some(node), Some(span)) = (tree.node(index), document.node_span(index)) else {
            continue;
        };
        let first = document.position(span.start).map_or(0, |at| at.line);
        let last = document.position(span.end).map_or(0, |at| at.line);
        let name = document.name(node).unwrap_or_default();
        let kind: NodeKind = node.kind;
        told += &format!("{first}-{last} {name} ({kind})\n");
    }
    Ok(told)
}

fn main() -> Result<(), Refusal> {
    print!(
        "{}",
        outline(
            include_str!("encoder.snx")
                .replace("(0)\n", "(0);\n")
                .as_str()
        )?
    );
    Ok(())
}
