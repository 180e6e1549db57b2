//! `spoonharbor tree`: a line for each node below its parent, indented, with names spelt.

use super::columns::shown;
use spoonharbor::{Document, Node, NodeKind, Refusal, Row, Type};
use std::io::{self, Write};

/// Deeper nodes are indented no further and have their depth before them, so that a long chain of operators stays readable
/// and the output short.
const MOST_INDENTED: usize = 40;

/// Prints the tree, or gives back why there is none.
pub fn print(document: &Document, out: &mut impl Write) -> io::Result<Result<(), Refusal>> {
    let tree = match document.tree() {
        Ok(tree) => tree,
        Err(refusal) => return Ok(Err(refusal)),
    };
    let spelt = Spelt::new(document);
    let mut waiting = vec![(tree.root(), 0)];
    while let Some((index, depth)) = waiting.pop() {
        let Some(node) = tree.nodes().get(index) else {
            continue;
        };
        writeln!(out, "{}{}", indentation(depth), spelt.node(node))?;
        let children = tree.children(index).rev();
        waiting.extend(children.map(|child| (child, depth + 1)));
    }
    Ok(Ok(()))
}

fn indentation(depth: usize) -> String {
    match depth {
        0..=MOST_INDENTED => "  ".repeat(depth),
        _ => format!("{}[{depth}] ", "  ".repeat(MOST_INDENTED)),
    }
}

/// A document's rows as words and places.
struct Spelt<'a> {
    document: &'a Document,
    rows: Vec<Row>,
}

impl<'a> Spelt<'a> {
    fn new(document: &'a Document) -> Spelt<'a> {
        Spelt {
            document,
            rows: document.rows().collect(),
        }
    }

    /// The part of the text that a row spells, with a `?` for what would not show.
    fn row(&self, row: usize) -> String {
        shown(self.document.spelling(row).unwrap_or_default())
    }

    /// What the node is, its name and facts, and its place.
    fn node(&self, node: &Node) -> String {
        let name = node.name.map_or(String::new(), |row| self.row(row));
        let place = self.rows.get(node.place).map(Row::place);
        let place = place.map_or(String::new(), |at| format!("  {}:{}", at.line, at.column));
        format!("{}{place}", self.told(node, &name))
    }

    fn told(&self, node: &Node, name: &str) -> String {
        match node.kind {
            NodeKind::Variable => format!("variable {name}"),
            NodeKind::Number(value) => format!("number {value}"),
            NodeKind::Dereference => "dereference *".to_string(),
            NodeKind::Binary(operator) => format!("operator {}", operator.sign()),
            NodeKind::Call => format!("call .{name}()"),
            NodeKind::Field => format!("field .{name}"),
            NodeKind::Expression => "expression".to_string(),
            NodeKind::Assign => "assign =".to_string(),
            NodeKind::AddAssign => "assign +=".to_string(),
            NodeKind::Reg => format!("reg {name}"),
            NodeKind::Imm => format!("imm {name}"),
            NodeKind::Heap => format!("heap {name}"),
            NodeKind::Return => "return".to_string(),
            NodeKind::If => "if guard".to_string(),
            NodeKind::Then => "then".to_string(),
            NodeKind::Else => "else".to_string(),
            NodeKind::Section => format!("section {name}"),
            NodeKind::License => format!("license {name}"),
            NodeKind::Unit { kind, license, .. } => {
                let license = license.map_or("none".to_string(), |row| self.row(row));
                format!("unit {name}: kind {}, license {license}", kind.name())
            }
            NodeKind::EventField(field) => format!("{name}: {field}"),
            NodeKind::Event => format!("event {name}"),
            NodeKind::Map {
                map_type,
                key,
                value,
                max,
                ..
            } => {
                let word = |given: Option<Type>| given.map_or("none", Type::word);
                format!(
                    "map {name}: {}, key {}, value {}, max {max}",
                    map_type.word(),
                    word(key),
                    word(value)
                )
            }
            NodeKind::Program => "program".to_string(),
            _ => "another node".to_string(),
        }
    }
}
