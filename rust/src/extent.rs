//! Which rows belong to each node of a tree: from its first row to its last.
//!
//! The library's nodes have a place and a name. What else belongs to a node follows from the grammar: the signs and words around its
//! children, and the parentheses around those, which leave no node.

use crate::kind::Kind;
use crate::row::Row;
use crate::tree::{FieldType, Node, NodeKind, Tree};

/// The first and the last row of something.
#[derive(Debug, Clone, Copy, PartialEq, Eq)]
pub struct Extent {
    pub first: usize,
    pub last: usize,
}

/// The extent of each node of a tree, by the rows that it was made of.
pub fn extents(tree: &Tree, rows: &[Row]) -> Vec<Extent> {
    let mut found = Extents {
        tree,
        rows,
        known: Vec::with_capacity(tree.len()),
    };
    for (index, node) in tree.nodes().iter().enumerate() {
        let extent = found.of(index, node);
        found.known.push(extent);
    }
    found.known
}

struct Extents<'a> {
    tree: &'a Tree,
    rows: &'a [Row],
    /// The extents of the nodes in front, and so of every child.
    known: Vec<Extent>,
}

impl Extents<'_> {
    fn of(&self, index: usize, node: &Node) -> Extent {
        let place = node.place;
        let before = place.saturating_sub(1);
        let (first, last) = match node.kind {
            NodeKind::Variable | NodeKind::Number(_) | NodeKind::Other => (place, place),
            NodeKind::Dereference => {
                let (first, last) = self.sides(index, place);
                (first.saturating_sub(1), last)
            }
            NodeKind::Binary(_) => self.sides(index, place),
            NodeKind::Call => (self.sides(index, place).0, self.call_end(index, node)),
            NodeKind::Field => (self.sides(index, place).0, node.name.unwrap_or(place)),
            NodeKind::Expression | NodeKind::Assign | NodeKind::AddAssign => {
                let (first, last) = self.sides(index, place);
                (first, last + 1)
            }
            NodeKind::Reg | NodeKind::Imm | NodeKind::Heap | NodeKind::Return => {
                (before, self.sides(index, place).1 + 1)
            }
            NodeKind::If => (before, self.last_child(index).map_or(place, |it| it.last)),
            NodeKind::Then => (place, self.closing(index, place + 1)),
            NodeKind::Else => (before, self.closing(index, place + 1)),
            NodeKind::Section | NodeKind::License => (before, place + 1),
            NodeKind::Unit { .. } => (place, self.closing(index, place + 3)),
            NodeKind::EventField(FieldType::Plain(_)) => (place, place + 3),
            NodeKind::EventField(_) => (place, place + 6),
            NodeKind::Event => (before, self.closing(index, place + 2)),
            NodeKind::Map { .. } => (before, self.next_brace(place)),
            NodeKind::Program => (0, place),
        };
        let most = self.rows.len().saturating_sub(1);
        Extent {
            first: first.min(most),
            last: last.clamp(first.min(most), most),
        }
    }

    /// From the first row of the first child to the last row of the last, with the parentheses around each.
    fn sides(&self, index: usize, place: usize) -> (usize, usize) {
        let mut children = self.tree.children(index);
        let first = children.next().map(|child| self.grouped(child));
        let last = children.next_back().map(|child| self.grouped(child));
        match (first, last.or(first)) {
            (Some(first), Some(last)) => (first.first, last.last),
            _ => (place, place),
        }
    }

    /// A call's `)`: behind its last argument, or else behind the `(` that follows its name.
    fn call_end(&self, index: usize, node: &Node) -> usize {
        match self.tree.children(index).len() {
            0 | 1 => node.name.unwrap_or(node.place) + 2,
            _ => self.sides(index, node.place).1 + 1,
        }
    }

    /// The `}` behind the last child, or without one at `empty`.
    fn closing(&self, index: usize, empty: usize) -> usize {
        self.last_child(index).map_or(empty, |child| child.last + 1)
    }

    fn last_child(&self, index: usize) -> Option<Extent> {
        let child = self.tree.children(index).next_back()?;
        self.known.get(child).copied()
    }

    /// The next `}`: a map has no other.
    fn next_brace(&self, from: usize) -> usize {
        let behind = self.rows.iter().skip(from);
        from + behind.take_while(|row| row.kind != Kind::RBrace).count()
    }

    /// An operand with the parentheses around it. Those of a call stand behind its name, and those of a guard behind that word.
    fn grouped(&self, child: usize) -> Extent {
        let mut extent = self
            .known
            .get(child)
            .copied()
            .unwrap_or(Extent { first: 0, last: 0 });
        while let Some(open) = extent.first.checked_sub(1) {
            let leads = open.checked_sub(1).and_then(|row| self.kind(row));
            let is_group = self.kind(open) == Some(Kind::LParen)
                && self.kind(extent.last + 1) == Some(Kind::RParen)
                && !matches!(leads, Some(Kind::Identifier | Kind::KeywordGuard));
            if !is_group {
                break;
            }
            extent = Extent {
                first: open,
                last: extent.last + 1,
            };
        }
        extent
    }

    fn kind(&self, row: usize) -> Option<Kind> {
        self.rows.get(row).map(|row| row.kind)
    }
}
