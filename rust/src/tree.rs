//! A text's tree: nodes, children before their parent, and the ways between a node, its parent and its children.

use crate::lent::{MISSING, NODE_WORDS};
use crate::sets::ProgramKind;
use std::fmt;
use std::iter::FusedIterator;

/// An operator with two sides.
#[derive(Debug, Clone, Copy, PartialEq, Eq, Hash)]
pub enum Operator {
    /// `+`.
    Add,
    /// `-`.
    Sub,
    /// `*`.
    Mul,
    /// `/`.
    Div,
    /// `%`.
    Mod,
    /// `<<`.
    Shl,
    /// `>>`.
    Shr,
}

/// A type of fixed size.
#[derive(Debug, Clone, Copy, PartialEq, Eq, Hash)]
pub enum Type {
    /// `u32`: unsigned, 32 bits.
    U32,
    /// `u64`: unsigned, 64 bits.
    U64,
    /// `i32`: signed, 32 bits.
    I32,
    /// `i64`: signed, 64 bits.
    I64,
}

/// A map's type.
#[derive(Debug, Clone, Copy, PartialEq, Eq, Hash)]
pub enum MapType {
    /// `.hash`.
    Hash,
    /// `.array`.
    Array,
    /// `.ringbuf`.
    Ringbuf,
    /// `.lru_hash`.
    LruHash,
    /// `.prog_array`.
    ProgArray,
}

/// The type of an event's field.
#[derive(Debug, Clone, Copy, PartialEq, Eq, Hash)]
pub enum FieldType {
    /// One value of a type.
    Plain(Type),
    /// `bytes[length]`.
    Bytes(u32),
    /// `type[length]`.
    Array(Type, u32),
}

/// What a node is, with its facts. A later version may have more kinds.
#[derive(Debug, Clone, Copy, PartialEq, Eq, Hash)]
#[non_exhaustive]
pub enum NodeKind {
    /// A variable, by its name.
    Variable,
    /// A number with its value.
    Number(i64),
    /// `*` and what it is of. Child: the operand.
    Dereference,
    /// An operator. Children: the left side and the right side.
    Binary(Operator),
    /// A method that is called; the name is the method's. Children: the receiver, then the arguments.
    Call,
    /// A field; the name is the field's. Child: what it is of.
    Field,
    /// An expression that is a statement. Child: the expression.
    Expression,
    /// `=`. Children: the left side and the right side.
    Assign,
    /// `+=`. Children: the left side and the right side.
    AddAssign,
    /// `reg`. Child: the value.
    Reg,
    /// `imm`. Child: the value.
    Imm,
    /// `heap`. Child: the value.
    Heap,
    /// `return`. Child: the value.
    Return,
    /// Children: the guard's variable, then, and else if there is one.
    If,
    /// What is done if the guard holds. Children: the statements.
    Then,
    /// What is done if the guard does not hold. Children: the statements.
    Else,
    /// `section`; the name is its string.
    Section,
    /// `license`; the name is its string.
    License,
    /// A unit. Children: statements, sections and licences in the text's order.
    #[non_exhaustive]
    Unit {
        /// What the first section makes of it.
        kind: ProgramKind,
        /// The row of the last licence's string.
        license: Option<usize>,
    },
    /// A field of an event, with its type.
    EventField(FieldType),
    /// An event. Children: the fields.
    Event,
    /// A map.
    #[non_exhaustive]
    Map {
        /// Its type.
        map_type: MapType,
        /// The type of its keys, if it says one.
        key: Option<Type>,
        /// The type of its values, if it says one.
        value: Option<Type>,
        /// How many entries it has at most.
        max: u32,
    },
    /// All of the text. Children: maps, events and units in the text's order.
    Program,
    /// A kind, or facts, that this version has no name for. The library of this version makes none.
    Other,
}

/// A node. Place and name are row numbers. A later version may tell more of it.
#[derive(Debug, Clone, Copy, PartialEq, Eq, Hash)]
#[non_exhaustive]
pub struct Node {
    /// What it is, with its facts.
    pub kind: NodeKind,
    /// The row at which it stands; `docs/LANGUAGE.md` 5.2 says which by its kind.
    pub place: usize,
    /// The row of its name, if its kind has one; [`crate::Document::name`] spells it.
    pub name: Option<usize>,
    /// How many children it has.
    pub children: usize,
}

/// A program's nodes. Children precede their parent, in text order; the program itself is last. A node is known by its index among them.
#[derive(Debug, Clone, PartialEq, Eq)]
pub struct Tree {
    nodes: Vec<Node>,
    links: Vec<Link>,
}

/// What leads from a node to others. An index that is not there is [`NOWHERE`].
#[derive(Debug, Clone, Copy, PartialEq, Eq)]
struct Link {
    /// Where the node's part of the list begins; the part ends with the node itself.
    begin: usize,
    parent: usize,
    /// The first child.
    first: usize,
    /// The parent's next child.
    next: usize,
}

const NOWHERE: usize = usize::MAX;

/// The children of a node in the text's order.
#[derive(Debug, Clone)]
pub struct Children<'a> {
    tree: &'a Tree,
    /// The next one from the front.
    front: usize,
    /// One more than the next one from the back.
    end: usize,
    left: usize,
}

impl Operator {
    #[inline]
    fn from_node_number(number: u32) -> Option<Operator> {
        Some(match number {
            4 => Operator::Add,
            5 => Operator::Sub,
            6 => Operator::Mul,
            7 => Operator::Div,
            8 => Operator::Mod,
            9 => Operator::Shl,
            10 => Operator::Shr,
            _ => return None,
        })
    }

    fn node_number(self) -> u32 {
        match self {
            Operator::Add => 4,
            Operator::Sub => 5,
            Operator::Mul => 6,
            Operator::Div => 7,
            Operator::Mod => 8,
            Operator::Shl => 9,
            Operator::Shr => 10,
        }
    }

    /// The operator's sign.
    pub fn sign(self) -> &'static str {
        match self {
            Operator::Add => "+",
            Operator::Sub => "-",
            Operator::Mul => "*",
            Operator::Div => "/",
            Operator::Mod => "%",
            Operator::Shl => "<<",
            Operator::Shr => ">>",
        }
    }
}

impl Type {
    #[inline]
    fn from_number(number: u32) -> Option<Type> {
        Some(match number {
            1 => Type::U32,
            2 => Type::U64,
            3 => Type::I32,
            4 => Type::I64,
            _ => return None,
        })
    }

    /// The type's word in the language.
    pub fn word(self) -> &'static str {
        match self {
            Type::U32 => "u32",
            Type::U64 => "u64",
            Type::I32 => "i32",
            Type::I64 => "i64",
        }
    }
}

impl MapType {
    #[inline]
    fn from_number(number: u32) -> Option<MapType> {
        Some(match number {
            1 => MapType::Hash,
            2 => MapType::Array,
            3 => MapType::Ringbuf,
            4 => MapType::LruHash,
            5 => MapType::ProgArray,
            _ => return None,
        })
    }

    /// The type's word in the language.
    pub fn word(self) -> &'static str {
        match self {
            MapType::Hash => "hash",
            MapType::Array => "array",
            MapType::Ringbuf => "ringbuf",
            MapType::LruHash => "lru_hash",
            MapType::ProgArray => "prog_array",
        }
    }
}

impl FieldType {
    #[inline]
    fn from_facts([shape, element, length, _]: [u32; 4]) -> Option<FieldType> {
        Some(match shape {
            1 => FieldType::Plain(Type::from_number(element)?),
            2 => FieldType::Bytes(length),
            3 => FieldType::Array(Type::from_number(element)?, length),
            _ => return None,
        })
    }
}

fn row_or_none(word: u32) -> Option<usize> {
    (word != MISSING).then_some(word as usize)
}

impl NodeKind {
    /// The kind with this number and these facts, as [`crate::lent::parse`] writes them.
    #[inline]
    pub fn from_words(number: u32, facts: [u32; 4]) -> Option<NodeKind> {
        let [a, b, c, d] = facts;
        Some(match number {
            1 => NodeKind::Variable,
            2 => NodeKind::Number((u64::from(b) << 32 | u64::from(a)) as i64),
            3 => NodeKind::Dereference,
            4..=10 => NodeKind::Binary(Operator::from_node_number(number)?),
            11 => NodeKind::Call,
            12 => NodeKind::Field,
            13 => NodeKind::Expression,
            14 => NodeKind::Assign,
            15 => NodeKind::AddAssign,
            16 => NodeKind::Reg,
            17 => NodeKind::Imm,
            18 => NodeKind::Heap,
            19 => NodeKind::Return,
            20 => NodeKind::If,
            21 => NodeKind::Then,
            22 => NodeKind::Else,
            23 => NodeKind::Section,
            24 => NodeKind::License,
            25 => NodeKind::Unit {
                kind: ProgramKind::from_number(a)?,
                license: row_or_none(b),
            },
            26 => NodeKind::EventField(FieldType::from_facts(facts)?),
            27 => NodeKind::Event,
            28 => NodeKind::Map {
                map_type: MapType::from_number(a)?,
                key: Type::from_number(b),
                value: Type::from_number(c),
                max: d,
            },
            29 => NodeKind::Program,
            _ => return None,
        })
    }

    /// The kind's number, 1 to 29; 4294967295 for [`NodeKind::Other`].
    pub fn number(self) -> u32 {
        match self {
            NodeKind::Variable => 1,
            NodeKind::Number(_) => 2,
            NodeKind::Dereference => 3,
            NodeKind::Binary(operator) => operator.node_number(),
            NodeKind::Call => 11,
            NodeKind::Field => 12,
            NodeKind::Expression => 13,
            NodeKind::Assign => 14,
            NodeKind::AddAssign => 15,
            NodeKind::Reg => 16,
            NodeKind::Imm => 17,
            NodeKind::Heap => 18,
            NodeKind::Return => 19,
            NodeKind::If => 20,
            NodeKind::Then => 21,
            NodeKind::Else => 22,
            NodeKind::Section => 23,
            NodeKind::License => 24,
            NodeKind::Unit { .. } => 25,
            NodeKind::EventField(_) => 26,
            NodeKind::Event => 27,
            NodeKind::Map { .. } => 28,
            NodeKind::Program => 29,
            NodeKind::Other => u32::MAX,
        }
    }
}

impl Node {
    #[inline]
    fn from_words(words: &[u32; NODE_WORDS]) -> Node {
        let [kind, place, name, children, a, b, c, d] = *words;
        Node {
            kind: NodeKind::from_words(kind, [a, b, c, d]).unwrap_or(NodeKind::Other),
            place: place as usize,
            name: row_or_none(name),
            children: children as usize,
        }
    }
}

impl Tree {
    /// The tree of nodes that the library wrote: whole nodes, the program last. Of words that are no tree a node has the
    /// children that are there.
    pub(crate) fn from_words(words: &[u32]) -> Tree {
        let mut nodes: Vec<Node> = words.as_chunks().0.iter().map(Node::from_words).collect();
        let mut links: Vec<Link> = Vec::with_capacity(nodes.len());
        for (index, node) in nodes.iter_mut().enumerate() {
            let (found, link) = linked(&mut links, index, node.children);
            node.children = found;
            links.push(link);
        }
        Tree { nodes, links }
    }

    /// How many nodes there are; a program has at least one.
    #[allow(clippy::len_without_is_empty)]
    pub fn len(&self) -> usize {
        self.nodes.len()
    }

    /// Every node, children before their parent.
    pub fn nodes(&self) -> &[Node] {
        &self.nodes
    }

    /// The program's index, which is the last.
    pub fn root(&self) -> usize {
        self.nodes.len().saturating_sub(1)
    }

    /// The node with this index.
    pub fn node(&self, index: usize) -> Option<&Node> {
        self.nodes.get(index)
    }

    /// The indices of a node's children, in text order; none for an index that no node has. Nothing is allocated.
    pub fn children(&self, index: usize) -> Children<'_> {
        Children {
            tree: self,
            front: self.links.get(index).map_or(NOWHERE, |link| link.first),
            end: index,
            left: self.nodes.get(index).map_or(0, |node| node.children),
        }
    }

    /// The index of the node whose child this one is; none for the program and for an index that no node has.
    pub fn parent(&self, index: usize) -> Option<usize> {
        let parent = self.links.get(index)?.parent;
        (parent != NOWHERE).then_some(parent)
    }
}

/// The links of the next node, which has so many children, of which as many are found as are there. They get their parent and order.
fn linked(links: &mut [Link], index: usize, children: usize) -> (usize, Link) {
    let mut link = Link {
        begin: index,
        parent: NOWHERE,
        first: NOWHERE,
        next: NOWHERE,
    };
    let mut found = 0;
    while found < children && link.begin > 0 {
        let child = link.begin - 1;
        links[child].parent = index;
        links[child].next = link.first;
        link.first = child;
        link.begin = links[child].begin;
        found += 1;
    }
    (found, link)
}

impl Iterator for Children<'_> {
    type Item = usize;

    fn next(&mut self) -> Option<usize> {
        self.left = self.left.checked_sub(1)?;
        let child = self.front;
        self.front = self.tree.links.get(child)?.next;
        Some(child)
    }

    fn size_hint(&self) -> (usize, Option<usize>) {
        (self.left, Some(self.left))
    }
}

impl DoubleEndedIterator for Children<'_> {
    fn next_back(&mut self) -> Option<usize> {
        self.left = self.left.checked_sub(1)?;
        let child = self.end.checked_sub(1)?;
        self.end = self.tree.links.get(child)?.begin;
        Some(child)
    }
}

impl ExactSizeIterator for Children<'_> {}

impl FusedIterator for Children<'_> {}

/// The operator's sign.
impl fmt::Display for Operator {
    fn fmt(&self, out: &mut fmt::Formatter<'_>) -> fmt::Result {
        out.write_str(self.sign())
    }
}

/// The type's word in the language.
impl fmt::Display for Type {
    fn fmt(&self, out: &mut fmt::Formatter<'_>) -> fmt::Result {
        out.write_str(self.word())
    }
}

/// The type's word in the language.
impl fmt::Display for MapType {
    fn fmt(&self, out: &mut fmt::Formatter<'_>) -> fmt::Result {
        out.write_str(self.word())
    }
}

/// The type as it is written: `u64`, `bytes[16]`, `i32[7]`.
impl fmt::Display for FieldType {
    fn fmt(&self, out: &mut fmt::Formatter<'_>) -> fmt::Result {
        match self {
            FieldType::Plain(element) => element.fmt(out),
            FieldType::Bytes(length) => write!(out, "bytes[{length}]"),
            FieldType::Array(element, length) => write!(out, "{element}[{length}]"),
        }
    }
}

/// What a person calls the node, with its facts and without its name: `number -1`, `operator +`, `map: hash, key u32, value u64, max 16`.
impl fmt::Display for NodeKind {
    fn fmt(&self, out: &mut fmt::Formatter<'_>) -> fmt::Result {
        match self {
            NodeKind::Number(value) => write!(out, "number {value}"),
            NodeKind::Binary(operator) => write!(out, "operator {operator}"),
            NodeKind::Unit { kind, .. } => write!(out, "unit: kind {kind}"),
            NodeKind::EventField(field) => write!(out, "event field: {field}"),
            NodeKind::Map {
                map_type,
                key,
                value,
                max,
            } => {
                let word = |given: &Option<Type>| given.map_or("none", Type::word);
                let (key, value) = (word(key), word(value));
                write!(out, "map: {map_type}, key {key}, value {value}, max {max}")
            }
            plain => out.write_str(plain.word()),
        }
    }
}

impl NodeKind {
    /// What a person calls the kind, without its facts.
    fn word(self) -> &'static str {
        match self {
            NodeKind::Variable => "variable",
            NodeKind::Number(_) => "number",
            NodeKind::Dereference => "dereference",
            NodeKind::Binary(_) => "operator",
            NodeKind::Call => "call",
            NodeKind::Field => "field",
            NodeKind::Expression => "expression",
            NodeKind::Assign => "assign =",
            NodeKind::AddAssign => "assign +=",
            NodeKind::Reg => "reg",
            NodeKind::Imm => "imm",
            NodeKind::Heap => "heap",
            NodeKind::Return => "return",
            NodeKind::If => "if guard",
            NodeKind::Then => "then",
            NodeKind::Else => "else",
            NodeKind::Section => "section",
            NodeKind::License => "license",
            NodeKind::Unit { .. } => "unit",
            NodeKind::EventField(_) => "event field",
            NodeKind::Event => "event",
            NodeKind::Map { .. } => "map",
            NodeKind::Program => "program",
            NodeKind::Other => "another node",
        }
    }
}

#[cfg(test)]
mod tests {
    use super::*;

    fn children(tree: &Tree, index: usize) -> Vec<usize> {
        tree.children(index).collect()
    }

    #[test]
    fn children_are_found_behind_each_other() {
        let m = MISSING;
        let words: Vec<u32> = [
            [1, 3, 3, 0, 0, 0, 0, 0],
            [2, 5, m, 0, m, m, 0, 0],
            [15, 3, m, 2, 0, 0, 0, 0],
            [25, 0, 1, 1, 10, m, 0, 0],
            [29, 8, m, 1, 0, 0, 0, 0],
        ]
        .concat();
        let tree = Tree::from_words(&words);
        assert_eq!(tree.len(), 5);
        assert_eq!(children(&tree, tree.root()), [3]);
        assert_eq!(tree.parent(tree.root()), None);
        let parents: Vec<Option<usize>> = (0..6).map(|index| tree.parent(index)).collect();
        assert_eq!(parents, [Some(2), Some(2), Some(3), Some(4), None, None]);
        assert!(tree.children(2).rev().eq([1, 0]));
        let mut both = tree.children(2);
        assert_eq!(
            (both.len(), both.next_back(), both.next()),
            (2, Some(1), Some(0))
        );
        assert_eq!((both.next(), both.next_back()), (None, None));
        assert_eq!(children(&tree, 3), [2]);
        assert_eq!(children(&tree, 2), [0, 1]);
        assert_eq!(children(&tree, 0), []);
        assert_eq!(children(&tree, 99), []);
        assert_eq!(tree.nodes()[1].kind, NodeKind::Number(-1));
        let numbers: Vec<u32> = tree.nodes().iter().map(|node| node.kind.number()).collect();
        assert_eq!(numbers, [1, 2, 15, 25, 29]);
        assert_eq!(
            tree.nodes()[3].kind,
            NodeKind::Unit {
                kind: ProgramKind::Unknown,
                license: None
            }
        );
    }

    #[test]
    fn words_that_are_no_tree_are_read() {
        let m = MISSING;
        let nothing = Tree::from_words(&[]);
        assert_eq!((nothing.len(), nothing.root()), (0, 0));
        assert_eq!(children(&nothing, 0), []);
        let words: Vec<u32> = [
            [11, m, m, m, 0, 0, 0, 0],
            [30, 0, 0, 1, 0, 0, 0, 0],
            [28, 0, 0, 2, 6, 0, 0, 0],
            [0, 0, 0, m, m, m, m, m],
        ]
        .concat();
        let tree = Tree::from_words(&words[..31]);
        assert_eq!(tree.len(), 3);
        let tree = Tree::from_words(&words);
        let kinds: Vec<NodeKind> = tree.nodes().iter().map(|node| node.kind).collect();
        assert_eq!(
            kinds,
            [
                NodeKind::Call,
                NodeKind::Other,
                NodeKind::Other,
                NodeKind::Other
            ]
        );
        assert_eq!(children(&tree, 0), []);
        assert_eq!(children(&tree, 1), [0]);
        assert_eq!(children(&tree, 2), [1]);
        assert_eq!(children(&tree, 3), [2]);
        assert_eq!(children(&tree, usize::MAX), []);
    }
}
