//! The original's tree as nodes of LANGUAGE.md, children before their parent.
//!
//! Words that the original's tree does not say are `None`:
//!
//! - the place of a then and an else (their `{`),
//! - the licence row of a unit that has a licence (the tree keeps the text only),
//! - the child count of a unit that has a licence (the tree keeps the last only).
//!
//! Nodes of sections and licences (23, 24) are left out: the tree says neither
//! their rows nor where they stand among the statements. Sections are in the
//! unit's child count.
//!
//! The tree keeps maps, events and units in three lists; each declaration is a
//! run of nodes of its own, and the runs are in the order of their places, which
//! is the order of the text.
//!
//! Two names have no place in the tree and are found among the rows: a unit's
//! name is the row behind its place, a call's method the row behind the first dot
//! behind its receiver. Their spellings must be the tree's.

use crate::ast::{
    AssignmentOp, BinOp, EventDecl, EventField, EventType, Expr, ExprKind, IfGuard, MapDecl,
    MapType, MethodCall, PrimitiveType, Program, Stmt, StmtKind, Type, Unit, VarType,
};
use crate::parser::{SourceLoc, Token, TokenKind};

/// A missing row.
pub const MISSING: u32 = u32::MAX;

/// A node word, or nothing where the original's tree does not say it.
pub type Word = Option<u32>;

/// A node of LANGUAGE.md.
#[derive(Debug, Clone, Copy, PartialEq, Eq)]
pub struct Node {
    pub kind: u32,
    pub place: Word,
    pub name: Word,
    pub children: Word,
    pub facts: [Word; 4],
}

impl Node {
    /// A node without name, children and facts.
    fn new(kind: u32, place: Word) -> Node {
        Node {
            kind,
            place,
            name: Some(MISSING),
            children: Some(0),
            facts: [Some(0); 4],
        }
    }

    fn named(self, row: u32) -> Node {
        Node {
            name: Some(row),
            ..self
        }
    }

    fn with_children(self, count: usize) -> Node {
        Node {
            children: Some(count as u32),
            ..self
        }
    }

    fn with_facts(self, facts: [u32; 4]) -> Node {
        Node {
            facts: facts.map(Some),
            ..self
        }
    }

    /// The eight words in their order.
    pub fn words(&self) -> [Word; 8] {
        let [a, b, c, d] = self.facts;
        [
            Some(self.kind),
            self.place,
            self.name,
            self.children,
            a,
            b,
            c,
            d,
        ]
    }
}

/// An accepted text: for each declaration its nodes, and the program node.
#[derive(Debug, Clone, PartialEq, Eq)]
pub struct Tree {
    pub declarations: Vec<Vec<Node>>,
    pub program: Node,
}

/// The nodes of an accepted program whose rows are those of `tokens`.
pub fn tree_of(program: &Program, tokens: &[Token]) -> Tree {
    let mut runs: Vec<(usize, Vec<Node>)> = Vec::new();
    for map in &program.maps {
        runs.push((map.loc.offset, run_of(tokens, |run| run.map(map))));
    }
    for event in &program.events {
        runs.push((event.loc.offset, run_of(tokens, |run| run.event(event))));
    }
    for unit in &program.units {
        runs.push((unit.loc.offset, run_of(tokens, |run| run.unit(unit))));
    }
    runs.sort_by_key(|(offset, _)| *offset);
    let eof = tokens.len() as u32 - 1;
    Tree {
        program: Node::new(29, Some(eof)).with_children(runs.len()),
        declarations: runs.into_iter().map(|(_, nodes)| nodes).collect(),
    }
}

/// The row that starts at `offset`.
pub fn row_at(tokens: &[Token], offset: usize) -> usize {
    tokens
        .binary_search_by_key(&offset, |token| token.loc.offset)
        .expect("the original's places are starts of rows")
}

fn run_of(tokens: &[Token], write: impl FnOnce(&mut Run)) -> Vec<Node> {
    let mut run = Run {
        tokens,
        nodes: Vec::new(),
    };
    write(&mut run);
    run.nodes
}

/// The nodes of one declaration as they are written.
struct Run<'a> {
    tokens: &'a [Token],
    nodes: Vec<Node>,
}

impl Run<'_> {
    fn row(&self, loc: SourceLoc) -> u32 {
        row_at(self.tokens, loc.offset) as u32
    }

    /// A node whose place is also its name.
    fn at_its_name(&self, kind: u32, loc: SourceLoc) -> Node {
        let row = self.row(loc);
        Node::new(kind, Some(row)).named(row)
    }

    /// A node without a name.
    fn nameless(&self, kind: u32, loc: SourceLoc) -> Node {
        Node::new(kind, Some(self.row(loc)))
    }

    fn map(&mut self, map: &MapDecl) {
        let facts = [
            number_of_map_type(map.map_type),
            map.key_type.map_or(0, number_of_type),
            map.value_type.map_or(0, number_of_type),
            map.max_entries.expect("an accepted map has a max"),
        ];
        self.nodes
            .push(self.at_its_name(28, map.loc).with_facts(facts));
    }

    fn event(&mut self, event: &EventDecl) {
        for field in &event.fields {
            self.event_field(field);
        }
        self.nodes.push(
            self.at_its_name(27, event.loc)
                .with_children(event.fields.len()),
        );
    }

    fn event_field(&mut self, field: &EventField) {
        let [shape, element, length] = shape_of(&field.ty);
        self.nodes.push(
            self.at_its_name(26, field.loc)
                .with_facts([shape, element, length, 0]),
        );
    }

    fn unit(&mut self, unit: &Unit) {
        self.statements(&unit.body);
        let place = self.row(unit.loc);
        let name = self.spelt(place + 1, &unit.name);
        let mut node = Node::new(25, Some(place))
            .named(name)
            .with_children(unit.body.len() + unit.sections.len())
            .with_facts([unit.kind as u32, MISSING, 0, 0]);
        if unit.license.is_some() {
            node.children = None;
            node.facts[1] = None;
        }
        self.nodes.push(node);
    }

    fn statements(&mut self, statements: &[Stmt]) {
        for statement in statements {
            self.statement(statement);
        }
    }

    fn statement(&mut self, statement: &Stmt) {
        let loc = statement.loc;
        let node = match &statement.kind {
            StmtKind::ExprStmt(value) => {
                self.expression(value);
                self.nameless(13, loc).with_children(1)
            }
            StmtKind::Assignment(assignment) => {
                self.expression(&assignment.target);
                self.expression(&assignment.value);
                let kind = number_of_assignment(assignment.op);
                self.nameless(kind, loc).with_children(2)
            }
            StmtKind::VarDecl(variable) => {
                self.expression(&variable.value);
                let kind = match variable.var_type {
                    VarType::Reg => 16,
                    VarType::Imm => 17,
                };
                self.at_its_name(kind, loc).with_children(1)
            }
            StmtKind::HeapVarDecl(variable) => {
                self.expression(&variable.init);
                self.at_its_name(18, loc).with_children(1)
            }
            StmtKind::Return(value) => {
                self.expression(value);
                self.nameless(19, loc).with_children(1)
            }
            StmtKind::IfGuard(guarded) => {
                let parts = self.guarded(guarded);
                self.nameless(20, loc).with_children(parts)
            }
        };
        self.nodes.push(node);
    }

    /// Writes the variable and the bodies; gives back how many they are.
    fn guarded(&mut self, guarded: &IfGuard) -> usize {
        self.expression(&guarded.condition);
        self.body(21, &guarded.then_body);
        match &guarded.else_body {
            Some(body) => {
                self.body(22, body);
                3
            }
            None => 2,
        }
    }

    fn body(&mut self, kind: u32, statements: &[Stmt]) {
        self.statements(statements);
        self.nodes
            .push(Node::new(kind, None).with_children(statements.len()));
    }

    fn expression(&mut self, expression: &Expr) {
        let loc = expression.loc;
        let node = match &expression.kind {
            ExprKind::Variable(name) => {
                let node = self.at_its_name(1, loc);
                self.spelt(self.row(loc), name);
                node
            }
            ExprKind::Number(value) => {
                let facts = [*value as u32, (*value >> 32) as u32, 0, 0];
                self.nameless(2, loc).with_facts(facts)
            }
            ExprKind::Dereference(inner) => {
                self.expression(inner);
                self.nameless(3, loc).with_children(1)
            }
            ExprKind::Binary(binary) => {
                self.expression(&binary.left);
                self.expression(&binary.right);
                self.nameless(number_of_operator(binary.op), loc)
                    .with_children(2)
            }
            ExprKind::MethodCall(call) => {
                let name = self.call_parts(call);
                self.nameless(11, loc)
                    .named(name)
                    .with_children(1 + call.arg.len())
            }
            ExprKind::FieldAccess { base, field } => {
                self.expression(base);
                self.spelt(self.row(loc), field);
                self.at_its_name(12, loc).with_children(1)
            }
            other => unreachable!("the original's parser does not make {other:?}"),
        };
        self.nodes.push(node);
    }

    /// Writes the receiver and the arguments; gives back the method's row.
    fn call_parts(&mut self, call: &MethodCall) -> u32 {
        self.expression(&call.receiver);
        for argument in &call.arg {
            self.expression(argument);
        }
        let receiver = self.row(call.receiver.loc) as usize;
        let dot = (receiver..self.tokens.len())
            .find(|&row| self.tokens[row].kind == TokenKind::Dot)
            .expect("a call has a dot behind its receiver");
        self.spelt(dot as u32 + 1, &call.method)
    }

    /// The row itself; it must be spelt as the tree says.
    fn spelt(&self, row: u32, spelling: &str) -> u32 {
        assert_eq!(self.tokens[row as usize].lexeme, spelling);
        row
    }
}

/// 1 plain, 2 bytes, 3 array; the element's type or 0; the length or 0.
fn shape_of(field_type: &EventType) -> [u32; 3] {
    match field_type {
        EventType::U32 => [1, 1, 0],
        EventType::U64 => [1, 2, 0],
        EventType::I32 => [1, 3, 0],
        EventType::I64 => [1, 4, 0],
        EventType::Bytes(length) => [2, 0, *length],
        EventType::Array { elem, len } => [3, number_of_element(*elem), *len],
    }
}

fn number_of_element(element: PrimitiveType) -> u32 {
    element as u32 + 1
}

fn number_of_type(field_type: Type) -> u32 {
    field_type as u32 + 1
}

fn number_of_map_type(map_type: MapType) -> u32 {
    map_type as u32 + 1
}

/// Add, sub, mul, div, mod, shl, shr are 4 to 10.
fn number_of_operator(operator: BinOp) -> u32 {
    operator as u32 + 4
}

fn number_of_assignment(operator: AssignmentOp) -> u32 {
    match operator {
        AssignmentOp::Assign => 14,
        AssignmentOp::AddAssign => 15,
        other => unreachable!("the original's parser does not make {other:?}"),
    }
}
