//! The compiler's tree, made of a document's nodes.
//!
//! Children stand in front of their parent there. So one walk over the nodes suffices, without recursion: what a node
//! makes is put down, and the parent takes up what its children put down.

use crate::ast::{
    Assignment, AssignmentOp, BinOp, BinaryExpr, EventDecl, EventField, EventType, Expr, ExprKind,
    HeapVarDecl, IfGuard, MapDecl, MapType, MethodCall, PrimitiveType, Program, ProgramKind, Stmt,
    StmtKind, Type, Unit, VarDecl, VarType,
};
use crate::parser::SourceLoc;
use spoonharbor::lent::{self, Words, NODE_WORDS, ROW_WORDS};
use spoonharbor::{self as own, Document, FieldType, NodeKind, Operator, Refusal};
use std::vec::Drain;

/// The compiler's tree of a document's text, or the first refusal: that of the rows (11 to 17), or one of 21 to 32.
///
/// A document that was opened with a stored table of another text may have rows that name nothing. Then the answer is
/// 3, or a tree that is the table's and not the text's.
pub fn program(document: &Document) -> Result<Program, Refusal> {
    let (text, table) = (document.text(), document.table());
    let mut nodes = vec![0; table.row_words().len()];
    let answer = lent::parse(
        text.as_bytes(),
        table.row_words(),
        table.words(),
        &mut nodes,
    );
    if let Some(refusal) = Refusal::from_words(&answer) {
        return Err(refusal);
    }
    let written = nodes
        .as_chunks()
        .0
        .iter()
        .take(answer[lent::COUNT] as usize);
    let mut making = Making::of(text, table.row_words());
    let taken = written.copied().try_for_each(|words| making.take(words));
    match taken.map_or(Refusal::from_words(&NOT_WELL_FORMED), |()| None) {
        None => Ok(making.program),
        Some(refusal) => Err(refusal),
    }
}

/// 3 in the library's words: the nodes are no tree of the rows. No tree that the library wrote is refused so.
const NOT_WELL_FORMED: Words = [3, 0, 1, 1, 0, 0, 0, 0];

/// What stands in a node besides its kind. A name that is missing is no row.
#[derive(Clone, Copy)]
struct Node {
    place: usize,
    name: usize,
    children: usize,
}

/// What was made of the nodes so far and no parent took up yet.
struct Making<'d> {
    text: &'d str,
    rows: &'d [[u32; ROW_WORDS]],
    expressions: Vec<Expr>,
    statements: Vec<Stmt>,
    /// The bodies of an `if`: then, and else if there is one.
    bodies: Vec<Vec<Stmt>>,
    sections: Vec<String>,
    fields: Vec<EventField>,
    program: Program,
}

impl<'d> Making<'d> {
    fn of(text: &'d str, row_words: &'d [u32]) -> Making<'d> {
        Making {
            text,
            rows: row_words.as_chunks().0,
            expressions: Vec::new(),
            statements: Vec::new(),
            bodies: Vec::new(),
            sections: Vec::new(),
            fields: Vec::new(),
            program: Program {
                maps: Vec::new(),
                units: Vec::new(),
                events: Vec::new(),
            },
        }
    }

    /// Takes the next node, in its words.
    fn take(&mut self, [kind, place, name, children, a, b, c, d]: [u32; NODE_WORDS]) -> Option<()> {
        let node = Node {
            place: place as usize,
            name: name as usize,
            children: children as usize,
        };
        match NodeKind::from_words(kind, [a, b, c, d])? {
            NodeKind::Variable => self.put(node, ExprKind::Variable(self.name(node)?)),
            NodeKind::Number(value) => self.put(node, ExprKind::Number(value)),
            NodeKind::Dereference => self.dereference(node),
            NodeKind::Binary(operator) => self.binary(node, operator),
            NodeKind::Call => self.call(node),
            NodeKind::Field => self.field(node),
            NodeKind::Then | NodeKind::Else => self.body(node),
            NodeKind::Section => self.section(node),
            NodeKind::Unit { kind, license, .. } => self.unit(node, kind, license),
            NodeKind::EventField(field_type) => self.event_field(node, field_type),
            NodeKind::Event => self.event(node),
            NodeKind::Map {
                map_type,
                key,
                value,
                max,
                ..
            } => self.map(node, map_type, [key, value], max),
            // A unit tells its licence.
            NodeKind::License | NodeKind::Program => Some(()),
            statement => self.statement(node, statement),
        }
    }

    /// Where the node's place row stands.
    fn loc(&self, node: Node) -> Option<SourceLoc> {
        let [_, start, _, line, column, ..] = *self.rows.get(node.place)?;
        Some(SourceLoc::new(
            line as usize,
            column as usize,
            start as usize,
        ))
    }

    /// What a row spells.
    fn spelling(&self, row: usize) -> Option<&str> {
        let [_, start, end, ..] = *self.rows.get(row)?;
        self.text.get(start as usize..end as usize)
    }

    /// What the node's name row spells.
    fn name(&self, node: Node) -> Option<String> {
        self.spelling(node.name).map(str::to_string)
    }

    /// The text of a string row, as the compiler has it: no quote at either end, escapes as they are written.
    fn string(&self, row: usize) -> Option<String> {
        let spelling = self.spelling(row)?;
        Some(spelling.trim_matches('"').to_string())
    }

    /// Puts down an expression that stands at the node's place. Where it is inlined, no expression is moved.
    #[inline(always)]
    fn put(&mut self, node: Node, kind: ExprKind) -> Option<()> {
        let loc = self.loc(node)?;
        self.expressions.push(Expr { kind, loc });
        Some(())
    }

    /// Takes up the last expression.
    fn operand(&mut self) -> Option<Box<Expr>> {
        self.expressions.pop().map(Box::new)
    }

    fn dereference(&mut self, node: Node) -> Option<()> {
        let inner = self.operand()?;
        self.put(node, ExprKind::Dereference(inner))
    }

    fn binary(&mut self, node: Node, operator: Operator) -> Option<()> {
        let right = self.operand()?;
        let left = self.operand()?;
        let op = binary_operator(operator);
        self.put(node, ExprKind::Binary(BinaryExpr { op, left, right }))
    }

    /// The receiver is the first child, the arguments are the others.
    fn call(&mut self, node: Node) -> Option<()> {
        let arguments = last(&mut self.expressions, node.children.checked_sub(1)?)?;
        let arg = arguments.collect();
        let receiver = self.operand()?;
        let method = self.name(node)?;
        let call = MethodCall {
            receiver,
            method,
            arg,
        };
        self.put(node, ExprKind::MethodCall(call))
    }

    fn field(&mut self, node: Node) -> Option<()> {
        let base = self.operand()?;
        let field = self.name(node)?;
        self.put(node, ExprKind::FieldAccess { base, field })
    }

    /// Puts down a statement that stands at the node's place.
    #[inline(always)]
    fn put_statement(&mut self, node: Node, kind: StmtKind) -> Option<()> {
        let loc = self.loc(node)?;
        self.statements.push(Stmt { kind, loc });
        Some(())
    }

    fn statement(&mut self, node: Node, kind: NodeKind) -> Option<()> {
        match kind {
            NodeKind::Expression => {
                let value = self.operand()?;
                self.put_statement(node, StmtKind::ExprStmt(value))
            }
            NodeKind::Assign => self.assignment(node, AssignmentOp::Assign),
            NodeKind::AddAssign => self.assignment(node, AssignmentOp::AddAssign),
            NodeKind::Reg => self.variable(node, VarType::Reg),
            NodeKind::Imm => self.variable(node, VarType::Imm),
            NodeKind::Heap => self.heap_variable(node),
            NodeKind::Return => {
                let value = self.operand()?;
                self.put_statement(node, StmtKind::Return(value))
            }
            NodeKind::If => self.guarded(node),
            _ => None,
        }
    }

    fn assignment(&mut self, node: Node, op: AssignmentOp) -> Option<()> {
        let value = self.operand()?;
        let target = self.operand()?;
        let assignment = Assignment { target, op, value };
        self.put_statement(node, StmtKind::Assignment(assignment))
    }

    fn variable(&mut self, node: Node, var_type: VarType) -> Option<()> {
        let declared = VarDecl {
            name: self.name(node)?,
            var_type,
            value: self.operand()?,
        };
        self.put_statement(node, StmtKind::VarDecl(declared))
    }

    fn heap_variable(&mut self, node: Node) -> Option<()> {
        let declared = HeapVarDecl {
            name: self.name(node)?,
            init: self.expressions.pop()?,
        };
        self.put_statement(node, StmtKind::HeapVarDecl(declared))
    }

    fn body(&mut self, node: Node) -> Option<()> {
        let body = last(&mut self.statements, node.children)?.collect();
        self.bodies.push(body);
        Some(())
    }

    /// Its children are the variable, then, and else if there is one.
    fn guarded(&mut self, node: Node) -> Option<()> {
        let else_body = match node.children {
            3 => Some(self.bodies.pop()?),
            _ => None,
        };
        let guarded = IfGuard {
            then_body: self.bodies.pop()?,
            else_body,
            condition: self.expressions.pop()?,
        };
        self.put_statement(node, StmtKind::IfGuard(guarded))
    }

    fn section(&mut self, node: Node) -> Option<()> {
        let section = self.string(node.place)?;
        self.sections.push(section);
        Some(())
    }

    /// Units stand in no other node, so all statements and sections that are left are this one's.
    fn unit(&mut self, node: Node, kind: own::ProgramKind, license: Option<usize>) -> Option<()> {
        let unit = Unit {
            name: self.name(node)?,
            loc: self.loc(node)?,
            sections: self.sections.drain(..).collect(),
            kind: program_kind(kind),
            license: match license {
                Some(row) => Some(self.string(row)?),
                None => None,
            },
            events: Vec::new(),
            body: self.statements.drain(..).collect(),
        };
        self.program.units.push(unit);
        Some(())
    }

    fn event_field(&mut self, node: Node, field_type: FieldType) -> Option<()> {
        let field = EventField {
            name: self.name(node)?,
            ty: event_type(field_type),
            loc: self.loc(node)?,
        };
        self.fields.push(field);
        Some(())
    }

    fn event(&mut self, node: Node) -> Option<()> {
        let event = EventDecl {
            name: self.name(node)?,
            fields: self.fields.drain(..).collect(),
            loc: self.loc(node)?,
        };
        self.program.events.push(event);
        Some(())
    }

    fn map(
        &mut self,
        node: Node,
        kind: own::MapType,
        [key, value]: [Option<own::Type>; 2],
        max: u32,
    ) -> Option<()> {
        let map = MapDecl {
            name: self.name(node)?,
            map_type: map_type(kind),
            key_type: key.map(plain_type),
            value_type: value.map(plain_type),
            max_entries: Some(max),
            loc: self.loc(node)?,
        };
        self.program.maps.push(map);
        Some(())
    }
}

/// Takes up the last so many of a list, in their order.
fn last<T>(list: &mut Vec<T>, count: usize) -> Option<Drain<'_, T>> {
    let kept = list.len().checked_sub(count)?;
    Some(list.drain(kept..))
}

fn binary_operator(operator: Operator) -> BinOp {
    match operator {
        Operator::Add => BinOp::Add,
        Operator::Sub => BinOp::Sub,
        Operator::Mul => BinOp::Mul,
        Operator::Div => BinOp::Div,
        Operator::Mod => BinOp::Mod,
        Operator::Shl => BinOp::Shl,
        Operator::Shr => BinOp::Shr,
    }
}

fn plain_type(own: own::Type) -> Type {
    match own {
        own::Type::U32 => Type::U32,
        own::Type::U64 => Type::U64,
        own::Type::I32 => Type::I32,
        own::Type::I64 => Type::I64,
    }
}

fn element_type(own: own::Type) -> PrimitiveType {
    match own {
        own::Type::U32 => PrimitiveType::U32,
        own::Type::U64 => PrimitiveType::U64,
        own::Type::I32 => PrimitiveType::I32,
        own::Type::I64 => PrimitiveType::I64,
    }
}

fn event_type(field_type: FieldType) -> EventType {
    match field_type {
        FieldType::Plain(own::Type::U32) => EventType::U32,
        FieldType::Plain(own::Type::U64) => EventType::U64,
        FieldType::Plain(own::Type::I32) => EventType::I32,
        FieldType::Plain(own::Type::I64) => EventType::I64,
        FieldType::Bytes(length) => EventType::Bytes(length),
        FieldType::Array(element, len) => EventType::Array {
            elem: element_type(element),
            len,
        },
    }
}

fn map_type(own: own::MapType) -> MapType {
    match own {
        own::MapType::Hash => MapType::Hash,
        own::MapType::Array => MapType::Array,
        own::MapType::Ringbuf => MapType::Ringbuf,
        own::MapType::LruHash => MapType::LruHash,
        own::MapType::ProgArray => MapType::ProgArray,
    }
}

fn program_kind(own: own::ProgramKind) -> ProgramKind {
    match own {
        own::ProgramKind::Xdp => ProgramKind::Xdp,
        own::ProgramKind::Tc => ProgramKind::Tc,
        own::ProgramKind::Socket => ProgramKind::Socket,
        own::ProgramKind::Cgroup => ProgramKind::Cgroup,
        own::ProgramKind::Kprobe => ProgramKind::Kprobe,
        own::ProgramKind::Tracepoint => ProgramKind::Tracepoint,
        own::ProgramKind::RawTracepoint => ProgramKind::RawTracepoint,
        own::ProgramKind::Fentry => ProgramKind::Fentry,
        own::ProgramKind::Fexit => ProgramKind::Fexit,
        own::ProgramKind::Lsm => ProgramKind::Lsm,
        _ => ProgramKind::Unknown,
    }
}
