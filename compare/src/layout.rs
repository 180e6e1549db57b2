//! The layout written down a second time, over the original's own tree: a function for each line of the grammar of expressions,
//! and rows put one after the other. The library's writes bytes from the last to the first, over nodes, by levels.
//!
//! The original's tree says neither where sections and licences stand among a unit's statements nor what all licences are.
//! These are taken from its tokens: both words are reserved and stand in a unit's list alone.

use crate::ast::{
    AssignmentOp, BinOp, EventDecl, EventType, Expr, ExprKind, IfGuard, MapDecl, MapType,
    MethodCall, PrimitiveType, Program, Stmt, StmtKind, Type, Unit, VarType,
};
use crate::parser::{SourceLoc, Token, TokenKind};
use std::ops::Range;

/// A program's layout: its rows, a newline after each `{`, `}` and `;`, a blank after each other.
pub fn layout(program: &Program, tokens: &[Token]) -> String {
    let mut text = String::new();
    for row in rows(program, tokens) {
        text += &row;
        text.push(match row.as_str() {
            "{" | "}" | ";" => '\n',
            _ => ' ',
        });
    }
    text
}

/// The tree without its places, as a text that two trees share exactly if they are alike otherwise; with it the order of maps, events
/// and units, which is in their places alone.
pub fn without_places(program: &Program) -> String {
    let order: Vec<char> = declarations(program)
        .iter()
        .map(|declaration| match declaration {
            Declaration::Map(_) => 'm',
            Declaration::Event(_) => 'e',
            Declaration::Unit(_) => 'u',
        })
        .collect();
    let told = format!("{order:?} {program:?}");
    let mut parts = told.split("loc: SourceLoc {");
    let mut kept = parts.next().unwrap_or_default().to_string();
    for part in parts {
        kept += part.split_once('}').map_or("", |(_, rest)| rest);
    }
    kept
}

enum Declaration<'a> {
    Map(&'a MapDecl),
    Event(&'a EventDecl),
    Unit(&'a Unit),
}

/// The declarations in the order of the text.
fn declarations(program: &Program) -> Vec<Declaration<'_>> {
    let maps = program
        .maps
        .iter()
        .map(|map| (map.loc, Declaration::Map(map)));
    let events = program.events.iter();
    let events = events.map(|event| (event.loc, Declaration::Event(event)));
    let units = program.units.iter();
    let units = units.map(|unit| (unit.loc, Declaration::Unit(unit)));
    let mut all: Vec<(SourceLoc, Declaration)> = maps.chain(events).chain(units).collect();
    all.sort_by_key(|(loc, _)| loc.offset);
    all.into_iter()
        .map(|(_, declaration)| declaration)
        .collect()
}

fn rows(program: &Program, tokens: &[Token]) -> Vec<String> {
    let mut rows = Rows {
        tokens,
        rows: Vec::new(),
    };
    for declaration in declarations(program) {
        match declaration {
            Declaration::Map(map) => rows.map(map),
            Declaration::Event(event) => rows.event(event),
            Declaration::Unit(unit) => rows.unit(unit),
        }
    }
    rows.rows
}

/// The rows so far, and the original's tokens of the text.
struct Rows<'a> {
    tokens: &'a [Token],
    rows: Vec<String>,
}

impl Rows<'_> {
    fn put(&mut self, row: impl ToString) {
        self.rows.push(row.to_string());
    }

    /// Words and signs that stand as they are.
    fn put_all(&mut self, rows: &str) {
        self.rows.extend(rows.split(' ').map(str::to_string));
    }

    fn map(&mut self, map: &MapDecl) {
        self.put("map");
        self.put(&map.name);
        self.put_all("{ type : .");
        self.put(match map.map_type {
            MapType::Hash => "hash",
            MapType::Array => "array",
            MapType::Ringbuf => "ringbuf",
            MapType::LruHash => "lru_hash",
            MapType::ProgArray => "prog_array",
        });
        self.put(";");
        for (field, given) in [("key", map.key_type), ("value", map.value_type)] {
            if let Some(given) = given {
                self.put(field);
                self.put(":");
                self.put(match given {
                    Type::U32 => "u32",
                    Type::U64 => "u64",
                    Type::I32 => "i32",
                    Type::I64 => "i64",
                });
                self.put(";");
            }
        }
        self.put_all("max :");
        self.put(map.max_entries.expect("an accepted map has a max"));
        self.put_all("; }");
    }

    fn event(&mut self, event: &EventDecl) {
        self.put("event");
        self.put(&event.name);
        self.put("{");
        for field in &event.fields {
            self.put(&field.name);
            self.put(":");
            match &field.ty {
                EventType::U32 => self.put("u32"),
                EventType::U64 => self.put("u64"),
                EventType::I32 => self.put("i32"),
                EventType::I64 => self.put("i64"),
                EventType::Bytes(length) => self.array("bytes", *length),
                EventType::Array { elem, len } => {
                    let element = match elem {
                        PrimitiveType::U32 => "u32",
                        PrimitiveType::U64 => "u64",
                        PrimitiveType::I32 => "i32",
                        PrimitiveType::I64 => "i64",
                    };
                    self.array(element, *len);
                }
            }
            self.put(";");
        }
        self.put("}");
    }

    fn array(&mut self, element: &str, length: u32) {
        self.put(element);
        self.put("[");
        self.put(length);
        self.put("]");
    }

    /// A unit: its statements and, where they stand among them, its sections and licences.
    fn unit(&mut self, unit: &Unit) {
        self.put("unit");
        self.put(&unit.name);
        self.put("{");
        let mut strings = self.strings_of(unit).into_iter().peekable();
        for statement in &unit.body {
            while let Some(word) =
                strings.next_if(|&word| self.tokens[word].loc.offset < statement.loc.offset)
            {
                self.string(word);
            }
            self.statement(statement);
        }
        for word in strings {
            self.string(word);
        }
        self.put("}");
    }

    /// Where the words `section` and `license` of a unit stand.
    fn strings_of(&self, unit: &Unit) -> Vec<usize> {
        let at = |token: &Token| token.loc.offset == unit.loc.offset;
        let first = self.tokens.iter().position(at).expect("a unit has a word");
        let rest: Range<usize> = first + 1..self.tokens.len();
        let is_next = |row: &usize| {
            matches!(
                self.tokens[*row].kind,
                TokenKind::KeywordUnit
                    | TokenKind::KeywordMap
                    | TokenKind::KeywordEvent
                    | TokenKind::Eof
            )
        };
        let is_string = |row: &usize| {
            matches!(
                self.tokens[*row].kind,
                TokenKind::KeywordSection | TokenKind::KeywordLicense
            )
        };
        rest.take_while(|row| !is_next(row))
            .filter(is_string)
            .collect()
    }

    /// A section or a licence, whose word stands there.
    fn string(&mut self, word: usize) {
        self.put(&self.tokens[word].lexeme);
        self.put(&self.tokens[word + 1].lexeme);
        self.put(";");
    }

    fn statement(&mut self, statement: &Stmt) {
        match &statement.kind {
            StmtKind::IfGuard(guarded) => return self.guarded(guarded),
            StmtKind::Return(value) => {
                self.put("return");
                self.sum(value);
            }
            StmtKind::VarDecl(variable) => {
                self.put(match variable.var_type {
                    VarType::Reg => "reg",
                    VarType::Imm => "imm",
                });
                self.put(&variable.name);
                self.put("=");
                self.sum(&variable.value);
            }
            StmtKind::HeapVarDecl(variable) => {
                self.put("heap");
                self.put(&variable.name);
                self.put("=");
                self.sum(&variable.init);
            }
            StmtKind::Assignment(assignment) => {
                self.sum(&assignment.target);
                self.put(match assignment.op {
                    AssignmentOp::Assign => "=",
                    AssignmentOp::AddAssign => "+=",
                    other => unreachable!("the original's parser does not make {other:?}"),
                });
                self.sum(&assignment.value);
            }
            StmtKind::ExprStmt(value) => self.sum(value),
        }
        self.put(";");
    }

    fn guarded(&mut self, guarded: &IfGuard) {
        self.put_all("if guard (");
        self.operand(&guarded.condition);
        self.put(")");
        self.body(&guarded.then_body);
        if let Some(body) = &guarded.else_body {
            self.put("else");
            self.body(body);
        }
    }

    fn body(&mut self, statements: &[Stmt]) {
        self.put("{");
        for statement in statements {
            self.statement(statement);
        }
        self.put("}");
    }

    /// An expression: shifts and products joined by `+` and `-`.
    fn sum(&mut self, expression: &Expr) {
        match &expression.kind {
            ExprKind::Binary(binary) if matches!(binary.op, BinOp::Add | BinOp::Sub) => {
                self.sum(&binary.left);
                self.sign(binary.op);
                self.product(&binary.right);
            }
            _ => self.shift(expression),
        }
    }

    /// Products joined by `<<` and `>>`.
    fn shift(&mut self, expression: &Expr) {
        match &expression.kind {
            ExprKind::Binary(binary) if matches!(binary.op, BinOp::Shl | BinOp::Shr) => {
                self.shift(&binary.left);
                self.sign(binary.op);
                self.product(&binary.right);
            }
            _ => self.product(expression),
        }
    }

    /// Dereferences and operands joined by `*`, `/` and `%`.
    fn product(&mut self, expression: &Expr) {
        match &expression.kind {
            ExprKind::Binary(binary)
                if matches!(binary.op, BinOp::Mul | BinOp::Div | BinOp::Mod) =>
            {
                self.product(&binary.left);
                self.sign(binary.op);
                self.dereference(&binary.right);
            }
            _ => self.dereference(expression),
        }
    }

    /// Stars in front of an operand.
    fn dereference(&mut self, expression: &Expr) {
        match &expression.kind {
            ExprKind::Dereference(inner) => {
                self.put("*");
                self.dereference(inner);
            }
            _ => self.operand(expression),
        }
    }

    /// A variable, a number, a field or a call; all else stands in parentheses.
    fn operand(&mut self, expression: &Expr) {
        match &expression.kind {
            ExprKind::Variable(name) => self.put(name),
            ExprKind::Number(value) => self.put(value),
            ExprKind::FieldAccess { base, field } => {
                self.operand(base);
                self.put(".");
                self.put(field);
            }
            ExprKind::MethodCall(call) => self.call(call),
            ExprKind::Binary(_) | ExprKind::Dereference(_) => {
                self.put("(");
                self.sum(expression);
                self.put(")");
            }
            other => unreachable!("the original's parser does not make {other:?}"),
        }
    }

    fn call(&mut self, call: &MethodCall) {
        self.operand(&call.receiver);
        self.put(".");
        self.put(&call.method);
        self.put("(");
        for (number, argument) in call.arg.iter().enumerate() {
            if number > 0 {
                self.put(",");
            }
            self.sum(argument);
        }
        self.put(")");
    }

    fn sign(&mut self, operator: BinOp) {
        self.put(match operator {
            BinOp::Add => "+",
            BinOp::Sub => "-",
            BinOp::Mul => "*",
            BinOp::Div => "/",
            BinOp::Mod => "%",
            BinOp::Shl => "<<",
            BinOp::Shr => ">>",
        });
    }
}

#[cfg(test)]
mod tests {
    use super::*;
    use crate::parse::accepted;
    use crate::scan::scan;

    fn laid(text: &str) -> String {
        let tokens = scan(text).tokens;
        layout(&accepted(&tokens).expect("a program"), &tokens)
    }

    #[test]
    fn worked_layouts() {
        let cases = [
            ("", ""),
            ("unit u{\n x+=-1;\n}\n", "unit u {\nx += -1 ;\n}\n"),
            (
                "event e{b:bytes[0x10];c:u32;}",
                "event e {\nb : bytes [ 16 ] ;\nc : u32 ;\n}\n",
            ),
            (
                "map m{max:1<<4;type:.ringbuf;key:u64;}",
                "map m {\ntype : . ringbuf ;\nkey : u64 ;\nmax : 16 ;\n}\n",
            ),
            (
                "unit u{license \"a\";x;section \"b\";license \"c\";if guard(y){z;}else{}section \"d\";}",
                "unit u {\nlicense \"a\" ;\nx ;\nsection \"b\" ;\nlicense \"c\" ;\n\
                 if guard ( y ) {\nz ;\n}\nelse {\n}\nsection \"d\" ;\n}\n",
            ),
            (
                "unit u{(a<<1)-b;a-(b<<1);*(a.b);(*a).b;x.m((a+b),((c)));}",
                "unit u {\na << 1 - b ;\na - ( b << 1 ) ;\n* a . b ;\n( * a ) . b ;\nx . m ( a + b , c ) ;\n}\n",
            ),
            (
                "unit u{}map m{type:.hash;key:u32;value:u32;max:1;}event e{}",
                "unit u {\n}\nmap m {\ntype : . hash ;\nkey : u32 ;\nvalue : u32 ;\nmax : 1 ;\n}\nevent e {\n}\n"),
        ];
        for (text, wanted) in cases {
            assert_eq!(laid(text), wanted);
        }
    }

    /// Trees that differ in anything but places differ; those that differ in places alone don't.
    #[test]
    fn places_alone_are_left_out() {
        let tree = |text: &str| without_places(&accepted(&scan(text).tokens).expect("a program"));
        assert_eq!(tree("unit u{x;}"), tree("unit u {\n ((x)) ; }"));
        assert_ne!(tree("unit u{x;}"), tree("unit u{y;}"));
        assert_ne!(tree("unit u{a-(b-c);}"), tree("unit u{a-b-c;}"));
        assert_ne!(tree("unit u{}event u{}"), tree("event u{}unit u{}"));
    }
}
