//! Glue: the original's `parser` module.

#[rustfmt::skip]
#[path = "../../../docs/src/src/parser/event.rs"]
pub mod event;
#[rustfmt::skip]
#[path = "../../../docs/src/src/parser/map.rs"]
pub mod map;
#[allow(clippy::module_inception)]
#[rustfmt::skip]
#[path = "../../../docs/src/src/parser/parser.rs"]
pub mod parser;
#[rustfmt::skip]
#[path = "../../../docs/src/src/parser/program.rs"]
pub mod program;
#[rustfmt::skip]
#[path = "../../../docs/src/src/parser/token.rs"]
pub mod token;
#[rustfmt::skip]
#[path = "../../../docs/src/src/parser/unit.rs"]
pub mod unit;

pub use parser::{ParseError, Parser};
pub use program::parse_program;
pub use token::{SourceLoc, Token, TokenKind};
