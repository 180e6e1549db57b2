//! Glue that joins the original sources of docs/src/src, which are compiled
//! byte for byte unchanged by way of `#[path]`.
//!
//! What the sources lack and this folder adds: the module files of `ast`, `ir`
//! and `parser`, and the struct `Program` that `parse_program` fills. Nothing
//! else in this folder is ours. The sources refer to each other as
//! `crate::parser` and so on; lib.rs re-exports these modules for that.
//! `#[rustfmt::skip]` keeps the formatter from following the paths and writing
//! to the sources.

pub mod ast;
pub mod ir;
#[rustfmt::skip]
#[path = "../../../docs/src/src/lexer/mod.rs"]
pub mod lexer;
pub mod parser;
