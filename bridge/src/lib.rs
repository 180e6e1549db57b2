//! The present compiler's tree of a text that Spoonharbor has read: for whoever owns solnix-compiler.
//!
//! [`program`] makes an [`ast::Program`] of a [`Document`]. It is the tree that the compiler's own lexer and parser
//! make of the same text: each name, number, section, licence and place. So what a console checks by Spoonharbor's
//! calls is what is compiled, and the text is read once.
//!
//! ```
//! use bridge::{error, program};
//! use spoonharbor::Document;
//!
//! let text = "unit u { section \"xdp\"; license \"GPL\"; return 2; }";
//! let document = Document::open(text).map_err(|refusal| error(&refusal))?;
//! let program = program(&document).map_err(|refusal| error(&refusal))?;
//! assert_eq!(program.units[0].sections, ["xdp"]);
//! assert_eq!(program.units[0].body[0].loc.column, 47);
//! # Ok::<(), bridge::parser::ParseError>(())
//! ```
//!
//! [`error`] and [`errors`] tell refusals as the compiler tells its own: a place and a message.
//!
//! [`ast`], [`ir`], [`lexer`] and [`parser`] are the compiler's own sources (docs/src, Apache-2.0), compiled unchanged.
//! Of them [`program`] needs [`ast`] and [`parser::SourceLoc`]; the lexer and the parser are here to be compared with.
//!
//! One document is one program. Two texts as one program, a prelude in front of a probe, are not made here yet. They
//! belong into `src/tree.rs`: each node's places and names are looked up in one document there, and with a prelude a
//! node has to say in which of the two.
//!
//! [`Document`]: spoonharbor::Document

// The glue that joins the compiler's sources stands once, in compare/.
#[allow(clippy::all)]
#[path = "../../compare/src/original/mod.rs"]
mod original;
// The sources name each other from the crate's root.
pub use original::{ast, ir, lexer, parser};

mod errors;
mod tree;

pub use errors::{error, errors};
pub use tree::program;
