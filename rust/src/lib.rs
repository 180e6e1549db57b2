//! Spoonharbor for Rust: scanner, parser and edit call for Solnix probes.
//!
//! A [`Document`] holds a text and its rows. [`Document::replace`] changes a part and patches the rows; the rows are then those
//! that a fresh reading gives, which is proved of the library below. [`Document::tree`] parses.
//!
//! A text is valid UTF-8, and characters outside of ASCII stand in comments and strings. Offsets and columns count bytes; where a
//! [`Row`] of a document starts and ends there are characters' edges, so a document spells it as `&str`.
//!
//! ```
//! use spoonharbor::{Document, Kind};
//!
//! let mut document = Document::open("unit u{ x = 1; }")?;
//! document.replace(8..9, "counter")?;
//! assert_eq!(document.text(), "unit u{ counter = 1; }");
//! assert_eq!(document.rows().nth(3).unwrap().kind, Kind::Identifier);
//! assert_eq!(document.tree()?.len(), 5);
//! # Ok::<(), spoonharbor::Refusal>(())
//! ```
//!
//! Two people may change one text: [`Document::merge`] takes a change that was made for the text before our own changes, and says
//! where the two touch.
//!
//! A [`Table`] is what a document has beside its text. It is stored as a file and read back, and a document opens with it.
//!
//! ```
//! use spoonharbor::{Document, Table};
//!
//! let document = Document::open("unit u{ x = 1; }")?;
//! let file = document.table().store()?;
//! let table = Table::load(&file)?;
//! assert_eq!(Document::open_with("unit u{ x = 1; }", table)?, document);
//! # Ok::<(), spoonharbor::Refusal>(())
//! ```
//!
//! With the text at hand a file is kept shorter, without lines and columns, and a damaged one is mended.
//!
//! ```
//! use spoonharbor::{mend_file, move_file, Document, Form, Table};
//!
//! let text = "unit u{ x = 1; }";
//! let full = Document::open(text)?.table().store()?;
//! let mut short = move_file(text.as_bytes(), &full, Form::Short)?;
//! assert_eq!(move_file(text.as_bytes(), &short, Form::Full)?, full);
//! short[600] ^= 1;
//! assert_eq!(mend_file(text.as_bytes(), &mut short, Form::Short)?, [1]);
//! assert_eq!(Table::load_beside(text.as_bytes(), &short)?, Table::load(&full)?);
//! # Ok::<(), spoonharbor::Refusal>(())
//! ```
//!
//! Each program has one layout, a text of its own that reads back as the same tree.
//!
//! ```
//! use spoonharbor::Document;
//!
//! let document = Document::open("unit u{ x += (0x10); } // sixteen")?;
//! assert_eq!(document.layout()?, "unit u {\nx += 16 ;\n}\n");
//! # Ok::<(), spoonharbor::Refusal>(())
//! ```
//!
//! What is wrong with a text is told in words by [`diagnostic`]: every problem at once, at the fault, for people and editors.
//!
//! ```
//! use spoonharbor::{diagnostic::Checks, Document};
//!
//! let document = Document::open("event e { a: u32 }")?;
//! let told = document.diagnostics(&Checks::default());
//! assert_eq!((told[0].to_string().as_str(), told[0].span.clone()), ("error[21]: expected ';' after this", 16..16));
//! # Ok::<(), spoonharbor::Refusal>(())
//! ```
//!
//! What is in a program is counted by [`Document::tally`], and the counts of many programs add up.
//!
//! ```
//! use spoonharbor::{Document, Figure, Tally};
//!
//! let first = Document::open("unit u{ x = 1; }")?.tally()?;
//! let second = Document::open("event e { a: u32; }")?.tally()?;
//! let both: Tally = [first, second].iter().sum::<Result<_, _>>()?;
//! assert_eq!((both.units(), both.count(Figure::Events)), (1, 1));
//! # Ok::<(), Box<dyn std::error::Error>>(())
//! ```
//!
//! [`lent`] has the library's calls themselves, over slices, for those who keep their own memory: a table there may be anyone's, so what
//! its rows spell are bytes.

#![warn(clippy::pedantic)]
// Left out of it: what would repeat itself at every call, casts of words whose bounds are proved, and a `match` on a test, which is
// how this crate says both sides of one.
#![allow(
    clippy::borrow_as_ptr,
    clippy::cast_possible_truncation,
    clippy::cast_possible_wrap,
    clippy::cast_sign_loss,
    clippy::enum_glob_use,
    clippy::match_bool,
    clippy::missing_fields_in_debug,
    clippy::must_use_candidate,
    clippy::needless_pass_by_value,
    clippy::similar_names,
    clippy::single_match_else
)]

pub mod columns;
pub mod diagnostic;
mod document;
mod edit;
mod extent;
mod ffi;
mod file;
mod form;
mod kind;
mod kind_set;
pub mod lent;
mod position;
mod refusal;
mod row;
mod sets;
mod table;
mod tally;
mod tree;
mod words;

pub use document::Document;
pub use edit::{Conflict, Edit};
pub use file::{mend_file, move_file};
pub use form::{Form, MOST_STORED_ROWS};
pub use kind::Kind;
pub use kind_set::{KindSet, Kinds};
pub use position::Position;
pub use refusal::{MapField, Place, Reason, Refusal};
pub use row::{Row, Rows};
pub use sets::{allows, section_kind, set_size, Method, ProgramKind};
pub use table::Table;
pub use tally::{CountTooLarge, Figure, Tally};
pub use tree::{Children, FieldType, MapType, Node, NodeKind, Operator, Tree, Type};

/// This crate's version as one number: major, minor and patch in a byte each. The build refuses an archive of another version,
/// unless it is for another machine, whose programs do not run there; [`lent::version`] then tells.
pub const VERSION: u32 = version_part(env!("CARGO_PKG_VERSION_MAJOR")) << 16
    | version_part(env!("CARGO_PKG_VERSION_MINOR")) << 8
    | version_part(env!("CARGO_PKG_VERSION_PATCH"));

/// A number of at most 255 in decimal; it is read when the crate is compiled.
const fn version_part(text: &str) -> u32 {
    match u8::from_str_radix(text, 10) {
        Ok(part) => part as u32,
        Err(_) => panic!("each part of the version fits a byte"),
    }
}

/// The most bytes that a text may have.
pub const LONGEST_TEXT: usize = 65_536;

/// The archive that this crate was linked with.
#[doc(hidden)]
pub const ARCHIVE_FILE: &str = env!("SPOONHARBOR_ARCHIVE_FILE");
