//! The original Rust (docs/src, built unchanged) asked about a text, with its
//! answer given in the terms of LANGUAGE.md.
//!
//! `answer` is the way in, and `terms` has what it answers; `generate` makes
//! texts to ask about; `edge_cases` has the texts whose answers LANGUAGE.md and DECISIONS.md state; `sample` and
//! `edits` write answers down for programs that cannot run Rust. `model` is
//! LANGUAGE.md written down a second time, for what the original does not say, and
//! `chart` has the kinds that fit behind some rows, which it does not say either.

#[allow(clippy::all)]
pub mod original;
// The original sources name each other from the crate's root.
pub use original::{ast, ir, lexer, parser};

pub mod agree;
pub mod answer;
#[cfg(feature = "library")]
pub mod bench;
pub mod chart;
pub mod deep;
pub mod differences;
pub mod edge_cases;
pub mod edits;
pub mod figures;
pub mod files;
pub mod forms;
pub mod generate;
pub mod kinds;
pub mod layout;
pub mod layouts;
pub mod method_sets;
pub mod model;
pub mod nodes;
pub mod parse;
pub mod quiet;
pub mod sample;
pub mod scan;
pub mod search;
pub mod show;
#[cfg(feature = "library")]
pub mod side;
pub mod terms;
pub mod told_sets;
