//! What is answered of an open text, a module for each request.

pub mod actions;
pub mod completion;
pub mod diagnostics;
pub mod folding;
pub mod formatting;
pub mod hover;
pub mod naming;
pub mod selection;
pub mod stored;
pub mod symbols;
pub mod tokens;
