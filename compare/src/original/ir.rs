//! Glue: the original's `ir` module, of which only the context methods are used.

#[rustfmt::skip]
#[path = "../../../docs/src/src/ir/ctx.rs"]
pub mod ctx;
