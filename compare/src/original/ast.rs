//! Glue: the original's `ast` module, and the `Program` that its sources lack.

#[rustfmt::skip]
#[path = "../../../docs/src/src/ast/event.rs"]
pub mod event;
#[rustfmt::skip]
#[path = "../../../docs/src/src/ast/map.rs"]
pub mod map;
#[rustfmt::skip]
#[path = "../../../docs/src/src/ast/unit.rs"]
pub mod unit;

pub use event::*;
pub use map::*;
pub use unit::*;

/// What `parse_program` gives back: three lists, so that the order of maps,
/// events and units among each other is only in their places.
#[derive(Debug, Clone)]
pub struct Program {
    pub maps: Vec<MapDecl>,
    pub units: Vec<Unit>,
    pub events: Vec<EventDecl>,
}
