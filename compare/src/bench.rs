//! Times of several sides at the same work, and the table in which they are printed.

pub mod other;
pub mod rounds;
pub mod texts;
