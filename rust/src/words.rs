//! The words in which the library answers, and those of a row and of a node.

/// An answer, or what stands beside a table's rows: the words at [`NUMBER`] to [`LENGTH`].
pub type Words = [u32; 8];

/// The refusal's number, 0 if there is none.
pub const NUMBER: usize = 0;
/// The refusal's place: its offset, line and column.
pub const OFFSET: usize = 1;
/// The line of the refusal's place.
pub const LINE: usize = 2;
/// The column of the refusal's place, which counts bytes.
pub const COLUMN: usize = 3;
/// Of 21, 22, 23, 25 and 30 the kinds 0 to 31 that would have fitted, bit k for kind k; the field of 29, the block of
/// 41, a spelling's start, or the number that was asked for.
pub const FIRST: usize = 4;
/// Of 21, 22, 23, 25 and 30 the kinds from 32 on that would have fitted, bit 0 for kind 32; or a spelling's end.
pub const SECOND: usize = 5;
/// How many rows, nodes or blocks were written, or how many blocks listed.
pub const COUNT: usize = 6;
/// The text's length, of a store, a move and a mending the file's, of a parse that is refused with 21 the kind that was
/// found, of a layout how many bytes it has; 0 where a call that tells a length is refused and told no table.
pub const LENGTH: usize = 7;

/// The words of a row: kind, start, end, line, column, value low, value high, comments in the gap before it.
pub const ROW_WORDS: usize = 8;

/// The word of a row that tells where it ends.
pub const ROW_END: usize = 2;

/// The words of a node: kind, place row, name row, children, four facts.
pub const NODE_WORDS: usize = 8;

/// A row that is missing.
pub const MISSING: u32 = u32::MAX;

/// The words of the scratch that a layout is made with.
pub const SCRATCH_WORDS: usize = 524_296;

/// Memory that a layout is made with. What it holds before plays no part, so one serves any number of calls.
pub type Scratch = [u32; SCRATCH_WORDS];

/// How many counts a tally has.
pub const TALLY_COUNTS: usize = 20;

/// How many nodes a tally may be of: as many as two texts have rows.
pub const TALLY_MOST_NODES: u32 = 131_074;

/// The counts of a tally: the units of each program kind (0 to 10), the maps of each type (from 11 on), events (16), statements (17), the
/// sum of all `max` (18), and the context methods that the units' kinds allow (19).
pub type Counts = [u64; TALLY_COUNTS];
