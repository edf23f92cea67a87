//! What a reading is bounded by, and the numbers that it answers with.

pub const LONGEST: usize = 4096;
pub const DEEPEST: u16 = 200;
/// Cells of a node.
pub const CELLS: usize = 12;
/// A symbol of C bytes has at most 2 C - 1 nodes.
pub const MOST_NODES: usize = 2 * LONGEST;

/// Numbers of a reading: accepted; refused for syntax, for depth, for room.
pub const ACCEPTED: u64 = 0;
pub const SYNTAX: u64 = 3;
pub const DEEP: u64 = 4;
pub const FULL: u64 = 5;
