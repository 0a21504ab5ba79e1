//! The limits of the format, by name.
//!
//! Sizes are in bytes, unless something else is said, and measure a whole
//! field, its head included.

/// The least work area.
pub const WORK: usize = 65_536;
/// The least position area, in entries: as many as an array can have trees.
pub const POSITIONS: usize = 2_730;
/// The largest query.
pub const QUERY: usize = 4_096;
/// The largest array: an input, a joined array or a result.
pub const ARRAY: usize = 16_384;
/// The largest tree.
pub const TREE: usize = 2_048;
/// The greatest depth of a tree; the trees of the outer array have depth 1.
pub const DEPTH: usize = 16;
/// The longest text of a root.
pub const TEXT: usize = 255;
/// The most labels of a path.
pub const PATH: usize = 8;
/// The most stages of a query.
pub const STAGES: usize = 8;
/// The most criteria and data on the way from the outermost to the innermost, both included.
pub const NESTING: usize = 8;
/// The most items of a project, which has at least one.
pub const ITEMS: usize = 16;
/// The most members of a list of data, which has at least one.
pub const LIST: usize = 8;
/// The most aggregates of a group.
pub const AGGREGATES: usize = 8;
/// The most grouping pairs of a group.
pub const GROUPING: usize = 4;
/// The greatest divisor of reduced data; the least is 1.
pub const DIVISOR: u16 = 10_000;
/// The largest message of a tracer.
pub const MESSAGE: usize = 4_096;
/// The largest array that a message becomes.
pub const TRACED: usize = 1_262;
/// The longest name of a line, which has at least one byte.
pub const NAME: usize = 8;
/// The longest value of a line.
pub const VALUE: usize = 80;
/// The greatest number that a value can be, in hundredths; the least is as far below 0.
pub const HUNDREDTHS: i64 = 99_999_999;
