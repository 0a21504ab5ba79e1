//! The tags of document 01's byte form, and document 02's.

pub const ARRAY: u8 = 1;
pub const TREE: u8 = 2;
pub const VOID: u8 = 3;
pub const BOOLEAN: u8 = 4;
pub const INTEGER: u8 = 5;
pub const TEXT: u8 = 6;
pub const LABEL: u8 = 7;

pub const QUERY: u8 = 16;
pub const MATCH: u8 = 17;
pub const UNWIND: u8 = 18;
pub const PROJECT: u8 = 19;
pub const GROUP: u8 = 20;
pub const LOOKUP: u8 = 21;

pub const PATH: u8 = 32;

pub const TRUE: u8 = 33;
pub const EXISTS: u8 = 34;
pub const EQUAL: u8 = 35;
pub const SAME: u8 = 36;
pub const NOT: u8 = 37;
pub const AND: u8 = 38;
pub const OR: u8 = 39;

pub const LITERAL: u8 = 40;
pub const DATA_PATH: u8 = 41;
pub const LIST: u8 = 42;
pub const DATA_CRITERION: u8 = 43;
pub const CHOICE: u8 = 44;
pub const REDUCED: u8 = 45;
pub const DIVISOR: u8 = 46;

pub const KEEP: u8 = 47;
pub const PLACE: u8 = 48;
pub const PAIR: u8 = 49;
pub const AGGREGATES: u8 = 50;
pub const GROUPING: u8 = 51;
pub const TOTAL: u8 = 54;
