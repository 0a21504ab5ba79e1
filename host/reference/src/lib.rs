//! The plain run of document 01, with what document 02 adds to it, as a second
//! implementation.
//!
//! The engine is proved against definitions. Whether the definitions say what
//! the documents say, a proof cannot tell; a reading of them by other hands,
//! compared on many cases, can. So this crate shares nothing with the
//! engine: trees are owned data, arrays are whole lists, nothing is streamed
//! and nothing is clever. It is slow, and every function is meant to be read
//! beside the sentence that it takes from a document.
//!
//! - [`tree`]: trees, their sizes and their depth
//! - [`bytes`]: the byte form of arrays and queries, both ways
//! - [`stages`]: what a query is, and what each stage does to a list
//! - [`positions`]: where the trees of a list came from
//! - [`run`]: the tests in their order, and the run
//! - [`regroup`]: a day in trays, and the call that joins their results
//! - [`tracer`]: a tracer's message as an array of one tree
//! - [`generate`]: random cases from a seed

pub mod bytes;
pub mod generate;
pub mod positions;
pub mod regroup;
pub mod run;
pub mod stages;
pub mod tracer;
pub mod tree;
