//! Tumkwasa's query engine, from Rust.
//!
//! The engine runs a query of 0 to 8 stages (match, unwind, project, group
//! and lookup, after Tquery) over an array of trees, with one joined array,
//! and writes an array, and where each of its trees came from, or refuses by
//! one of twelve numbers. Of a message that a tracer sends it makes such a tree,
//! or refuses by a thirteenth. It is written in Rattle and proved against the
//! definitions of its scope, "document 01" and the requests of "document 02";
//! it takes no heap and keeps no state.
//!
//! The engine speaks bytes: it is lent a query, an input, a joined array, a
//! work area, a result area and a position area, or a message and a result
//! area. This crate is the Rust side of that:
//!
//! - [`Engine`] runs byte forms over lent areas, with Rust's references in
//!   place of the C header's promises on pointers; [`check_array`] and
//!   [`check_query`] only check.
//! - [`Path`], [`Criterion`], [`Data`], [`Item`], [`Pair`], [`Stage`] and
//!   [`Query`] build a query, so that nobody counts bytes. What has no byte
//!   form is a [`BuildError`], which says why. Of a group's aggregates some may
//!   be totals, by [`Pair::total`]: edge lengths added per job.
//! - [`Tree`], [`Root`] and [`Array`] are the data, with their byte form both
//!   ways and document 01's notation both ways: `v{1:[5, 6], 2:[]}`.
//! - [`Line`] is a tree of a result with the position of the input tree that it
//!   stems from: what a maker prints beside it.
//! - [`Trays`] makes one list of a day whose records come in trays, each an
//!   array, and are too many for one; [`Engine::regroup`] is the call for it.
//! - [`Message`] is a tracer's message, made line by line or taken as bytes;
//!   [`Traced`] is the tree that the engine makes of it, with its values by
//!   name; [`trace`] is the call for it.
//! - [`Refusal`] has the thirteen causes, with the documents' numbers and words.
//!
//! Nothing here panics, whatever it is given. What is proved is the engine;
//! this crate is tested, and its unsafe code is one small module.
//!
//! # Example
//!
//! Each job (label 1) has lenses (label 2). One tree for each lens, and then
//! the lenses of each job together with its customer from the joined array:
//!
//! ```
//! use tquery::{limits, Array, Criterion, Engine, Pair, Path, Query};
//!
//! # fn main() -> Result<(), Box<dyn std::error::Error>> {
//! let (job, lens, customer) = (Path::new([1])?, Path::new([2])?, Path::new([3])?);
//! let query = Query::new()
//!     .unwind(lens.clone())
//!     .matching(Criterion::equal(lens.clone(), [0]).not())
//!     .group([Pair::same(lens)], [Pair::same(job.clone())])
//!     .lookup(job.clone(), job, customer);
//!
//! let input: Array = "[v{1:[7], 2:[52, 0, 54]}, v{1:[8], 2:[]}]".parse()?;
//! let joined: Array = r#"[v{1:[7], 4:["Amina"]}]"#.parse()?;
//!
//! let mut work = vec![0; limits::WORK];
//! let result = Engine::new(&mut work).run_trees(&query, &input, &joined)?;
//! assert_eq!(result.to_string(), r#"[v{1:[7], 2:[52, 54], 3:[v{1:[7], 4:["Amina"]}]}]"#);
//! # Ok(())
//! # }
//! ```
//!
//! # Areas
//!
//! [`Engine::run`] takes byte forms, a result area and a position area, and
//! nothing else; it is the call for a machine that has its areas set aside. The
//! encoded query serves any number of runs:
//!
//! ```
//! use tquery::{limits, Array, Engine, Query, Refusal};
//!
//! let query = Query::new().encode()?;
//! let empty = Array::new().encode()?;
//! let (mut work, mut result) = ([0; limits::WORK], [0xff; 4]);
//! let mut positions = [0; limits::POSITIONS];
//! let mut engine = Engine::new(&mut work);
//! assert_eq!(engine.run(&query, &empty, &empty, &mut result, &mut positions), Ok(3));
//! assert_eq!(result, [1, 0, 0, 0xff]);
//! let refused = engine.run(&query, &empty, &empty, &mut result[..2], &mut positions);
//! assert_eq!(refused, Err(Refusal::ResultLong));
//! assert_eq!(result, [0, 0, 0, 0xff]);
//! # Ok::<(), tquery::BuildError>(())
//! ```

#![warn(missing_docs)]
#![deny(unsafe_op_in_unsafe_fn)]
#![deny(unsafe_code)]

mod decode;
mod engine;
mod error;
mod ffi;
mod field;
pub mod limits;
mod message;
mod notation;
mod path;
mod query;
mod refusal;
mod tags;
mod traced;
mod trays;
mod tree;

/// The README's example, tested with the others.
#[cfg(doctest)]
#[doc = include_str!("../README.md")]
struct Readme;

pub use engine::{check_array, check_query, Engine, Line};
pub use error::{BuildError, DecodeCause, DecodeError, Error, ParseCause, ParseError};
pub use message::{Message, MessageCause, MessageError, Name, Value, Values};
pub use path::Path;
pub use query::{Criterion, Data, Item, Pair, Query, Stage};
pub use refusal::Refusal;
pub use traced::{trace, Traced};
pub use trays::{TrayCause, TrayError, Trays, Unfit};
pub use tree::{Array, Root, Text, Tree};
