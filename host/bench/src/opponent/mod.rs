//! The opponent: the same calls in plain safe Rust, written by hand for speed.
//!
//! It makes every test that documents 01 and 02 ask for, in their order, and leaves the areas as their
//! table says, positions among them, so that it does what the engine does and no less: it answers as crate
//! `reference` does on random cases, refusals among them. It reads queries and trees where they stand; a
//! tree goes through the stages of a stretch before the next one is begun, and what a stage makes stands in
//! a buffer that the next tree takes over. Unlike the engine it takes memory from the heap, a few times for
//! a stage and never for a tree, except to compare two paths that both have two or more labels; so it does
//! not use the work area, and only clears it. And it groups and joins through hash maps. It is not proved,
//! and it is not the fastest that could be written: it has no unsafe code, no instructions of one machine,
//! and keeps nothing from one run to the next.

mod bytes;
mod index;
mod query;
mod read;
mod stream;
mod tracer;
mod write;

use bytes::{check_array, ARRAY};
use query::check_query;
pub use tracer::trace;

/// A refusal, by the documents' number.
pub type Refused = u32;

const WORK: usize = 65536;
const POSITIONS: usize = 2730;

/// Runs the query and writes the result and the positions of its trees: its length, or the number of the
/// refusal.
pub fn run(
    query: &[u8],
    input: &[u8],
    joined: &[u8],
    work: &mut [u8],
    result: &mut [u8],
    positions: &mut [u16],
) -> Result<usize, Refused> {
    if work.len() < WORK {
        return Err(1);
    }
    if positions.len() < POSITIONS {
        return Err(11);
    }
    let answer = admitted(query, input, joined, result, positions);
    work.fill(0);
    if matches!(answer, Err(8..)) {
        result.fill(0);
        positions.fill(0);
    }
    answer
}

fn admitted(
    query: &[u8],
    input: &[u8],
    joined: &[u8],
    result: &mut [u8],
    positions: &mut [u16],
) -> Result<usize, Refused> {
    let query = check_query(query)?;
    let input = check_array(input, 4, 5)?;
    let joined = check_array(joined, 6, 7)?;
    let room = result.len().min(ARRAY);
    let Some((head, out)) = result[..room].split_first_chunk_mut::<3>() else {
        // no array fits, but a tree that is too large goes before that
        return stream::run(&query, input, joined, &mut [], positions).and(Err(10));
    };
    let used = stream::run(&query, input, joined, out, positions)?;
    let [high, low] = (used as u16).to_be_bytes();
    *head = [1, high, low];
    Ok(used + 3)
}
