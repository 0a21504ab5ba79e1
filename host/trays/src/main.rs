//! `trays`: a day's list from records that come in trays, over files and pipes.
//!
//! `trays map` runs the query over trays, in as many processes and on as many
//! machines as there are; `trays join` makes one list of the results. What
//! each does is said in [`HELP`].

mod failure;
mod input;
mod join;
mod map;

use failure::Failure;
use std::ffi::OsString;
use std::io::Write;
use std::path::Path;
use std::process::ExitCode;

const HELP: &str = "\
trays: one list of a day whose records come in trays

    trays map QUERY JOINED [TRAY]...
        Runs the query over each tray, with one joined array, and writes the
        results one behind another. Without a TRAY it reads one tray from
        standard input.

    trays join QUERY [RESULTS]...
        Makes the day's list of the trays' results: arrays one behind another,
        in the order of the trays, in files or from standard input. A list is
        a result too, of all its trays, so lists of parts of a day may be
        joined again.

QUERY, JOINED, TRAY and RESULTS are files of byte forms. A query is good for
trays if it has no group, or ends in its only group, which has no total and
whose destinations are single labels, no two equal. Without a group the list is
written as arrays of at most 16,384 bytes, each with as many trees as fit; with
one it is one array. The list of no tray is the empty array.

Nothing is written unless all went well. Status:

     0      all went well
     1..10  the engine refused, with this number
    64      the words are not understood
    65      the query is not good for trays
    66      a file or standard input cannot be read
    67      what stands in RESULTS is not whole arrays
    68      standard output cannot be written
";

fn main() -> ExitCode {
    let words: Vec<OsString> = std::env::args_os().skip(1).collect();
    match outcome(&words).and_then(|bytes| write(&bytes)) {
        Ok(()) => ExitCode::SUCCESS,
        Err(failure) => {
            eprintln!("trays: {failure}");
            ExitCode::from(failure.status())
        }
    }
}

/// What is to be written.
fn outcome(words: &[OsString]) -> Result<Vec<u8>, Failure> {
    let paths: Vec<&Path> = words.iter().map(Path::new).collect();
    match paths.split_first() {
        Some((word, _)) if *word == Path::new("--help") => Ok(HELP.into()),
        Some((word, [query, joined, trays @ ..])) if *word == Path::new("map") => {
            map::map(query, joined, trays)
        }
        Some((word, [query, results @ ..])) if *word == Path::new("join") => join::join(query, results),
        _ => Err(Failure::Usage),
    }
}

fn write(bytes: &[u8]) -> Result<(), Failure> {
    let mut out = std::io::stdout().lock();
    out.write_all(bytes).and_then(|()| out.flush()).map_err(Failure::Unwritten)
}
