//! What can go wrong, in words, and the status that says it.

use std::fmt;
use std::io;
use tquery::{TrayCause, TrayError, Unfit};

#[derive(Debug)]
pub enum Failure {
    /// The words of the command line are not understood.
    Usage,
    /// The query is not good for trays, or not one that the engine takes.
    Query(Unfit),
    /// A file or standard input cannot be read.
    Unreadable(String, io::Error),
    /// Bytes of a file or of standard input, from this place on, that are no whole array.
    Loose(String, u64),
    /// The engine refused a tray or a result, of this name.
    Refused(String, TrayCause),
    /// Standard output cannot be written.
    Unwritten(io::Error),
}

impl Failure {
    /// The process's status: the engine's number, or one above them all.
    pub fn status(&self) -> u8 {
        let refused = |number: u32| u8::try_from(number).unwrap_or(u8::MAX);
        match self {
            Failure::Refused(_, cause) => refused(cause.refusal().number()),
            Failure::Query(Unfit::Refused(refusal)) => refused(refusal.number()),
            Failure::Usage => 64,
            Failure::Query(_) => 65,
            Failure::Unreadable(..) => 66,
            Failure::Loose(..) => 67,
            Failure::Unwritten(_) => 68,
        }
    }

    /// A tray of this name that was refused.
    pub fn of_tray(name: String) -> impl FnOnce(TrayError) -> Failure {
        move |error| Failure::Refused(name, error.cause)
    }
}

impl From<Unfit> for Failure {
    fn from(unfit: Unfit) -> Failure {
        Failure::Query(unfit)
    }
}

impl fmt::Display for Failure {
    fn fmt(&self, out: &mut fmt::Formatter<'_>) -> fmt::Result {
        match self {
            Failure::Usage => {
                write!(out, "map QUERY JOINED [TRAY]... or join QUERY [RESULTS]...; --help says more")
            }
            Failure::Query(unfit) => write!(out, "the query: {unfit}"),
            Failure::Unreadable(name, error) => write!(out, "{name}: {error}"),
            Failure::Loose(name, at) => write!(out, "{name}: from byte {at} on no whole array stands there"),
            Failure::Refused(name, cause) => write!(out, "{name}: {cause}"),
            Failure::Unwritten(error) => write!(out, "standard output: {error}"),
        }
    }
}
