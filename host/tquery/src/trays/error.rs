//! Why a query is not good for trays, and why a tray was refused.

use crate::error::BuildError;
use crate::refusal::Refusal;
use std::error::Error;
use std::fmt;

/// Why a query is not good for trays: their results would not join to what
/// the stages give of all the trays together.
#[derive(Clone, Debug, PartialEq, Eq)]
#[non_exhaustive]
pub enum Unfit {
    /// The query has no byte form.
    Build(BuildError),
    /// The engine refuses the query's bytes, with 2 or 3.
    Refused(Refusal),
    /// This stage, counted from 1, is a group, and others follow it.
    GroupInside(usize),
    /// This aggregate of the last group, counted from 1, is a total.
    Total(usize),
    /// A destination of the last group has this many labels.
    DestinationLong(usize),
    /// Two destinations of the last group are this label.
    DestinationTwice(u8),
}

impl fmt::Display for Unfit {
    fn fmt(&self, out: &mut fmt::Formatter<'_>) -> fmt::Result {
        match self {
            Unfit::Build(error) => error.fmt(out),
            Unfit::Refused(refusal) => refusal.fmt(out),
            Unfit::GroupInside(stage) => {
                write!(
                    out,
                    "stage {stage} is a group and not the last stage; for trays only the last may be one"
                )
            }
            Unfit::Total(aggregate) => {
                write!(out, "aggregate {aggregate} of the last group is a total; for trays none may be one")
            }
            Unfit::DestinationLong(labels) => {
                write!(out, "a destination of the last group has {labels} labels; for trays each has one")
            }
            Unfit::DestinationTwice(label) => {
                write!(
                    out,
                    "two destinations of the last group are label {label}; for trays all are distinct"
                )
            }
        }
    }
}

impl Error for Unfit {}

impl From<BuildError> for Unfit {
    fn from(error: BuildError) -> Unfit {
        Unfit::Build(error)
    }
}

impl From<Refusal> for Unfit {
    fn from(refusal: Refusal) -> Unfit {
        Unfit::Refused(refusal)
    }
}

/// A tray that was refused. The list is as it was before it.
#[derive(Clone, Copy, Debug, PartialEq, Eq)]
pub struct TrayError {
    /// Which tray, counted from 1 as they come.
    pub tray: usize,
    /// What was refused, and why.
    pub cause: TrayCause,
}

/// What the engine refused of a tray.
#[derive(Clone, Copy, Debug, PartialEq, Eq)]
pub enum TrayCause {
    /// The run of the query over the tray.
    Run(Refusal),
    /// Its result, or that joined with the list so far.
    Join(Refusal),
}

impl TrayCause {
    /// The refusal.
    pub fn refusal(self) -> Refusal {
        match self {
            TrayCause::Run(refusal) | TrayCause::Join(refusal) => refusal,
        }
    }
}

impl fmt::Display for TrayCause {
    fn fmt(&self, out: &mut fmt::Formatter<'_>) -> fmt::Result {
        let words = match self {
            TrayCause::Run(refusal) => refusal.words(),
            // the list is the first array, which the engine made: what is wrong is the second's
            TrayCause::Join(Refusal::InputLong) => "result over 16,384 bytes",
            TrayCause::Join(Refusal::InputMalformed) => "result malformed, tree limits included",
            TrayCause::Join(Refusal::GroupLong) => "the list so far and the result joined over 16,384 bytes",
            TrayCause::Join(refusal) => refusal.regroup_words(),
        };
        write!(out, "refused {}: {words}", self.refusal().number())
    }
}

impl fmt::Display for TrayError {
    fn fmt(&self, out: &mut fmt::Formatter<'_>) -> fmt::Result {
        write!(out, "tray {}: {}", self.tray, self.cause)
    }
}

impl Error for TrayError {}
