//! What can be wrong with a value, its bytes or its notation, in words.

use crate::limits;
use crate::Refusal;
use std::error::Error as StdError;
use std::fmt;

/// What cannot be built, because the format has no byte form for it.
#[derive(Clone, Debug, PartialEq, Eq)]
#[non_exhaustive]
pub enum BuildError {
    /// A label is 0; labels run from 1 to 255.
    LabelZero,
    /// A tree has this label already.
    LabelTwice(u8),
    /// A path would have this many labels.
    PathLong(usize),
    /// A text would have this many bytes.
    TextLong(usize),
    /// A tree would take this many bytes.
    TreeLarge(usize),
    /// A tree would reach this depth.
    TreeDeep(usize),
    /// An array would take this many bytes.
    ArrayLong(usize),
    /// A destination is the empty path: of a place, of a pair, of a total, or
    /// of a lookup.
    DestinationEmpty(&'static str),
    /// A total stands among the grouping pairs of a group.
    TotalInGrouping,
    /// The divisor of reduced data is out of range.
    Divisor(u16),
    /// Criteria and data would be nested this deep.
    Nesting(usize),
    /// There are too many or too few of something.
    Count {
        /// What is counted.
        what: &'static str,
        /// How many there are.
        found: usize,
        /// The least that is allowed.
        least: usize,
        /// The most that is allowed.
        most: usize,
    },
    /// A query, or a part of it, would take this many bytes.
    QueryLong(usize),
}

impl fmt::Display for BuildError {
    fn fmt(&self, out: &mut fmt::Formatter<'_>) -> fmt::Result {
        match self {
            BuildError::LabelZero => write!(out, "a label is 0; labels run from 1 to 255"),
            BuildError::LabelTwice(label) => write!(out, "the tree has label {label} already"),
            BuildError::PathLong(found) => {
                write!(out, "a path of {found} labels; at most {} are allowed", limits::PATH)
            }
            BuildError::TextLong(found) => {
                write!(out, "a text of {found} bytes; at most {} are allowed", limits::TEXT)
            }
            BuildError::TreeLarge(found) => {
                write!(out, "a tree of {found} bytes; at most {} are allowed", limits::TREE)
            }
            BuildError::TreeDeep(found) => {
                write!(out, "a tree of depth {found}; at most {} is allowed", limits::DEPTH)
            }
            BuildError::ArrayLong(found) => {
                write!(out, "an array of {found} bytes; at most {} are allowed", limits::ARRAY)
            }
            BuildError::DestinationEmpty(what) => {
                write!(out, "the destination of a {what} is the empty path; it needs a label")
            }
            BuildError::TotalInGrouping => {
                write!(out, "a total among the grouping pairs; it may only be an aggregate")
            }
            BuildError::Divisor(found) => {
                write!(out, "a divisor of {found}; it runs from 1 to {}", limits::DIVISOR)
            }
            BuildError::Nesting(found) => {
                write!(out, "criteria and data nested {found} deep; at most {} is allowed", limits::NESTING)
            }
            BuildError::Count { what, found, least, most } => {
                write!(out, "the number of {what} is {found}; it runs from {least} to {most}")
            }
            BuildError::QueryLong(found) => {
                write!(out, "a query of at least {found} bytes; at most {} are allowed", limits::QUERY)
            }
        }
    }
}

impl StdError for BuildError {}

/// Why bytes are not the byte form of an array, and where.
#[derive(Clone, Debug, PartialEq, Eq)]
pub struct DecodeError {
    /// The position of the field at fault, from 0.
    pub at: usize,
    /// What is wrong with it.
    pub cause: DecodeCause,
}

/// What is wrong with a field.
#[derive(Clone, Debug, PartialEq, Eq)]
#[non_exhaustive]
pub enum DecodeCause {
    /// The bytes end before the field does.
    Cut,
    /// Bytes follow where the field should have ended.
    Trailing,
    /// Another kind of field should stand here.
    Tag {
        /// What should stand here.
        wanted: &'static str,
        /// The tag that stands here.
        found: u8,
    },
    /// A root has a length that its kind does not allow.
    Length(usize),
    /// A boolean is neither 0 nor 1.
    Boolean(u8),
    /// A label does not rise above the one before it.
    LabelOrder(u8),
    /// The array or the tree passes a limit of the format.
    Limit(BuildError),
    /// The array is not one tree that a tracer's message could become. The
    /// engine's promise rules this out.
    Untraced,
}

impl fmt::Display for DecodeError {
    fn fmt(&self, out: &mut fmt::Formatter<'_>) -> fmt::Result {
        write!(out, "at byte {}: {}", self.at, self.cause)
    }
}

impl fmt::Display for DecodeCause {
    fn fmt(&self, out: &mut fmt::Formatter<'_>) -> fmt::Result {
        match self {
            DecodeCause::Cut => write!(out, "the bytes end before the field does"),
            DecodeCause::Trailing => write!(out, "bytes follow where the field should have ended"),
            DecodeCause::Tag { wanted, found } => {
                write!(out, "{wanted} should stand here, but the tag is {found}")
            }
            DecodeCause::Length(found) => {
                write!(out, "a root of this kind cannot have {found} bytes")
            }
            DecodeCause::Boolean(found) => write!(out, "a boolean is 0 or 1, not {found}"),
            DecodeCause::LabelOrder(label) => {
                write!(out, "label {label} does not rise above the one before it")
            }
            DecodeCause::Limit(limit) => write!(out, "{limit}"),
            DecodeCause::Untraced => write!(out, "this is not what a tracer's message becomes"),
        }
    }
}

impl StdError for DecodeError {}

/// Why a text is not the notation of a tree, an array or a path, and where.
#[derive(Clone, Debug, PartialEq, Eq)]
pub struct ParseError {
    /// The position in the text, in bytes from 0.
    pub at: usize,
    /// What is wrong there.
    pub cause: ParseCause,
}

/// What is wrong at a place of a notation.
#[derive(Clone, Debug, PartialEq, Eq)]
#[non_exhaustive]
pub enum ParseCause {
    /// Something else should stand here.
    Expected(&'static str),
    /// The integer does not fit 64 bits.
    Integer,
    /// The label is not a number from 1 to 255.
    Label,
    /// The text has an escape that is none of `\"`, `\\` and `\x` with two hexadecimal digits.
    Escape,
    /// What is written passes a limit of the format.
    Limit(BuildError),
}

impl fmt::Display for ParseError {
    fn fmt(&self, out: &mut fmt::Formatter<'_>) -> fmt::Result {
        write!(out, "at byte {} of the text: {}", self.at, self.cause)
    }
}

impl fmt::Display for ParseCause {
    fn fmt(&self, out: &mut fmt::Formatter<'_>) -> fmt::Result {
        match self {
            ParseCause::Expected(what) => write!(out, "{what} should stand here"),
            ParseCause::Integer => write!(out, "the integer does not fit 64 bits"),
            ParseCause::Label => write!(out, "a label is a number from 1 to 255"),
            ParseCause::Escape => {
                write!(out, "an escape is \\\", \\\\ or \\x with two hexadecimal digits")
            }
            ParseCause::Limit(limit) => write!(out, "{limit}"),
        }
    }
}

impl StdError for ParseError {}

/// What can go wrong where trees go in and trees come out.
#[derive(Clone, Debug, PartialEq, Eq)]
pub enum Error {
    /// The query or an array has no byte form.
    Build(BuildError),
    /// The engine refused the run.
    Refused(Refusal),
    /// The engine refused a regrouping, some causes of which are others.
    Regroup(Refusal),
    /// The result is not the byte form of an array. The engine's promise rules this out.
    Decode(DecodeError),
}

impl fmt::Display for Error {
    fn fmt(&self, out: &mut fmt::Formatter<'_>) -> fmt::Result {
        match self {
            Error::Build(error) => error.fmt(out),
            Error::Refused(error) => error.fmt(out),
            Error::Regroup(error) => {
                write!(out, "refused {}: {}", error.number(), error.regroup_words())
            }
            Error::Decode(error) => error.fmt(out),
        }
    }
}

impl StdError for Error {}

impl From<BuildError> for Error {
    fn from(error: BuildError) -> Error {
        Error::Build(error)
    }
}

impl From<Refusal> for Error {
    fn from(error: Refusal) -> Error {
        Error::Refused(error)
    }
}

impl From<DecodeError> for Error {
    fn from(error: DecodeError) -> Error {
        Error::Decode(error)
    }
}
