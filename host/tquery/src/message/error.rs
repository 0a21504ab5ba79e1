//! What cannot be a message, in words.

use super::name::Name;
use crate::limits;
use std::error::Error;
use std::fmt;

/// Why something cannot be a line of a message, and which line it is.
#[derive(Clone, Debug, PartialEq, Eq)]
pub struct MessageError {
    /// The line, counted from 1.
    pub line: usize,
    /// What is wrong with it.
    pub cause: MessageCause,
}

/// What is wrong with a line of a message.
#[derive(Clone, Debug, PartialEq, Eq)]
#[non_exhaustive]
pub enum MessageCause {
    /// The name has this many bytes.
    NameLength(usize),
    /// The name has this byte, which is neither a capital letter nor a digit.
    NameByte(u8),
    /// The name begins with a digit.
    NameDigit,
    /// No equals sign stands in the line.
    EqualsMissing,
    /// The line has this many values.
    ValueCount(usize),
    /// A value has this many bytes.
    ValueLong(usize),
    /// A value has this byte, which is not printable or a semicolon.
    ValueByte(u8),
    /// The line does not end with the bytes 0D 0A.
    EndMissing,
    /// One of the seven names has a line already.
    NameTwice(Name),
    /// With this line the message would have this many bytes.
    Long(usize),
    /// So many hundredths need more than six digits before the point.
    HundredthsLarge(i64),
    /// A number is given for `JOB`, where it would be read as text.
    NumberForJob,
    /// A text is given that would be read as a number.
    TextAsNumber,
    /// A text without bytes is given, which would be read as void.
    TextEmpty,
}

impl fmt::Display for MessageCause {
    fn fmt(&self, out: &mut fmt::Formatter<'_>) -> fmt::Result {
        match self {
            MessageCause::NameLength(found) => {
                write!(out, "a name of {found} bytes; it has 1 to {}", limits::NAME)
            }
            MessageCause::NameByte(found) => {
                write!(out, "byte {found:02X} in a name; it has capital letters and digits")
            }
            MessageCause::NameDigit => {
                write!(out, "a name that begins with a digit; it begins with a letter")
            }
            MessageCause::EqualsMissing => write!(out, "no equals sign behind the name"),
            MessageCause::ValueCount(found) => write!(out, "{found} values; a line has one or two"),
            MessageCause::ValueLong(found) => {
                write!(out, "a value of {found} bytes; at most {} are allowed", limits::VALUE)
            }
            MessageCause::ValueByte(found) => {
                write!(out, "byte {found:02X} in a value; it has bytes from 20 to 7E and no semicolon, 3B")
            }
            MessageCause::EndMissing => write!(out, "the line does not end with the bytes 0D 0A"),
            MessageCause::NameTwice(name) => write!(out, "the message has a line {name} already"),
            MessageCause::Long(found) => {
                write!(out, "a message of {found} bytes; at most {} are allowed", limits::MESSAGE)
            }
            MessageCause::HundredthsLarge(found) => {
                write!(out, "{found} hundredths; at most {} can be written", limits::HUNDREDTHS)
            }
            MessageCause::NumberForJob => write!(out, "a number for JOB; it would be read as text"),
            MessageCause::TextAsNumber => write!(out, "a text that would be read as a number"),
            MessageCause::TextEmpty => write!(out, "a text without bytes; it would be read as void"),
        }
    }
}

impl fmt::Display for MessageError {
    fn fmt(&self, out: &mut fmt::Formatter<'_>) -> fmt::Result {
        write!(out, "line {} of the message: {}", self.line, self.cause)
    }
}

impl Error for MessageError {}
