//! The form of lines: what a name and a value are, and the lines of bytes.

use super::error::MessageCause;
use crate::limits;

/// What ends a line.
pub const END: &[u8] = b"\r\n";

/// Whether a name is in form.
pub fn check_name(name: &[u8]) -> Result<(), MessageCause> {
    let wrong = |byte: &&u8| !byte.is_ascii_uppercase() && !byte.is_ascii_digit();
    if let Some(byte) = name.iter().find(wrong) {
        return Err(MessageCause::NameByte(*byte));
    }
    match name.first() {
        Some(b'0'..=b'9') => Err(MessageCause::NameDigit),
        Some(_) if name.len() <= limits::NAME => Ok(()),
        _ => Err(MessageCause::NameLength(name.len())),
    }
}

/// Whether a value is in form.
pub fn check_value(value: &[u8]) -> Result<(), MessageCause> {
    let wrong = |byte: &&u8| !(0x20..=0x7e).contains(*byte) || **byte == b';';
    if let Some(byte) = value.iter().find(wrong) {
        return Err(MessageCause::ValueByte(*byte));
    }
    if value.len() > limits::VALUE {
        return Err(MessageCause::ValueLong(value.len()));
    }
    Ok(())
}

/// A line taken apart: its name, and its values.
pub type Line<'b> = (&'b [u8], Vec<&'b [u8]>);

/// The first line of some bytes and what follows it. That its parts are in form
/// is asked where they become a line of a message.
pub fn first(bytes: &[u8]) -> Result<(Line<'_>, &[u8]), MessageCause> {
    let end = bytes.windows(END.len()).position(|two| two == END).ok_or(MessageCause::EndMissing)?;
    let line = &bytes[..end];
    let equals = line.iter().position(|byte| *byte == b'=').ok_or(MessageCause::EqualsMissing)?;
    let values = line[equals + 1..].split(|byte| *byte == b';').collect();
    Ok(((&line[..equals], values), &bytes[end + END.len()..]))
}
