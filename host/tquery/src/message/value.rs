//! The values of lines.

use crate::error::BuildError;
use crate::limits;
use crate::tree::{Root, Text};

/// A value of one of the seven lines, as it is read.
#[derive(Clone, Debug, PartialEq, Eq, Hash)]
pub enum Value {
    /// Nothing: the value is empty.
    Void,
    /// A number, in hundredths: a length of 52.4 mm is 5240.
    Hundredths(i64),
    /// A text of 1 to 80 printable bytes without a semicolon.
    Text(Text),
}

impl Value {
    /// A text, or an error if it has more than 255 bytes. Whether it can be a
    /// value of a line is asked where it becomes one.
    pub fn text(bytes: impl Into<Vec<u8>>) -> Result<Value, BuildError> {
        Ok(Value::Text(Text::new(bytes)?))
    }

    /// The number, in hundredths, or nothing if the value is none.
    pub fn hundredths(&self) -> Option<i64> {
        match self {
            Value::Hundredths(hundredths) => Some(*hundredths),
            _ => None,
        }
    }

    /// The text, or nothing if the value is none.
    pub fn as_str(&self) -> Option<&str> {
        match self {
            Value::Text(text) => text.as_str(),
            _ => None,
        }
    }

    /// The value whose root this is, or nothing: no value is a boolean.
    pub(crate) fn of_root(root: &Root) -> Option<Value> {
        match root {
            Root::Void => Some(Value::Void),
            Root::Integer(hundredths) => Some(Value::Hundredths(*hundredths)),
            Root::Text(text) => Some(Value::Text(text.clone())),
            Root::Boolean(_) => None,
        }
    }
}

/// The values of a line: one, or two.
#[derive(Clone, Debug, PartialEq, Eq, Hash)]
pub struct Values {
    /// The first value.
    pub first: Value,
    /// The second value, which may be missing; an empty one is [`Value::Void`].
    pub second: Option<Value>,
}

impl Values {
    /// The values, one or two.
    pub fn iter(&self) -> impl Iterator<Item = &Value> {
        [&self.first].into_iter().chain(&self.second)
    }
}

/// A number of hundredths as a line has it, with no more digits than it needs,
/// or nothing if it needs more than six before the point.
pub(super) fn written(hundredths: i64) -> Option<String> {
    if hundredths.unsigned_abs() > limits::HUNDREDTHS.unsigned_abs() {
        return None;
    }
    let sign = if hundredths < 0 { "-" } else { "" };
    let (whole, part) = (hundredths.abs() / 100, hundredths.abs() % 100);
    Some(match part {
        0 => format!("{sign}{whole}"),
        _ if part % 10 == 0 => format!("{sign}{whole}.{}", part / 10),
        _ => format!("{sign}{whole}.{part:02}"),
    })
}

/// Whether a value is a number: an optional minus, 1 to 6 digits, and
/// optionally a point with 1 or 2 digits.
pub(super) fn is_number(value: &[u8]) -> bool {
    let digits =
        |bytes: &[u8], most: usize| (1..=most).contains(&bytes.len()) && bytes.iter().all(u8::is_ascii_digit);
    let amount = value.strip_prefix(b"-").unwrap_or(value);
    match amount.iter().position(|byte| *byte == b'.') {
        Some(point) => digits(&amount[..point], 6) && digits(&amount[point + 1..], 2),
        None => digits(amount, 6),
    }
}

#[cfg(test)]
mod tests {
    use super::*;

    #[test]
    fn hundredths_take_no_more_digits_than_they_need() {
        let cases = [
            (0, "0"),
            (5, "0.05"),
            (-5, "-0.05"),
            (50, "0.5"),
            (5200, "52"),
            (5240, "52.4"),
            (5205, "52.05"),
            (-99_999_999, "-999999.99"),
            (99_999_999, "999999.99"),
        ];
        for (hundredths, expected) in cases {
            assert_eq!(written(hundredths).as_deref(), Some(expected));
            assert!(is_number(expected.as_bytes()));
        }
        for hundredths in [100_000_000, -100_000_000, i64::MAX, i64::MIN] {
            assert_eq!(written(hundredths), None);
        }
    }

    #[test]
    fn what_is_no_number() {
        for value in ["", "-", ".", "1.", ".5", "+1", "1.234", "1234567", " 5", "5 ", "--1", "1.-5", "1.2.3"]
        {
            assert!(!is_number(value.as_bytes()), "{value}");
        }
    }
}
