//! Fields of a query as they are built.

use crate::error::BuildError;
use crate::path::Path;
use crate::tree::{put_head, Array};
use crate::{limits, tags};
use std::fmt;

/// A field of a query: its bytes, or the first mistake that was made on the way.
///
/// A field holds bytes and not its parts, so that nothing is nested in memory,
/// however deep a caller nests. A mistake is carried, so that a query is
/// written as one expression and the mistake comes out where it is encoded.
#[derive(Clone, PartialEq, Eq)]
pub(crate) struct Field {
    form: Result<Vec<u8>, BuildError>,
    /// How many criteria and data stand on the longest way inward, this one included.
    nesting: usize,
}

impl Field {
    /// A field of this content.
    pub fn new(tag: u8, content: &[u8]) -> Field {
        Field { form: enclose(tag, content), nesting: 0 }
    }

    /// A field that holds others, and is neither criterion nor data.
    pub fn of(tag: u8, parts: &[Field]) -> Field {
        let form = join(parts).and_then(|content| enclose(tag, &content));
        Field { form, nesting: 0 }
    }

    /// A criterion or data, which holds others: one deeper than the deepest of them.
    pub fn nested(tag: u8, parts: &[Field]) -> Field {
        let nesting = 1 + parts.iter().map(|part| part.nesting).max().unwrap_or(0);
        let form = Field::of(tag, parts).form;
        Field { form, nesting }.unless(nesting > limits::NESTING, BuildError::Nesting(nesting))
    }

    /// This field, or a mistake where the count of its parts is out of range.
    pub fn counted(self, what: &'static str, found: usize, least: usize, most: usize) -> Field {
        let wrong = found < least || most < found;
        self.unless(wrong, BuildError::Count { what, found, least, most })
    }

    /// This field, or a mistake where something is wrong; an earlier mistake stays.
    pub fn unless(self, wrong: bool, mistake: BuildError) -> Field {
        let form = self.form.and_then(|bytes| if wrong { Err(mistake) } else { Ok(bytes) });
        Field { form, ..self }
    }

    /// The bytes, or the mistake.
    pub fn bytes(&self) -> Result<&[u8], BuildError> {
        self.form.as_deref().map_err(Clone::clone)
    }
}

impl From<Path> for Field {
    fn from(path: Path) -> Field {
        Field::new(tags::PATH, path.labels())
    }
}

impl From<Array> for Field {
    fn from(array: Array) -> Field {
        // counted before it is written: an array may be of any length
        let form = match array.size() {
            size if size > limits::QUERY => Err(BuildError::QueryLong(size)),
            _ => array.encode(),
        };
        Field { form, nesting: 0 }
    }
}

impl fmt::Debug for Field {
    fn fmt(&self, out: &mut fmt::Formatter<'_>) -> fmt::Result {
        match &self.form {
            Ok(bytes) => bytes.iter().try_for_each(|byte| write!(out, "{byte:02x}")),
            Err(mistake) => write!(out, "({mistake})"),
        }
    }
}

/// The bytes of fields that stand one behind another, or the first mistake in them.
fn join(parts: &[Field]) -> Result<Vec<u8>, BuildError> {
    let parts: Vec<&[u8]> = parts.iter().map(Field::bytes).collect::<Result<_, _>>()?;
    Ok(parts.concat())
}

/// The bytes of a field. What no query can hold is refused here, so that a
/// field never grows past what its two length bytes can say.
fn enclose(tag: u8, content: &[u8]) -> Result<Vec<u8>, BuildError> {
    let size = 3 + content.len();
    if size > limits::QUERY {
        return Err(BuildError::QueryLong(size));
    }
    let mut out = Vec::with_capacity(size);
    put_head(tag, content.len(), &mut out);
    out.extend_from_slice(content);
    Ok(out)
}
