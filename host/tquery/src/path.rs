//! Paths: where a query looks in a tree, and where it places what it made.

use crate::error::BuildError;
use crate::limits;

/// A path of 0 to 8 labels, each from 1 to 255.
///
/// ```
/// use tquery::{BuildError, Path};
///
/// assert_eq!(Path::new([1, 2])?.to_string(), "1.2");
/// assert_eq!("1.2".parse(), Ok(Path::new([1, 2])?));
/// assert_eq!(Path::new([1, 0]), Err(BuildError::LabelZero));
/// # Ok::<(), BuildError>(())
/// ```
#[derive(Clone, Debug, Default, PartialEq, Eq, Hash)]
pub struct Path(Vec<u8>);

impl Path {
    /// A path of these labels, or an error if there are more than 8 or one is 0.
    pub fn new(labels: impl AsRef<[u8]>) -> Result<Path, BuildError> {
        let labels = labels.as_ref();
        if labels.len() > limits::PATH {
            return Err(BuildError::PathLong(labels.len()));
        }
        if labels.contains(&0) {
            return Err(BuildError::LabelZero);
        }
        Ok(Path(labels.to_vec()))
    }

    /// The empty path, which leads to the tree itself.
    pub fn empty() -> Path {
        Path::default()
    }

    /// The labels, first to last.
    pub fn labels(&self) -> &[u8] {
        &self.0
    }

    /// Whether it is the empty path.
    pub fn is_empty(&self) -> bool {
        self.0.is_empty()
    }
}
