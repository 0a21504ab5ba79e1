//! What a tracer's message becomes.

use crate::error::{DecodeCause, DecodeError, Error};
use crate::message::{Name, Value, Values};
use crate::refusal::{length_of, Refusal};
use crate::tree::{Array, Root, Tree};
use crate::{ffi, limits};

/// Makes the array of one tree that a tracer's message becomes, and gives its
/// length. It then stands at the start of the result area, and the bytes behind
/// it are as they were. A result area of [`limits::TRACED`] bytes holds every
/// such array.
///
/// The refusals are [`Refusal::MessageMalformed`], which leaves the result area
/// as it was, and then [`Refusal::ResultLong`], which leaves it all zero.
///
/// ```
/// use tquery::{limits, trace, Refusal};
///
/// let mut result = [0xff; limits::TRACED];
/// assert_eq!(trace(b"", &mut result), Ok(9));
/// assert_eq!(result[..10], [1, 0, 6, 2, 0, 3, 3, 0, 0, 0xff]);
/// assert_eq!(trace(b"JOB=4711", &mut result), Err(Refusal::MessageMalformed));
/// assert_eq!(trace(b"JOB=4711\r\n", &mut result[..9]), Err(Refusal::ResultLong));
/// assert_eq!(result[..10], [0, 0, 0, 0, 0, 0, 0, 0, 0, 0xff]);
/// ```
pub fn trace(message: &[u8], result: &mut [u8]) -> Result<usize, Refusal> {
    length_of(ffi::tracer(message, result))
}

/// A tracer's message as the engine read it: a tree, and the values that it has
/// by the seven names.
///
/// ```
/// use tquery::{Name, Traced, Value};
///
/// # fn main() -> Result<(), Box<dyn std::error::Error>> {
/// let traced = Traced::read(b"DBL=18\r\nIPD=31.5;\r\nVENDOR=x\r\nJOB=4711\r\n")?;
/// assert_eq!(traced.tree().to_string(), r#"v{1:["4711"], 2:[1800], 6:[3150, v]}"#);
///
/// assert_eq!(traced.job().and_then(|values| values.first.as_str()), Some("4711"));
/// let ipd = traced.get(Name::Ipd).expect("the message has an IPD");
/// assert_eq!((ipd.first.hundredths(), &ipd.second), (Some(3150), &Some(Value::Void)));
/// assert!(traced.fed().is_none());
/// # Ok(())
/// # }
/// ```
#[derive(Clone, Debug, PartialEq, Eq, Hash)]
pub struct Traced {
    tree: Tree,
    /// By label, from 1.
    values: [Option<Values>; 7],
}

impl Traced {
    /// Reads the bytes that a tracer sent, by the engine, or says why it
    /// refused. Which line is at fault a refusal does not say;
    /// [`Message::of_bytes`](crate::Message::of_bytes) does.
    pub fn read(message: &[u8]) -> Result<Traced, Error> {
        let mut result = [0; limits::TRACED];
        let length = trace(message, &mut result)?;
        let mut trees = Array::decode(&result[..length])?.into_iter();
        let traced = trees.next().and_then(Traced::of).filter(|_| trees.next().is_none());
        Ok(traced.ok_or(DecodeError { at: 0, cause: DecodeCause::Untraced })?)
    }

    /// The view of a tree that has the form of a message's, or nothing: its root
    /// is void, its labels are from 1 to 7, and each holds one or two bare trees
    /// that are void, an integer or a text.
    pub fn of(tree: Tree) -> Option<Traced> {
        let known = tree.labels().all(|(label, _)| (1..=7).contains(&label));
        if *tree.root() != Root::Void || !known {
            return None;
        }
        let mut values = [const { None }; 7];
        for (name, place) in Name::ALL.into_iter().zip(&mut values) {
            if let Some(array) = tree.get(name.label()) {
                *place = Some(values_of(array)?);
            }
        }
        Some(Traced { tree, values })
    }

    /// The tree.
    pub fn tree(&self) -> &Tree {
        &self.tree
    }

    /// The tree, to be put into an array.
    pub fn into_tree(self) -> Tree {
        self.tree
    }

    /// The values of one of the seven names, or nothing if it has no line.
    pub fn get(&self, name: Name) -> Option<&Values> {
        self.values.get(usize::from(name.label()) - 1)?.as_ref()
    }

    /// The values of `JOB`.
    pub fn job(&self) -> Option<&Values> {
        self.get(Name::Job)
    }

    /// The values of `DBL`.
    pub fn dbl(&self) -> Option<&Values> {
        self.get(Name::Dbl)
    }

    /// The values of `HBOX`.
    pub fn hbox(&self) -> Option<&Values> {
        self.get(Name::Hbox)
    }

    /// The values of `VBOX`.
    pub fn vbox(&self) -> Option<&Values> {
        self.get(Name::Vbox)
    }

    /// The values of `FED`.
    pub fn fed(&self) -> Option<&Values> {
        self.get(Name::Fed)
    }

    /// The values of `IPD`.
    pub fn ipd(&self) -> Option<&Values> {
        self.get(Name::Ipd)
    }

    /// The values of `DO`.
    pub fn do_values(&self) -> Option<&Values> {
        self.get(Name::Do)
    }
}

/// The values that the trees of a label are, or nothing if they are none.
fn values_of(array: &Array) -> Option<Values> {
    let value = |tree: &Tree| {
        let bare = tree.labels().next().is_none();
        Value::of_root(tree.root()).filter(|_| bare)
    };
    match &array[..] {
        [first] => Some(Values { first: value(first)?, second: None }),
        [first, second] => Some(Values { first: value(first)?, second: Some(value(second)?) }),
        _ => None,
    }
}
