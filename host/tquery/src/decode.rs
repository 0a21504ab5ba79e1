//! Reading arrays from bytes, by document 01's rules.

use crate::error::{BuildError, DecodeCause, DecodeError};
use crate::tree::{Array, Root, Text, Tree};
use crate::{limits, tags};

impl Tree {
    /// Reads a tree from its byte form, or says what is wrong and where.
    pub fn decode(bytes: &[u8]) -> Result<Tree, DecodeError> {
        let mut whole = Span::new(bytes);
        let tree = tree(&mut whole, 1)?;
        whole.end_here()?;
        Ok(tree)
    }
}

impl Array {
    /// Reads an array from its byte form, or says what is wrong and where.
    ///
    /// It takes what [`check_array`](crate::check_array) accepts, and nothing else.
    pub fn decode(bytes: &[u8]) -> Result<Array, DecodeError> {
        let mut whole = Span::new(bytes);
        if bytes.len() > limits::ARRAY {
            return Err(whole.error(DecodeCause::Limit(BuildError::ArrayLong(bytes.len()))));
        }
        last_array(&mut whole, 1)
    }
}

/// A part of the bytes, from whose front fields are taken.
struct Span<'b> {
    bytes: &'b [u8],
    at: usize,
    end: usize,
}

impl<'b> Span<'b> {
    fn new(bytes: &'b [u8]) -> Span<'b> {
        let end = bytes.len();
        Span { bytes, at: 0, end }
    }

    /// Nothing may follow what was taken.
    fn end_here(&self) -> Result<(), DecodeError> {
        match self.rest() {
            [] => Ok(()),
            _ => Err(self.error(DecodeCause::Trailing)),
        }
    }

    fn rest(&self) -> &'b [u8] {
        self.bytes.get(self.at..self.end).unwrap_or_default()
    }

    fn error(&self, cause: DecodeCause) -> DecodeError {
        DecodeError { at: self.at, cause }
    }

    /// Takes a field: its tag and its content.
    fn field(&mut self) -> Result<(u8, Span<'b>), DecodeError> {
        let [tag, high, low, content @ ..] = self.rest() else {
            return Err(self.error(DecodeCause::Cut));
        };
        let length = usize::from(u16::from_be_bytes([*high, *low]));
        if content.len() < length {
            return Err(self.error(DecodeCause::Cut));
        }
        let from = self.end - content.len();
        self.at = from + length;
        Ok((*tag, Span { bytes: self.bytes, at: from, end: self.at }))
    }

    /// Takes a field of one kind: its content.
    fn field_of(&mut self, tag: u8, wanted: &'static str) -> Result<Span<'b>, DecodeError> {
        let at = self.at;
        match self.field()? {
            (found, content) if found == tag => Ok(content),
            (found, _) => Err(DecodeError { at, cause: DecodeCause::Tag { wanted, found } }),
        }
    }
}

/// Takes an array that ends where the span does; its trees have this depth.
fn last_array(span: &mut Span, depth: usize) -> Result<Array, DecodeError> {
    let mut content = span.field_of(tags::ARRAY, "an array")?;
    span.end_here()?;
    let mut array = Array::new();
    while !content.rest().is_empty() {
        array.push(tree(&mut content, depth)?);
    }
    Ok(array)
}

/// Takes a tree of this depth.
fn tree(span: &mut Span, depth: usize) -> Result<Tree, DecodeError> {
    // tested before its labels are read, so that the calls end
    if depth > limits::DEPTH {
        return Err(span.error(DecodeCause::Limit(BuildError::TreeDeep(depth))));
    }
    let mut content = span.field_of(tags::TREE, "a tree")?;
    let mut tree = Tree::new(root(&mut content)?);
    let mut before = 0;
    while !content.rest().is_empty() {
        let at = content.at;
        let error = |cause| DecodeError { at, cause };
        let (label, array) = labelled(&mut content, depth)?;
        if label <= before && label != 0 {
            return Err(error(DecodeCause::LabelOrder(label)));
        }
        tree = tree.with(label, array).map_err(|limit| error(DecodeCause::Limit(limit)))?;
        before = label;
    }
    Ok(tree)
}

/// Takes a root.
fn root(span: &mut Span) -> Result<Root, DecodeError> {
    let at = span.at;
    let error = |cause| Err(DecodeError { at, cause });
    let (tag, content) = span.field()?;
    let content = content.rest();
    match (tag, content) {
        (tags::VOID, []) => Ok(Root::Void),
        (tags::BOOLEAN, [0]) => Ok(Root::Boolean(false)),
        (tags::BOOLEAN, [1]) => Ok(Root::Boolean(true)),
        (tags::BOOLEAN, [other]) => error(DecodeCause::Boolean(*other)),
        (tags::INTEGER, _) => match <[u8; 8]>::try_from(content) {
            Ok(bytes) => Ok(Root::Integer(i64::from_be_bytes(bytes))),
            Err(_) => error(DecodeCause::Length(content.len())),
        },
        (tags::TEXT, _) => match Text::new(content) {
            Ok(text) => Ok(Root::Text(text)),
            Err(limit) => error(DecodeCause::Limit(limit)),
        },
        (tags::VOID | tags::BOOLEAN, _) => error(DecodeCause::Length(content.len())),
        (found, _) => error(DecodeCause::Tag { wanted: "a root", found }),
    }
}

/// Takes a label of a tree of this depth, with its array.
fn labelled(span: &mut Span, depth: usize) -> Result<(u8, Array), DecodeError> {
    let mut content = span.field_of(tags::LABEL, "a label")?;
    let Some(label) = content.rest().first() else {
        return Err(content.error(DecodeCause::Cut));
    };
    content.at += 1;
    Ok((*label, last_array(&mut content, depth + 1)?))
}
