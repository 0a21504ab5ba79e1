//! Trees and arrays of trees, and their byte form.

use crate::error::BuildError;
use crate::{limits, tags};
use std::collections::BTreeMap;
use std::ops::Deref;

/// The bytes of a field's head: a tag and a length.
const HEAD: usize = 3;

/// A text of 0 to 255 bytes. They need not be UTF-8.
#[derive(Clone, Debug, Default, PartialEq, Eq, Hash)]
pub struct Text(Vec<u8>);

impl Text {
    /// A text of these bytes, or an error if there are more than 255.
    pub fn new(bytes: impl Into<Vec<u8>>) -> Result<Text, BuildError> {
        let bytes = bytes.into();
        if bytes.len() > limits::TEXT {
            return Err(BuildError::TextLong(bytes.len()));
        }
        Ok(Text(bytes))
    }

    /// The bytes of the text.
    pub fn as_bytes(&self) -> &[u8] {
        &self.0
    }

    /// The text as UTF-8, or nothing if it is none.
    pub fn as_str(&self) -> Option<&str> {
        std::str::from_utf8(&self.0).ok()
    }
}

/// What stands at the root of a tree.
#[derive(Clone, Debug, Default, PartialEq, Eq, Hash)]
pub enum Root {
    /// Nothing, written `v`.
    #[default]
    Void,
    /// A boolean, written `true` or `false`.
    Boolean(bool),
    /// A signed 64-bit integer, written in decimal.
    Integer(i64),
    /// A text, written in double quotes.
    Text(Text),
}

impl Root {
    /// The tag of the root's field and its content.
    fn field(&self) -> (u8, Vec<u8>) {
        match self {
            Root::Void => (tags::VOID, Vec::new()),
            Root::Boolean(value) => (tags::BOOLEAN, vec![u8::from(*value)]),
            Root::Integer(value) => (tags::INTEGER, value.to_be_bytes().to_vec()),
            Root::Text(text) => (tags::TEXT, text.0.clone()),
        }
    }

    /// The bytes that the root's field takes.
    fn size(&self) -> usize {
        HEAD + match self {
            Root::Void => 0,
            Root::Boolean(_) => 1,
            Root::Integer(_) => 8,
            Root::Text(text) => text.0.len(),
        }
    }
}

/// A tree: a root, and arrays of trees under labels from 1 to 255.
///
/// Every tree is within the limits of the format, 2,048 bytes and depth 16,
/// since [`Tree::with`] refuses to pass them; so every tree has a byte form.
///
/// Trees are read and written in document 01's notation:
///
/// ```
/// use tquery::Tree;
///
/// let tree: Tree = r#"-3{1:[5, 6], 2:[v{9:[]}, "text"]}"#.parse()?;
/// assert_eq!(tree.root(), &tquery::Root::Integer(-3));
/// assert_eq!(tree.get(1).map(|array| array.len()), Some(2));
/// assert_eq!(tree.to_string(), r#"-3{1:[5, 6], 2:[v{9:[]}, "text"]}"#);
/// # Ok::<(), tquery::ParseError>(())
/// ```
#[derive(Clone, Debug, PartialEq, Eq, Hash)]
pub struct Tree {
    root: Root,
    labels: BTreeMap<u8, Array>,
    /// The bytes of the tree's field, kept so that `with` need not count again.
    size: usize,
    /// The depth of the deepest tree in this one, itself being 1.
    height: usize,
}

impl Tree {
    /// A tree of this root and no labels.
    pub fn new(root: Root) -> Tree {
        let size = HEAD + root.size();
        Tree { root, labels: BTreeMap::new(), size, height: 1 }
    }

    /// The bare void tree.
    pub fn void() -> Tree {
        Tree::new(Root::Void)
    }

    /// A boolean without labels.
    pub fn boolean(value: bool) -> Tree {
        Tree::new(Root::Boolean(value))
    }

    /// An integer without labels.
    pub fn integer(value: i64) -> Tree {
        Tree::new(Root::Integer(value))
    }

    /// A text without labels, or an error if it has more than 255 bytes.
    pub fn text(bytes: impl Into<Vec<u8>>) -> Result<Tree, BuildError> {
        Ok(Tree::new(Root::Text(Text::new(bytes)?)))
    }

    /// This tree with one more label, or an error if the label is 0 or there
    /// already, or if the tree would pass 2,048 bytes or depth 16.
    pub fn with(mut self, label: u8, array: impl Into<Array>) -> Result<Tree, BuildError> {
        let array = array.into();
        if label == 0 {
            return Err(BuildError::LabelZero);
        }
        if self.labels.contains_key(&label) {
            return Err(BuildError::LabelTwice(label));
        }
        // the label's field: its head, the label's byte, the array
        self.size += HEAD + 1 + array.size();
        self.height = self.height.max(1 + array.height());
        if self.size > limits::TREE {
            return Err(BuildError::TreeLarge(self.size));
        }
        if self.height > limits::DEPTH {
            return Err(BuildError::TreeDeep(self.height));
        }
        self.labels.insert(label, array);
        Ok(self)
    }

    /// The root.
    pub fn root(&self) -> &Root {
        &self.root
    }

    /// The array under a label, or nothing if the tree lacks it.
    pub fn get(&self, label: u8) -> Option<&Array> {
        self.labels.get(&label)
    }

    /// The labels in rising order, each with its array.
    pub fn labels(&self) -> impl Iterator<Item = (u8, &Array)> {
        self.labels.iter().map(|(label, array)| (*label, array))
    }

    /// The bytes of the tree's field.
    pub fn size(&self) -> usize {
        self.size
    }

    /// How deep the tree is: 1 without trees under its labels, 16 at most.
    pub fn height(&self) -> usize {
        self.height
    }

    /// The byte form: the tree's field, which is not an array and so no input yet.
    pub fn encode(&self) -> Vec<u8> {
        let mut out = Vec::with_capacity(self.size);
        self.put(&mut out);
        out
    }

    /// Appends the tree's field.
    fn put(&self, out: &mut Vec<u8>) {
        put_head(tags::TREE, self.size - HEAD, out);
        let (tag, content) = self.root.field();
        put_head(tag, content.len(), out);
        out.extend_from_slice(&content);
        for (label, array) in self.labels() {
            put_head(tags::LABEL, 1 + array.size(), out);
            out.push(label);
            array.put(out);
        }
    }
}

impl Default for Tree {
    fn default() -> Tree {
        Tree::void()
    }
}

impl From<Root> for Tree {
    fn from(root: Root) -> Tree {
        Tree::new(root)
    }
}

impl From<bool> for Tree {
    fn from(value: bool) -> Tree {
        Tree::boolean(value)
    }
}

impl From<i64> for Tree {
    fn from(value: i64) -> Tree {
        Tree::integer(value)
    }
}

/// A list of trees, which may be empty.
///
/// It reads as a slice of trees, and is made of trees or of what a tree is
/// made of. Only [`Array::encode`] asks whether it fits 16,384 bytes.
///
/// ```
/// use tquery::{Array, Tree};
///
/// let array = Array::from([Tree::void().with(1, [7])?]);
/// assert_eq!(array.to_string(), "[v{1:[7]}]");
/// assert_eq!(array.encode()?.len(), 30);
/// # Ok::<(), tquery::BuildError>(())
/// ```
#[derive(Clone, Debug, Default, PartialEq, Eq, Hash)]
pub struct Array(Vec<Tree>);

impl Array {
    /// The empty array.
    pub fn new() -> Array {
        Array::default()
    }

    /// Appends a tree.
    pub fn push(&mut self, tree: impl Into<Tree>) {
        self.0.push(tree.into());
    }

    /// The bytes that the array's field would take, counted as a number.
    pub fn size(&self) -> usize {
        HEAD + self.iter().map(Tree::size).sum::<usize>()
    }

    /// The byte form, or an error if it passes 16,384 bytes.
    pub fn encode(&self) -> Result<Vec<u8>, BuildError> {
        let size = self.size();
        if size > limits::ARRAY {
            return Err(BuildError::ArrayLong(size));
        }
        let mut out = Vec::with_capacity(size);
        self.put(&mut out);
        Ok(out)
    }

    /// The greatest height of a tree in the array, 0 for none.
    fn height(&self) -> usize {
        self.iter().map(Tree::height).max().unwrap_or(0)
    }

    /// Appends the array's field, which the caller knows to fit two length bytes.
    fn put(&self, out: &mut Vec<u8>) {
        put_head(tags::ARRAY, self.size() - HEAD, out);
        for tree in self.iter() {
            tree.put(out);
        }
    }
}

impl Deref for Array {
    type Target = [Tree];

    fn deref(&self) -> &[Tree] {
        &self.0
    }
}

impl From<Vec<Tree>> for Array {
    fn from(trees: Vec<Tree>) -> Array {
        Array(trees)
    }
}

impl<T: Into<Tree>, const N: usize> From<[T; N]> for Array {
    fn from(trees: [T; N]) -> Array {
        trees.into_iter().collect()
    }
}

impl<T: Into<Tree>> FromIterator<T> for Array {
    fn from_iter<I: IntoIterator<Item = T>>(trees: I) -> Array {
        Array(trees.into_iter().map(Into::into).collect())
    }
}

impl IntoIterator for Array {
    type Item = Tree;
    type IntoIter = std::vec::IntoIter<Tree>;

    fn into_iter(self) -> Self::IntoIter {
        self.0.into_iter()
    }
}

impl<'a> IntoIterator for &'a Array {
    type Item = &'a Tree;
    type IntoIter = std::slice::Iter<'a, Tree>;

    fn into_iter(self) -> Self::IntoIter {
        self.0.iter()
    }
}

/// Appends a field's head. No field that a limit allows has a longer content
/// than two bytes can say.
pub(crate) fn put_head(tag: u8, length: usize, out: &mut Vec<u8>) {
    out.extend_from_slice(&[tag, (length >> 8) as u8, length as u8]);
}
