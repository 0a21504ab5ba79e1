//! Trees, and how they are measured.
//!
//! Sizes are numbers of their own and not the lengths of written bytes,
//! because the plain run measures arrays that no two length bytes could hold.

use std::collections::BTreeMap;

/// The greatest size of a tree's field, in bytes.
pub const TREE_LIMIT: usize = 2_048;
/// The greatest size of an array's field where arrays are limited, in bytes.
pub const ARRAY_LIMIT: usize = 16_384;
/// The greatest depth of a tree; a tree of the outer array has depth 1.
pub const DEPTH_LIMIT: usize = 16;
/// The longest text.
pub const TEXT_LIMIT: usize = 255;

/// The size of a field's head: one byte of tag and two of length.
pub const HEAD: usize = 3;

/// A root.
#[derive(Clone, Debug, PartialEq, Eq)]
pub enum Root {
    Void,
    Boolean(bool),
    Integer(i64),
    Text(Vec<u8>),
}

/// A tree: a root, and an array under each of its labels.
///
/// The map keeps labels rising, as the byte form wants them. The derived
/// equality is the document's: roots, labels, order and number of elements.
/// An empty array under a label is not the same as no label.
#[derive(Clone, Debug, PartialEq, Eq)]
pub struct Tree {
    pub root: Root,
    pub labels: BTreeMap<u8, Vec<Tree>>,
}

impl Tree {
    /// A tree without labels.
    pub fn bare(root: Root) -> Tree {
        Tree { root, labels: BTreeMap::new() }
    }

    /// The bare void tree, where projects and groups begin.
    pub fn void() -> Tree {
        Tree::bare(Root::Void)
    }

    /// A bare integer; "5 alone" in the document.
    pub fn integer(value: i64) -> Tree {
        Tree::bare(Root::Integer(value))
    }

    /// A bare text.
    pub fn text(bytes: &[u8]) -> Tree {
        Tree::bare(Root::Text(bytes.to_vec()))
    }

    /// This tree with an array under a label.
    pub fn with(mut self, label: u8, array: Vec<Tree>) -> Tree {
        self.labels.insert(label, array);
        self
    }

    /// The size of the tree's field.
    pub fn size(&self) -> usize {
        let labels: usize = self.labels.values().map(|array| HEAD + 1 + array_size(array)).sum();
        HEAD + self.root.size() + labels
    }

    /// How deep the tree goes, itself counted.
    pub fn depth(&self) -> usize {
        let below = self.labels.values().flatten().map(Tree::depth).max();
        1 + below.unwrap_or(0)
    }

    /// Whether the tree passes a limit as a tree of an outer array.
    pub fn too_large(&self) -> bool {
        self.size() > TREE_LIMIT || self.depth() > DEPTH_LIMIT
    }
}

impl Root {
    /// The size of the root's field.
    pub fn size(&self) -> usize {
        HEAD + match self {
            Root::Void => 0,
            Root::Boolean(_) => 1,
            Root::Integer(_) => 8,
            Root::Text(bytes) => bytes.len(),
        }
    }
}

/// The size of an array's field.
pub fn array_size<'a>(trees: impl IntoIterator<Item = &'a Tree>) -> usize {
    HEAD + trees.into_iter().map(Tree::size).sum::<usize>()
}

#[cfg(test)]
mod tests {
    use super::*;

    #[test]
    fn p9_is_thirty_bytes() {
        assert_eq!(array_size(&[Tree::void().with(1, vec![Tree::integer(7)])]), 30);
    }

    #[test]
    fn a_label_over_338_voids_and_a_text_is_at_the_limit() {
        let tree = |text: &[u8]| {
            let mut under = vec![Tree::void(); 338];
            under.push(Tree::text(text));
            Tree::void().with(1, under)
        };
        assert_eq!(tree(b"a").size(), 2_048);
        assert!(!tree(b"a").too_large());
        assert!(tree(b"ab").too_large());
    }

    #[test]
    fn depth_sixteen_is_allowed_and_seventeen_is_not() {
        let chain = |depth: usize| (1..depth).fold(Tree::void(), |t, _| Tree::void().with(1, vec![t]));
        assert_eq!(chain(16).depth(), 16);
        assert!(!chain(16).too_large());
        assert!(chain(17).too_large());
    }

    #[test]
    fn an_empty_array_adds_no_depth() {
        assert_eq!(Tree::void().with(1, vec![]).depth(), 1);
    }
}
