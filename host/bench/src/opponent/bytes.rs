//! Fields, trees and arrays where they stand, and the check of an array.

use super::Refused;

pub const TREE: usize = 2048;
pub const ARRAY: usize = 16384;
const DEPTH: usize = 16;

/// The bare void tree.
pub const VOID: [u8; 6] = [2, 0, 3, 3, 0, 0];

#[inline]
fn length_at(b: &[u8], p: usize) -> usize {
    usize::from(u16::from_be_bytes([b[p + 1], b[p + 2]]))
}

/// Where the field at p ends. The bytes are well formed.
#[inline]
pub fn field_end(b: &[u8], p: usize) -> usize {
    p + 3 + length_at(b, p)
}

/// The tag and the content of the field at the start of b, and what follows it, if the field is whole.
#[inline]
pub fn split(b: &[u8]) -> Option<(u8, &[u8], &[u8])> {
    if b.len() < 3 {
        return None;
    }
    let end = field_end(b, 0);
    Some((b[0], b.get(3..end)?, &b[end..]))
}

/// The first field of a content that is well formed, as a whole field, and the rest.
#[inline]
pub fn first(content: &[u8]) -> Option<(&[u8], &[u8])> {
    (!content.is_empty()).then(|| content.split_at(field_end(content, 0)))
}

/// The trees of an array's content, as whole fields.
pub fn trees(mut content: &[u8]) -> impl Iterator<Item = &[u8]> {
    std::iter::from_fn(move || {
        let (tree, rest) = first(content)?;
        content = rest;
        Some(tree)
    })
}

/// The root field of a tree.
#[inline]
pub fn root(tree: &[u8]) -> &[u8] {
    &tree[3..field_end(tree, 3)]
}

/// The label fields of a tree.
#[inline]
pub fn labels(tree: &[u8]) -> &[u8] {
    &tree[field_end(tree, 3)..]
}

/// The trees of a label field's array.
#[inline]
pub fn held(label: &[u8]) -> &[u8] {
    &label[7..]
}

/// Where the label field of label k begins and ends, if the tree has it. Labels rise, so a greater one ends
/// the search.
#[inline]
fn find(tree: &[u8], k: u8) -> Option<(usize, usize)> {
    let mut at = field_end(tree, 3);
    while at < tree.len() {
        let end = field_end(tree, at);
        if tree[at + 3] >= k {
            return (tree[at + 3] == k).then_some((at, end));
        }
        at = end;
    }
    None
}

/// The trees under label k, if the tree has it.
#[inline]
pub fn under(tree: &[u8], k: u8) -> Option<&[u8]> {
    find(tree, k).map(|(at, end)| &tree[at + 7..end])
}

/// A tree taken apart at a label: what stands before the label field, from the root on, the trees that the
/// label holds, and the label fields behind it.
pub struct Apart<'a> {
    pub before: &'a [u8],
    pub held: &'a [u8],
    pub behind: &'a [u8],
}

/// The tree taken apart at label k, if it has it.
pub fn apart(tree: &[u8], k: u8) -> Option<Apart<'_>> {
    let (at, end) = find(tree, k)?;
    Some(Apart { before: &tree[3..at], held: &tree[at + 7..end], behind: &tree[end..] })
}

// ---- checks

fn check_root(tag: u8, c: &[u8]) -> bool {
    match tag {
        3 => c.is_empty(),
        4 => c.len() == 1 && c[0] < 2,
        5 => c.len() == 8,
        6 => c.len() <= 255,
        _ => false,
    }
}

/// Whether the content is trees, each well formed and within the limits, in at most `left` levels.
fn check_levels(mut b: &[u8], left: usize) -> bool {
    while !b.is_empty() {
        let Some((2, content, rest)) = split(b) else { return false };
        if left == 0 || content.len() + 3 > TREE || !check_tree(content, left) {
            return false;
        }
        b = rest;
    }
    true
}

fn check_tree(content: &[u8], left: usize) -> bool {
    let Some((tag, root, mut rest)) = split(content) else { return false };
    if !check_root(tag, root) {
        return false;
    }
    let mut last = 0;
    while !rest.is_empty() {
        let Some((7, [k, array @ ..], next)) = split(rest) else { return false };
        let Some((1, held, [])) = split(array) else { return false };
        if *k <= last || !check_levels(held, left - 1) {
            return false;
        }
        (last, rest) = (*k, next);
    }
    true
}

/// Whether the content is trees that an array may hold.
pub fn check_trees(content: &[u8]) -> bool {
    check_levels(content, DEPTH)
}

/// The trees of an array that is well formed and within the limits; or the refusal of one that is too long or
/// is not.
pub fn check_array(b: &[u8], long: Refused, malformed: Refused) -> Result<&[u8], Refused> {
    if b.len() > ARRAY {
        return Err(long);
    }
    match split(b) {
        Some((1, content, [])) if check_trees(content) => Ok(content),
        _ => Err(malformed),
    }
}

/// Whether a tree that was made is within the limits.
pub fn fits(tree: &[u8]) -> bool {
    tree.len() <= TREE && within(tree, DEPTH)
}

/// Whether a tree has at most so many levels. One level takes 6 bytes or more, and each above it 13: most
/// trees are too short to be deep, and are not walked.
fn within(tree: &[u8], left: usize) -> bool {
    if tree.len() < 6 + 13 * left {
        return true;
    }
    let mut rest = labels(tree);
    while let Some((label, next)) = first(rest) {
        if !trees(held(label)).all(|t| left > 1 && within(t, left - 1)) {
            return false;
        }
        rest = next;
    }
    true
}
