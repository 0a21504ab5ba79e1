//! Damaged bytes.
//!
//! Two kinds are needed. Blind damage changes bytes wherever they stand, and
//! mostly spoils a length. Damage to fields keeps all lengths right and breaks
//! (or happens not to break) a rule about what stands inside what.

use super::random::Random;
use crate::bytes::{field, fields, tags};
use crate::tree::HEAD;

/// Some bytes after one to three blind changes.
pub fn blind(random: &mut Random, bytes: &[u8]) -> Vec<u8> {
    let mut bytes = bytes.to_vec();
    for _ in 0..random.pick(&[1, 1, 1, 2, 3]) {
        change(random, &mut bytes);
    }
    bytes
}

fn change(random: &mut Random, bytes: &mut Vec<u8>) {
    if bytes.is_empty() {
        bytes.push(random.byte());
        return;
    }
    let at = random.below(bytes.len());
    match random.below(7) {
        0 => bytes[at] ^= 1 << random.below(8),
        1 => bytes[at] = random.byte(),
        2 => drop(bytes.remove(at)),
        3 => bytes.insert(at, random.pick(&[0, 1, 2, 3, 7, 16, 32, 255])),
        4 => bytes.truncate(at),
        5 => bytes.push(random.byte()),
        _ => change_length(random, bytes, at),
    }
}

/// Changes the length of what may be a head at a place.
fn change_length(random: &mut Random, bytes: &mut [u8], at: usize) {
    let Some([high, low]) = bytes.get_mut(at.saturating_sub(HEAD)..).and_then(|rest| rest.get_mut(1..HEAD))
    else {
        return;
    };
    let by = random.pick(&[1, 1, 2, 3, 255, 256, 65_535, 65_535, 65_533]);
    let length = u16::from_be_bytes([*high, *low]).wrapping_add(by);
    [*high, *low] = length.to_be_bytes();
}

/// A field taken apart as far as it holds fields. A label's content begins
/// with a byte, and a leaf's content is nothing but bytes.
struct Node {
    tag: u8,
    bytes: Vec<u8>,
    inner: Vec<Node>,
}

impl Node {
    fn read(tag: u8, content: &[u8]) -> Node {
        let begin = match tag {
            tags::VOID..=tags::TEXT | tags::PATH | tags::DIVISOR => content.len(),
            tags::LABEL => content.len().min(1),
            _ => 0,
        };
        let (bytes, rest) = content.split_at(begin);
        match fields(rest) {
            Some(all) => {
                let inner = all.into_iter().map(|(tag, content)| Node::read(tag, content)).collect();
                Node { tag, bytes: bytes.to_vec(), inner }
            }
            None => Node { tag, bytes: content.to_vec(), inner: vec![] },
        }
    }

    fn write(&self) -> Option<Vec<u8>> {
        let mut content = self.bytes.clone();
        for node in &self.inner {
            content.extend(node.write()?);
        }
        field(self.tag, &content)
    }

    fn count(&self) -> usize {
        1 + self.inner.iter().map(Node::count).sum::<usize>()
    }

    /// The node that comes so many after this one, from outside in.
    fn nth(&mut self, mut index: usize) -> &mut Node {
        if index == 0 {
            return self;
        }
        index -= 1;
        for node in &mut self.inner {
            let count = node.count();
            if index < count {
                return node.nth(index);
            }
            index -= count;
        }
        unreachable!("an index is below the count")
    }
}

/// A field after one or two changes to the fields inside it, all lengths
/// right. Bytes that are no field, and outcomes without a byte form, are
/// damaged blindly.
pub fn fielded(random: &mut Random, bytes: &[u8]) -> Vec<u8> {
    let Some(mut node) = first_field(bytes) else {
        return blind(random, bytes);
    };
    for _ in 0..random.pick(&[1, 1, 2]) {
        let index = random.below(node.count());
        change_node(random, node.nth(index));
    }
    node.write().unwrap_or_else(|| blind(random, bytes))
}

/// A field in which one of the fields, itself among them, has another tag.
pub fn tagged(random: &mut Random, bytes: &[u8], tag: u8) -> Vec<u8> {
    let Some(mut node) = first_field(bytes) else {
        return blind(random, bytes);
    };
    let index = random.below(node.count());
    node.nth(index).tag = tag;
    node.write().unwrap_or_else(|| blind(random, bytes))
}

fn first_field(bytes: &[u8]) -> Option<Node> {
    fields(bytes)?.first().map(|(tag, content)| Node::read(*tag, content))
}

fn change_node(random: &mut Random, node: &mut Node) {
    match random.below(8) {
        0 => node.tag = random.pick(&ALL_TAGS),
        1 | 2 if !node.bytes.is_empty() => change_bytes(random, &mut node.bytes),
        3 => change_bytes(random, &mut node.bytes),
        _ if node.inner.is_empty() => change_bytes(random, &mut node.bytes),
        4 => drop(node.inner.remove(random.below(node.inner.len()))),
        5 => {
            let (one, other) = (random.below(node.inner.len()), random.below(node.inner.len()));
            node.inner.swap(one, other);
        }
        _ => repeat(random, &mut node.inner),
    }
}

/// Document 01's tags, and 0. That of a total is not among them: the cases
/// that were drawn before there were totals stay as they were.
const ALL_TAGS: [u8; 34] = [
    0, 1, 2, 3, 4, 5, 6, 7, 16, 17, 18, 19, 20, 21, 32, 33, 34, 35, 36, 37, 38, 39, 40, 41, 42, 43, 44, 45,
    46, 47, 48, 49, 50, 51,
];

fn change_bytes(random: &mut Random, bytes: &mut Vec<u8>) {
    match random.below(4) {
        0 => bytes.push(random.pick(&[0, 1, 2, 255])),
        1 => drop(bytes.pop()),
        _ if bytes.is_empty() => {}
        2 => bytes[0] = random.pick(&[0, 1, 2, 3]),
        _ => {
            let at = random.below(bytes.len());
            bytes[at] = random.pick(&[0, 1, 2, 39, 255]);
        }
    }
}

/// Repeats one field, once or as often as counts have limits.
fn repeat(random: &mut Random, inner: &mut Vec<Node>) {
    let at = random.below(inner.len());
    let (tag, copy) = (inner[at].tag, inner[at].write());
    let Some(copy) = copy else { return };
    for _ in 0..random.pick(&[1, 1, 1, 4, 8, 16]) {
        inner.insert(at, Node::read(tag, &copy[HEAD..]));
    }
}
