//! Fields and arrays that stand one behind another.

use crate::tree::put_head;
use crate::{limits, tags};

/// The bytes of a field's head: a tag and a length.
const HEAD: usize = 3;

/// The empty array.
pub const EMPTY: [u8; HEAD] = [tags::ARRAY, 0, 0];

/// The fields that stand one behind another, as far as they are whole: the tag
/// and the content of each.
pub fn fields(bytes: &[u8]) -> impl Iterator<Item = (u8, &[u8])> {
    let mut rest = bytes;
    std::iter::from_fn(move || {
        let (head, behind) = rest.split_at_checked(HEAD)?;
        let length = usize::from(u16::from_be_bytes([head[1], head[2]]));
        let (content, next) = behind.split_at_checked(length)?;
        rest = next;
        Some((head[0], content))
    })
}

/// The trees of an array's bytes.
pub fn trees_of(array: &[u8]) -> &[u8] {
    array.get(HEAD..).unwrap_or_default()
}

/// Trees as arrays within the limit, each with as many as fit; at least one array.
pub fn packed(trees: &[u8]) -> Vec<Vec<u8>> {
    let mut arrays = Vec::new();
    let mut open = EMPTY.to_vec();
    for (tag, content) in fields(trees) {
        if open.len() + HEAD + content.len() > limits::ARRAY {
            arrays.push(closed(std::mem::replace(&mut open, EMPTY.to_vec())));
        }
        put_head(tag, content.len(), &mut open);
        open.extend_from_slice(content);
    }
    arrays.push(closed(open));
    arrays
}

/// An array with its length in its head.
fn closed(mut array: Vec<u8>) -> Vec<u8> {
    let mut head = Vec::with_capacity(HEAD);
    put_head(tags::ARRAY, array.len() - HEAD, &mut head);
    array[..HEAD].copy_from_slice(&head);
    array
}

#[cfg(test)]
mod tests {
    use super::*;
    use crate::{Array, Tree};

    fn voids(count: usize) -> Vec<u8> {
        Tree::void().encode().repeat(count)
    }

    #[test]
    fn no_tree_is_the_empty_array() {
        assert_eq!(packed(&[]), [EMPTY]);
    }

    #[test]
    fn an_array_takes_what_fits() {
        let most = (limits::ARRAY - HEAD) / 6;
        let counts = |trees: &[u8]| -> Vec<usize> {
            let arrays = packed(trees).into_iter();
            arrays.map(|bytes| Array::decode(&bytes).expect("an array").len()).collect()
        };
        assert_eq!(counts(&voids(most)), [most]);
        assert_eq!(counts(&voids(most + 1)), [most, 1]);
        assert_eq!(counts(&voids(3 * most)), [most, most, most]);
        // one byte is left in an array of voids: a text of one byte more than a void goes into it
        let text = |bytes: &str| Tree::text(bytes).expect("a short text").encode();
        assert_eq!(counts(&[voids(most - 1), text("a")].concat()), [most]);
        assert_eq!(counts(&[voids(most - 1), text("ab")].concat()), [most - 1, 1]);
    }
}
