//! What a tree says: paths and criteria, read where the tree stands.

use super::bytes::{trees, under};
use super::query::{behind, Kind, Node};

/// Calls f with each piece of what the path gives, in order: whether it is present.
pub fn apply<'a>(path: &[u8], tree: &'a [u8], f: &mut impl FnMut(&'a [u8])) -> bool {
    match path {
        [] => {
            f(tree);
            true
        }
        [k] => under(tree, *k).map(f).is_some(),
        [k, rest @ ..] => match under(tree, *k) {
            None => false,
            Some([]) => true,
            Some(array) => trees(array).fold(false, |any, t| apply(rest, t, f) | any),
        },
    }
}

/// What the path gives, as bytes put behind `out`: whether it is present.
pub fn append(path: &[u8], tree: &[u8], out: &mut Vec<u8>) -> bool {
    apply(path, tree, &mut |piece| out.extend_from_slice(piece))
}

fn exists(path: &[u8], tree: &[u8]) -> bool {
    let Some((k, rest)) = path.split_first() else { return true };
    match under(tree, *k) {
        None => false,
        Some(array) => rest.is_empty() || array.is_empty() || trees(array).any(|t| exists(rest, t)),
    }
}

/// Whether the path gives these trees.
fn equals(path: &[u8], tree: &[u8], mut array: &[u8]) -> bool {
    let mut same = true;
    let present = apply(path, tree, &mut |piece| match array.strip_prefix(piece) {
        Some(rest) => array = rest,
        None => same = false,
    });
    present && same && array.is_empty()
}

/// What a path of at most one label gives stands in one piece.
fn piece<'a>(path: &[u8], tree: &'a [u8]) -> Option<&'a [u8]> {
    path.first().map_or(Some(tree), |k| under(tree, *k))
}

/// Whether two paths of a tree give the same. Only of two long ones is what they give put together.
fn same(p: &[u8], q: &[u8], tree: &[u8]) -> bool {
    let (long, short) = if p.len() < q.len() { (q, p) } else { (p, q) };
    if short.len() <= 1 {
        return match piece(short, tree) {
            Some(array) => equals(long, tree, array),
            None => !exists(long, tree),
        };
    }
    let (mut a, mut b) = (Vec::new(), Vec::new());
    append(p, tree, &mut a) == append(q, tree, &mut b) && a == b
}

/// Whether the tree meets the criterion that the nodes begin with.
pub fn holds(nodes: &[Node], tree: &[u8]) -> bool {
    let inside = &nodes[1..];
    match nodes[0].kind {
        Kind::Exists(p) => exists(p, tree),
        Kind::Equal(p, array) => equals(p, tree, array),
        Kind::Same(p, q) => same(p, q, tree),
        Kind::Not => !holds(inside, tree),
        Kind::And => holds(inside, tree) && holds(behind(inside), tree),
        Kind::Or => holds(inside, tree) || holds(behind(inside), tree),
        // no other kind is a criterion
        _ => true,
    }
}
