//! What a tree becomes. A head is stored when its content is written.

use super::bytes::{apart, field_end, fits, held, labels, root, trees, under, Apart, TREE, VOID};
use super::query::{behind, Item, Kind, Node};
use super::read::{append, holds};
use super::Refused;

fn open(out: &mut Vec<u8>, tag: u8) -> usize {
    out.extend_from_slice(&[tag, 0, 0]);
    out.len()
}

fn close(out: &mut [u8], from: usize) {
    let n = (out.len() - from) as u16;
    out[from - 2..from].copy_from_slice(&n.to_be_bytes());
}

// ---- merge

fn merge(s: &[u8], t: &[u8], out: &mut Vec<u8>) {
    let at = open(out, 2);
    out.extend_from_slice(root(if t[3] == 3 { s } else { t }));
    let (mut a, mut b) = (labels(s), labels(t));
    while !a.is_empty() && !b.is_empty() {
        let (m, n) = (field_end(a, 0), field_end(b, 0));
        if a[3] == b[3] {
            merge_label(&a[..m], &b[..n], out);
            (a, b) = (&a[m..], &b[n..]);
        } else if a[3] < b[3] {
            out.extend_from_slice(&a[..m]);
            a = &a[m..];
        } else {
            out.extend_from_slice(&b[..n]);
            b = &b[n..];
        }
    }
    out.extend_from_slice(a);
    out.extend_from_slice(b);
    close(out, at);
}

fn merge_label(a: &[u8], b: &[u8], out: &mut Vec<u8>) {
    let label = open(out, 7);
    out.push(a[3]);
    let array = open(out, 1);
    let (mut x, mut y) = (held(a), held(b));
    while !x.is_empty() && !y.is_empty() {
        let (m, n) = (field_end(x, 0), field_end(y, 0));
        merge(&x[..m], &y[..n], out);
        (x, y) = (&x[m..], &y[n..]);
    }
    out.extend_from_slice(x);
    out.extend_from_slice(y);
    close(out, array);
    close(out, label);
}

// ---- keep, place and data

fn keep(path: &[u8], tree: &[u8], out: &mut Vec<u8>) {
    let Some((k, rest)) = path.split_first() else { return out.extend_from_slice(tree) };
    let Some(array) = under(tree, *k) else { return out.extend_from_slice(&VOID) };
    place(&[*k], out, |out| {
        if rest.is_empty() {
            out.extend_from_slice(array);
        } else {
            trees(array).for_each(|t| keep(rest, t, out));
        }
        true
    });
}

/// Void roots along the path around what f writes; the bare void tree if f says absent.
pub fn place(path: &[u8], out: &mut Vec<u8>, f: impl FnOnce(&mut Vec<u8>) -> bool) {
    let start = out.len();
    for k in path {
        out.extend_from_slice(&[2, 0, 0, 3, 0, 0, 7, 0, 0, *k, 1, 0, 0]);
    }
    if f(out) {
        for at in (0..path.len()).map(|level| start + 13 * level) {
            close(out, at + 3);
            close(out, at + 9);
            close(out, at + 13);
        }
    } else {
        out.truncate(start);
        out.extend_from_slice(&VOID);
    }
}

fn reduce(bytes: [u8; 8], n: u64) -> [u8; 8] {
    let x = i64::from_be_bytes(bytes);
    let m = ((x.unsigned_abs() + n / 2) / n) as i64;
    (if x < 0 { m.wrapping_neg() } else { m }).to_be_bytes()
}

/// Reduces the integer roots of the trees that stand from `at` on.
fn reduce_from(out: &mut [u8], mut at: usize, n: u64) {
    while at < out.len() {
        if out[at + 3] == 5 {
            let mut bytes = [0; 8];
            bytes.copy_from_slice(&out[at + 6..at + 14]);
            out[at + 6..at + 14].copy_from_slice(&reduce(bytes, n));
        }
        at = field_end(out, at);
    }
}

/// Writes what the data that the nodes begin with give of the tree: whether it is present.
fn write_data(nodes: &[Node], tree: &[u8], out: &mut Vec<u8>) -> bool {
    let inside = &nodes[1..];
    match nodes[0].kind {
        Kind::Literal(array) => {
            out.extend_from_slice(array);
            true
        }
        Kind::Path(p) => append(p, tree, out),
        Kind::List => write_list(&nodes[1..nodes[0].size], tree, out),
        Kind::Choice => {
            let data = behind(inside);
            write_data(if holds(inside, tree) { data } else { behind(data) }, tree, out)
        }
        Kind::Reduced(p, n) => {
            let from = out.len();
            let present = append(p, tree, out);
            reduce_from(out, from, n);
            present
        }
        // the only kind that is left
        _ => {
            out.extend_from_slice(&[2, 0, 4, 4, 0, 1, u8::from(holds(inside, tree))]);
            true
        }
    }
}

fn write_list(mut members: &[Node], tree: &[u8], out: &mut Vec<u8>) -> bool {
    let mut any = false;
    while !members.is_empty() {
        any |= write_data(members, tree, out);
        members = behind(members);
    }
    any
}

/// Writes a total as a bare tree: whether there is one.
pub fn write_total(sum: Option<i64>, out: &mut Vec<u8>) -> bool {
    let Some(sum) = sum else { return false };
    out.extend_from_slice(&[2, 0, 11, 5, 0, 8]);
    out.extend_from_slice(&sum.to_be_bytes());
    true
}

pub fn write_item(nodes: &[Node], item: &Item, tree: &[u8], out: &mut Vec<u8>) {
    match item {
        Item::Keep(p) => keep(p, tree, out),
        Item::Place(d, p) => place(p, out, |out| write_data(&nodes[*d..], tree, out)),
    }
}

// ---- building

/// A tree that is built by merging parts, each tested.
pub struct Build {
    tree: Vec<u8>,
    /// The tree's last label, or 0.
    last: u8,
    part: Vec<u8>,
    both: Vec<u8>,
}

impl Build {
    pub fn new() -> Build {
        Build { tree: Vec::with_capacity(TREE), last: 0, part: Vec::with_capacity(TREE), both: Vec::new() }
    }

    pub fn tree(&self) -> &[u8] {
        &self.tree
    }

    /// A buffer for whoever builds nothing.
    pub fn scratch(&mut self) -> &mut Vec<u8> {
        &mut self.tree
    }

    pub fn start(&mut self, tree: &[u8]) {
        self.tree.clear();
        self.tree.extend_from_slice(tree);
        self.last = last_label(tree);
    }

    /// Merges the part that f writes into the tree. A merge is as deep as the deeper of the two, so of it
    /// only the size is tested.
    pub fn add(&mut self, f: impl FnOnce(&mut Vec<u8>)) -> Result<(), Refused> {
        self.part.clear();
        f(&mut self.part);
        if !fits(&self.part) {
            return Err(8);
        }
        if self.part[3] == 3 && labels(&self.part).get(3).is_none_or(|k| *k > self.last) {
            // every label of the part goes behind those of the tree
            self.tree.extend_from_slice(&self.part[6..]);
            close(&mut self.tree, 3);
        } else {
            self.both.clear();
            merge(&self.tree, &self.part, &mut self.both);
            std::mem::swap(&mut self.tree, &mut self.both);
        }
        self.last = self.last.max(last_label(&self.part));
        if self.tree.len() > TREE {
            return Err(8);
        }
        Ok(())
    }
}

fn last_label(tree: &[u8]) -> u8 {
    let (mut at, mut last) = (field_end(tree, 3), 0);
    while at < tree.len() {
        last = tree[at + 3];
        at = field_end(tree, at);
    }
    last
}

// ---- unwind

/// A tree on the way of an unwind, taken apart at its label, inside another or none.
struct Level<'a, 'o> {
    apart: Apart<'a>,
    label: u8,
    outer: Option<&'o Level<'a, 'o>>,
}

/// Calls f with each outcome of the tree, written to `out`. No outcome is larger than the tree.
pub fn unwind<F>(path: &[u8], tree: &[u8], out: &mut Vec<u8>, f: &mut F) -> Result<(), Refused>
where
    F: FnMut(&[u8]) -> Result<(), Refused>,
{
    outcomes(path, tree, None, &mut |level, element| {
        out.clear();
        write_before(level, element.len(), out);
        out.extend_from_slice(element);
        write_behind(level, out);
        f(out)
    })
}

/// Calls f with each tree at the end of the path, and the levels around it.
fn outcomes<'a, F>(
    path: &[u8],
    tree: &'a [u8],
    outer: Option<&Level<'a, '_>>,
    f: &mut F,
) -> Result<(), Refused>
where
    F: FnMut(Option<&Level>, &[u8]) -> Result<(), Refused>,
{
    let Some((label, rest)) = path.split_first() else { return f(outer, tree) };
    let Some(apart) = apart(tree, *label) else { return Ok(()) };
    let level = Level { apart, label: *label, outer };
    trees(level.apart.held).try_for_each(|t| outcomes(rest, t, Some(&level), f))
}

fn head(tag: u8, length: usize) -> [u8; 3] {
    let [high, low] = (length as u16).to_be_bytes();
    [tag, high, low]
}

/// What stands before so many bytes of trees that a label will hold: all levels, the outermost first.
fn write_before(level: Option<&Level>, inside: usize, out: &mut Vec<u8>) {
    let Some(Level { apart, label, outer }) = level else { return };
    let content = apart.before.len() + 7 + inside + apart.behind.len();
    write_before(*outer, content + 3, out);
    out.extend_from_slice(&head(2, content));
    out.extend_from_slice(apart.before);
    let ([tag, high, low], [inner, up, down]) = (head(7, inside + 4), head(1, inside));
    out.extend_from_slice(&[tag, high, low, *label, inner, up, down]);
}

fn write_behind(mut level: Option<&Level>, out: &mut Vec<u8>) {
    while let Some(Level { apart, outer, .. }) = level {
        out.extend_from_slice(apart.behind);
        level = *outer;
    }
}
