//! Hash maps for group and lookup: keys by number, in order of first appearance.

use super::read::append;

/// Keys, each the values of some paths of a tree: of each value two bytes, its length or ABSENT, and its
/// bytes.
pub struct Index {
    /// A key's number and 1, or 0; found by hash, and on to the next free place. At most half of them are
    /// taken.
    slots: Vec<u32>,
    shift: u32,
    bytes: Vec<u8>,
    /// Where each key ends in `bytes`.
    ends: Vec<usize>,
}

/// No value is so long.
const ABSENT: u16 = u16::MAX;

impl Index {
    /// An index for at most so many keys.
    pub fn new(keys: usize) -> Index {
        let bits = (2 * keys.max(1)).next_power_of_two().ilog2();
        Index { slots: vec![0; 1 << bits], shift: 64 - bits, bytes: Vec::new(), ends: Vec::new() }
    }

    /// Writes a tree's key behind the others: which of the paths are present, path j counting 2 to the power
    /// j.
    fn write<'p>(&mut self, paths: impl Iterator<Item = &'p [u8]>, tree: &[u8]) -> usize {
        let mut subset = 0;
        for (j, path) in paths.enumerate() {
            let from = self.bytes.len() + 2;
            self.bytes.extend_from_slice(&ABSENT.to_be_bytes());
            if append(path, tree, &mut self.bytes) {
                subset |= 1 << j;
                let length = (self.bytes.len() - from) as u16;
                self.bytes[from - 2..from].copy_from_slice(&length.to_be_bytes());
            }
        }
        subset
    }

    fn key(&self, number: usize) -> &[u8] {
        let from = number.checked_sub(1).map_or(0, |before| self.ends[before]);
        &self.bytes[from..self.ends[number]]
    }

    fn written(&self) -> usize {
        self.ends.last().copied().unwrap_or(0)
    }

    /// The number of the key that was written last, or the slot where it belongs.
    fn find(&self) -> Result<usize, usize> {
        let key = &self.bytes[self.written()..];
        let mut slot = (hash(key) >> self.shift) as usize;
        while let Some(number) = (self.slots[slot] as usize).checked_sub(1) {
            if self.key(number) == key {
                return Ok(number);
            }
            slot = (slot + 1) & (self.slots.len() - 1);
        }
        Err(slot)
    }

    /// The number of a tree's key, which is the next one if it is new, and the subset of the paths that are
    /// present.
    pub fn number<'p>(&mut self, paths: impl Iterator<Item = &'p [u8]>, tree: &[u8]) -> (usize, usize) {
        let subset = self.write(paths, tree);
        let found = self.find();
        match found {
            Ok(_) => self.bytes.truncate(self.written()),
            Err(slot) => {
                self.ends.push(self.bytes.len());
                self.slots[slot] = self.ends.len() as u32;
            }
        }
        (found.unwrap_or(self.ends.len() - 1), subset)
    }

    /// The number of a tree's key, if it has one.
    pub fn known(&mut self, path: &[u8], tree: &[u8]) -> Option<usize> {
        self.write(std::iter::once(path), tree);
        let found = self.find().ok();
        self.bytes.truncate(self.written());
        found
    }
}

/// Eight bytes a step; the high bits are the good ones.
fn hash(bytes: &[u8]) -> u64 {
    const FACTOR: u64 = 0x9e37_79b9_7f4a_7c15;
    let step = |h: u64, word: u64| (h.rotate_left(23) ^ word).wrapping_mul(FACTOR);
    let (words, rest) = bytes.as_chunks::<8>();
    let h = words.iter().fold(bytes.len() as u64, |h, word| step(h, u64::from_le_bytes(*word)));
    let last = rest.iter().fold(0, |word, byte| word << 8 | u64::from(*byte));
    let h = step(h, last);
    (h ^ h >> 32).wrapping_mul(FACTOR)
}

/// Trees in lists by number, each list in order.
pub struct Lists<'a> {
    trees: Vec<(&'a [u8], u32)>,
    /// The first and the last place of each list.
    ends: Vec<(u32, u32)>,
}

const END: u32 = u32::MAX;

impl<'a> Lists<'a> {
    pub fn new(trees: usize) -> Lists<'a> {
        Lists { trees: Vec::with_capacity(trees), ends: Vec::new() }
    }

    /// Puts a tree at the end of a list, which is an old one or the next.
    pub fn push(&mut self, number: usize, tree: &'a [u8]) {
        let place = self.trees.len() as u32;
        self.trees.push((tree, END));
        match self.ends.get_mut(number) {
            None => self.ends.push((place, place)),
            Some((_, last)) => {
                self.trees[*last as usize].1 = place;
                *last = place;
            }
        }
    }

    /// Which of all trees, from 0, is the first of a list.
    pub fn first(&self, number: usize) -> usize {
        self.ends[number].0 as usize
    }

    pub fn list(&self, number: usize) -> impl Iterator<Item = &'a [u8]> + '_ {
        let mut place = self.ends[number].0;
        std::iter::from_fn(move || {
            let (tree, next) = self.trees.get(place as usize)?;
            place = *next;
            Some(*tree)
        })
    }
}
