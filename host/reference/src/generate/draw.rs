//! Random trees, paths and stages.
//!
//! Labels come from a small set and paths mostly from labels that are there:
//! paths that find nothing would leave most stages with nothing to do. Values
//! too are few, so that some are equal.

use super::random::Random;
use crate::bytes::{AGGREGATES_LIMIT, GROUPING_LIMIT, NESTING_LIMIT, PATH_LIMIT};
use crate::stages::{Criterion, Data, Item, Pair, Path, Stage};
use crate::tree::{Root, Tree, HEAD, TEXT_LIMIT};

const LABELS: [u8; 10] = [1, 1, 1, 2, 2, 2, 3, 3, 4, 255];
const INTEGERS: [i64; 14] = [0, 1, 1, 2, 5, -5, 24, -24, 25, -25, 14_999, -15_000, i64::MAX, i64::MIN];
const DIVISORS: [u16; 9] = [1, 2, 3, 7, 10, 10, 255, 256, 10_000];

// Trees

pub fn root(random: &mut Random) -> Root {
    match random.below(20) {
        0..=7 => Root::Void,
        8 | 9 => Root::Boolean(random.chance(50)),
        10..=15 => Root::Integer(random.pick(&INTEGERS)),
        16 => Root::Integer(random.bits() as i64),
        _ => Root::Text(text(random)),
    }
}

/// Mostly short texts; at times one at the limit.
fn text(random: &mut Random) -> Vec<u8> {
    let length = match random.below(40) {
        0 => TEXT_LIMIT,
        1 => random.between(0, TEXT_LIMIT),
        _ => random.below(3),
    };
    (0..length).map(|_| random.pick(b"ab")).collect()
}

/// A tree with at most so many levels under it.
pub fn tree(random: &mut Random, levels: usize) -> Tree {
    let mut tree = Tree::bare(root(random));
    if levels > 0 {
        for _ in 0..random.pick(&[0, 1, 1, 2, 2, 3]) {
            let number = random.pick(&[0, 1, 1, 1, 2, 2, 3]);
            let array = trees(random, number, levels - 1);
            tree.labels.insert(random.pick(&LABELS), array);
        }
    }
    tree
}

/// So many trees, each with at most so many levels under it.
pub fn trees(random: &mut Random, number: usize, levels: usize) -> Vec<Tree> {
    (0..number).map(|_| tree(random, levels)).collect()
}

/// A tree of few labels that goes to a depth, for long paths.
pub fn deep(random: &mut Random, depth: usize) -> Tree {
    let mut tree = Tree::bare(root(random));
    if depth > 1 {
        let mut array = vec![deep(random, depth - 1)];
        while random.chance(15) {
            let beside = Tree::bare(root(random));
            array.insert(random.below(array.len() + 1), beside);
        }
        tree.labels.insert(random.pick(&[1, 2]), array);
    }
    tree
}

/// A tree of exactly so many bytes, from 6 up: a bare text, or label 1 over
/// voids and a text.
pub fn sized(random: &mut Random, size: usize) -> Tree {
    let bare = Tree::void().size();
    if size <= bare + TEXT_LIMIT {
        return if size == bare && random.chance(50) {
            Tree::void()
        } else {
            Tree::text(&vec![b'a'; size - bare])
        };
    }
    let under_label = size - Tree::void().with(1, vec![]).size();
    let longest = TEXT_LIMIT.min(under_label - bare);
    let voids = (under_label - bare - longest).div_ceil(bare);
    let mut array = vec![Tree::void(); voids];
    array.push(Tree::text(&vec![b'a'; under_label - bare - bare * voids]));
    Tree::void().with(1, array)
}

/// Trees whose array measures exactly so many bytes, from 9 up, the given ones
/// first as far as they fit.
pub fn filled(random: &mut Random, first: Vec<Tree>, size: usize) -> Vec<Tree> {
    let bare = Tree::void().size();
    let mut left = size - HEAD;
    let mut all = Vec::new();
    for tree in first {
        if tree.size() + bare <= left {
            left -= tree.size();
            all.push(tree);
        }
    }
    while left > 0 {
        let most = random.pick(&[12, 300, 300, 2_048]);
        let next = if left <= most { left } else { random.between(bare, most.min(left - bare)) };
        all.push(sized(random, next));
        left -= next;
    }
    all
}

// Paths

/// A path that a walk down one of the trees finds, at times with a label more.
pub fn found_path(random: &mut Random, trees: &[Tree]) -> Path {
    let mut path = Vec::new();
    let mut here = trees;
    while path.len() < PATH_LIMIT && !here.is_empty() {
        let tree = &here[random.below(here.len())];
        let labels: Vec<u8> = tree.labels.keys().copied().collect();
        if labels.is_empty() || (!path.is_empty() && random.chance(30)) {
            break;
        }
        let label = random.pick(&labels);
        path.push(label);
        here = &tree.labels[&label];
    }
    if path.len() < PATH_LIMIT && random.chance(10) {
        path.push(random.pick(&LABELS));
    }
    path
}

/// Any path, seldom with a label too many.
pub fn free_path(random: &mut Random) -> Path {
    let length = match random.below(400) {
        0 => PATH_LIMIT + 1,
        1..=8 => random.between(4, PATH_LIMIT),
        _ => random.pick(&[0, 1, 1, 1, 1, 2, 2, 3]),
    };
    (0..length).map(|_| random.pick(&LABELS)).collect()
}

/// A path to read by.
pub fn path(random: &mut Random, trees: &[Tree]) -> Path {
    if random.chance(75) {
        found_path(random, trees)
    } else {
        free_path(random)
    }
}

/// A path to place at; seldom the empty one, which is not allowed.
pub fn destination(random: &mut Random, trees: &[Tree]) -> Path {
    let path = path(random, trees);
    if path.is_empty() && !random.chance(2) {
        vec![random.pick(&LABELS)]
    } else {
        path
    }
}

// Criteria and data

/// A criterion that nests at most so deep.
pub fn criterion(random: &mut Random, trees: &[Tree], levels: usize) -> Criterion {
    if levels <= 1 || random.chance(50) {
        return flat_criterion(random, trees);
    }
    let first = Box::new(criterion(random, trees, levels - 1));
    match random.below(3) {
        0 => Criterion::Not(first),
        1 => Criterion::And(first, Box::new(criterion(random, trees, levels - 1))),
        _ => Criterion::Or(first, Box::new(criterion(random, trees, levels - 1))),
    }
}

fn flat_criterion(random: &mut Random, trees: &[Tree]) -> Criterion {
    match random.below(10) {
        0 => Criterion::True,
        1..=4 => Criterion::Exists(path(random, trees)),
        5..=7 => {
            let path = path(random, trees);
            let array = value_of(random, trees, &path);
            Criterion::Equal(path, array)
        }
        _ => Criterion::Same(path(random, trees), path(random, trees)),
    }
}

/// An array to compare with: mostly one that a tree has at the path.
fn value_of(random: &mut Random, from: &[Tree], path: &[u8]) -> Vec<Tree> {
    if !from.is_empty() && random.chance(60) {
        let tree = &from[random.below(from.len())];
        let found = crate::stages::apply(path, tree).unwrap_or_default();
        let array: Vec<Tree> = found.into_iter().cloned().collect();
        if crate::tree::array_size(&array) < 300 {
            return array;
        }
    }
    let number = random.pick(&[0, 1, 1, 2]);
    trees(random, number, 1)
}

/// A criterion that nests exactly so deep.
pub fn nested_criterion(random: &mut Random, trees: &[Tree], levels: usize) -> Criterion {
    let mut all = flat_criterion(random, trees);
    for _ in 1..levels {
        let inner = Box::new(all);
        all = match random.below(5) {
            0 => Criterion::Not(inner),
            1 => Criterion::And(inner, Box::new(flat_criterion(random, trees))),
            2 => Criterion::And(Box::new(flat_criterion(random, trees)), inner),
            3 => Criterion::Or(inner, Box::new(flat_criterion(random, trees))),
            _ => Criterion::Or(Box::new(flat_criterion(random, trees)), inner),
        };
    }
    all
}

/// Data that nest at most so deep.
pub fn data(random: &mut Random, trees: &[Tree], levels: usize) -> Data {
    if levels <= 1 || random.chance(60) {
        return flat_data(random, trees);
    }
    match random.below(4) {
        0 => Data::Criterion(criterion(random, trees, levels - 1)),
        1 => Data::Choice(
            criterion(random, trees, levels - 1),
            Box::new(data(random, trees, levels - 1)),
            Box::new(data(random, trees, levels - 1)),
        ),
        _ => Data::List((0..random.pick(&[1, 2, 2, 3])).map(|_| data(random, trees, levels - 1)).collect()),
    }
}

fn flat_data(random: &mut Random, from: &[Tree]) -> Data {
    match random.below(10) {
        0..=2 => {
            let number = random.pick(&[0, 1, 1, 2]);
            Data::Literal(trees(random, number, 1))
        }
        3..=6 => Data::Path(path(random, from)),
        _ => Data::Reduced(path(random, from), divisor(random)),
    }
}

/// A divisor, seldom one that is not allowed.
fn divisor(random: &mut Random) -> u16 {
    match random.below(200) {
        0 => random.pick(&[0, 10_001, 65_535]),
        1..=20 => random.between(1, 10_000) as u16,
        _ => random.pick(&DIVISORS),
    }
}

/// Data that nest exactly so deep, with criteria at the inner end at times.
pub fn nested_data(random: &mut Random, trees: &[Tree], levels: usize) -> Data {
    if levels <= 1 {
        return flat_data(random, trees);
    }
    let below = levels - 1;
    match random.below(6) {
        0 => Data::Criterion(nested_criterion(random, trees, below)),
        1 => {
            let test = nested_criterion(random, trees, below);
            Data::Choice(test, Box::new(flat_data(random, trees)), Box::new(flat_data(random, trees)))
        }
        2 => {
            let test = flat_criterion(random, trees);
            Data::Choice(
                test,
                Box::new(nested_data(random, trees, below)),
                Box::new(flat_data(random, trees)),
            )
        }
        3 => {
            let test = flat_criterion(random, trees);
            Data::Choice(
                test,
                Box::new(flat_data(random, trees)),
                Box::new(nested_data(random, trees, below)),
            )
        }
        4 => Data::List(vec![flat_data(random, trees), nested_data(random, trees, below)]),
        _ => Data::List(vec![nested_data(random, trees, below)]),
    }
}

// Stages

pub fn item(random: &mut Random, trees: &[Tree]) -> Item {
    if random.chance(40) {
        return Item::Keep(path(random, trees));
    }
    let levels = random.pick(&[1, 2, 2, 3, 4, NESTING_LIMIT]);
    Item::Place(data(random, trees, levels), destination(random, trees))
}

pub fn pair(random: &mut Random, trees: &[Tree]) -> Pair {
    let source = path(random, trees);
    Pair::new(&source, &destination(random, trees))
}

pub fn pairs(random: &mut Random, trees: &[Tree], number: usize) -> Vec<Pair> {
    (0..number).map(|_| pair(random, trees)).collect()
}

pub fn stage(random: &mut Random, trees: &[Tree]) -> Stage {
    match random.below(5) {
        0 => {
            let levels = random.pick(&[1, 2, 3, 4, NESTING_LIMIT]);
            Stage::Match(criterion(random, trees, levels))
        }
        1 => Stage::Unwind(path(random, trees)),
        2 => Stage::Project((0..random.pick(&[1, 1, 2, 2, 3, 4, 6])).map(|_| item(random, trees)).collect()),
        3 => {
            let aggregates = random.pick(&[0, 1, 1, 2, 3, AGGREGATES_LIMIT]);
            let grouping = random.pick(&[0, 1, 1, 2, 3, GROUPING_LIMIT]);
            Stage::Group {
                aggregates: pairs(random, trees, aggregates),
                grouping: pairs(random, trees, grouping),
            }
        }
        _ => Stage::Lookup { q: path(random, trees), r: path(random, trees), p: destination(random, trees) },
    }
}

pub fn stages(random: &mut Random, trees: &[Tree], number: usize) -> Vec<Stage> {
    (0..number).map(|_| stage(random, trees)).collect()
}
