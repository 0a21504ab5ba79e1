//! What a query is, and what each of its stages does to a list of trees.
//!
//! An absent array is `None`, an empty one `Some` of no trees: taking one for
//! the other is the commonest way to false lists. Arrays that a path finds are
//! lists of references, since they are parts of the tree and are not changed
//! before they are placed.

use crate::tree::{Root, Tree};

/// A path: 0 to 8 labels.
pub type Path = Vec<u8>;

/// A criterion, of a match or inside data.
#[derive(Clone, Debug, PartialEq, Eq)]
pub enum Criterion {
    True,
    Exists(Path),
    Equal(Path, Vec<Tree>),
    Same(Path, Path),
    Not(Box<Criterion>),
    And(Box<Criterion>, Box<Criterion>),
    Or(Box<Criterion>, Box<Criterion>),
}

/// Data, which give an array or are absent.
#[derive(Clone, Debug, PartialEq, Eq)]
pub enum Data {
    Literal(Vec<Tree>),
    Path(Path),
    List(Vec<Data>),
    Criterion(Criterion),
    Choice(Criterion, Box<Data>, Box<Data>),
    Reduced(Path, u16),
}

/// An item of a project.
#[derive(Clone, Debug, PartialEq, Eq)]
pub enum Item {
    Keep(Path),
    Place(Data, Path),
}

/// A pair of a group: what is read, and where it is placed.
#[derive(Clone, Debug, PartialEq, Eq)]
pub struct Pair {
    pub source: Path,
    pub destination: Path,
    /// Whether it is a total: what is placed is the sum of what is read. Only
    /// an aggregate may be one.
    pub total: bool,
}

impl Pair {
    /// A pair that places what it reads.
    pub fn new(source: &[u8], destination: &[u8]) -> Pair {
        Pair { source: source.to_vec(), destination: destination.to_vec(), total: false }
    }

    /// A pair that places the sum of the integers that it reads.
    pub fn total(source: &[u8], destination: &[u8]) -> Pair {
        Pair { total: true, ..Pair::new(source, destination) }
    }
}

/// A stage.
#[derive(Clone, Debug, PartialEq, Eq)]
pub enum Stage {
    Match(Criterion),
    Unwind(Path),
    Project(Vec<Item>),
    Group { aggregates: Vec<Pair>, grouping: Vec<Pair> },
    Lookup { q: Path, r: Path, p: Path },
}

/// What was tested and passed a limit: a tree, or a total of a group.
#[derive(Clone, Copy, Debug, PartialEq, Eq)]
pub enum TooLarge {
    Tree,
    Total,
}

/// What a path or data find in a tree: an array of its parts, or absent.
pub type Found<'a> = Option<Vec<&'a Tree>>;

/// Joins arrays in order: absent with an array is that array, and only all
/// absent is absent.
pub fn join<T>(arrays: impl IntoIterator<Item = Option<Vec<T>>>) -> Option<Vec<T>> {
    arrays.into_iter().flatten().reduce(|mut all, next| {
        all.extend(next);
        all
    })
}

/// Applies a path to a tree.
///
/// Under an empty array there is nothing to join, and nothing to be absent:
/// the outcome is the empty array.
pub fn apply<'a>(path: &[u8], tree: &'a Tree) -> Found<'a> {
    let Some((label, rest)) = path.split_first() else {
        return Some(vec![tree]);
    };
    let array = tree.labels.get(label)?;
    if array.is_empty() {
        return Some(vec![]);
    }
    join(array.iter().map(|under| apply(rest, under)))
}

/// Whether a tree meets a criterion.
pub fn holds(criterion: &Criterion, tree: &Tree) -> bool {
    match criterion {
        Criterion::True => true,
        Criterion::Exists(path) => apply(path, tree).is_some(),
        Criterion::Equal(path, array) => apply(path, tree) == Some(array.iter().collect()),
        Criterion::Same(one, other) => apply(one, tree) == apply(other, tree),
        Criterion::Not(inner) => !holds(inner, tree),
        Criterion::And(one, other) => holds(one, tree) && holds(other, tree),
        Criterion::Or(one, other) => holds(one, tree) || holds(other, tree),
    }
}

/// The match stage.
pub fn matched(criterion: &Criterion, trees: &[Tree]) -> Vec<Tree> {
    trees.iter().filter(|tree| holds(criterion, tree)).cloned().collect()
}

/// The unwind stage.
pub fn unwound(path: &[u8], trees: &[Tree]) -> Vec<Tree> {
    trees.iter().flat_map(|tree| unwound_tree(path, tree)).collect()
}

/// What unwinding gives of one tree.
///
/// A tree without the label gives none, and so does one whose array comes to
/// nothing.
fn unwound_tree(path: &[u8], tree: &Tree) -> Vec<Tree> {
    let Some((label, rest)) = path.split_first() else {
        return vec![tree.clone()];
    };
    let Some(array) = tree.labels.get(label) else {
        return vec![];
    };
    let mut outer = tree.clone();
    outer.labels.remove(label);
    unwound(rest, array).into_iter().map(|one| outer.clone().with(*label, vec![one])).collect()
}

/// An integer over a divisor, to nearest, halves away from zero.
///
/// The rounding is done on the magnitude: adding half the divisor to a
/// negative would round its halves towards zero. The wide type holds the
/// magnitude of the least integer.
pub fn reduced(value: i64, divisor: u16) -> i64 {
    let (magnitude, divisor) = (i128::from(value).abs(), i128::from(divisor));
    let nearest = (2 * magnitude + divisor) / (2 * divisor);
    let signed = if value < 0 { -nearest } else { nearest };
    i64::try_from(signed).expect("a quotient is no larger than what was divided")
}

fn reduced_tree(tree: &Tree, divisor: u16) -> Tree {
    let mut tree = tree.clone();
    if let Root::Integer(value) = tree.root {
        tree.root = Root::Integer(reduced(value, divisor));
    }
    tree
}

/// What data give of a tree.
pub fn given(data: &Data, tree: &Tree) -> Option<Vec<Tree>> {
    match data {
        Data::Literal(array) => Some(array.clone()),
        Data::Path(path) => apply(path, tree).map(owned),
        Data::List(members) => join(members.iter().map(|member| given(member, tree))),
        Data::Criterion(criterion) => Some(vec![Tree::bare(Root::Boolean(holds(criterion, tree)))]),
        Data::Choice(criterion, first, second) => {
            given(if holds(criterion, tree) { first } else { second }, tree)
        }
        Data::Reduced(path, divisor) => {
            let found = apply(path, tree)?;
            Some(found.into_iter().map(|part| reduced_tree(part, *divisor)).collect())
        }
    }
}

fn owned(parts: Vec<&Tree>) -> Vec<Tree> {
    parts.into_iter().cloned().collect()
}

/// The merge of two trees: the second's root unless it is void, all labels of
/// both, and common ones merged.
pub fn merged(s: Tree, t: Tree) -> Tree {
    let mut labels = s.labels;
    for (label, array) in t.labels {
        let before = labels.remove(&label).unwrap_or_default();
        labels.insert(label, merged_arrays(before, array));
    }
    Tree { root: if t.root == Root::Void { s.root } else { t.root }, labels }
}

/// Arrays merged position by position, the surplus of the longer kept.
fn merged_arrays(s: Vec<Tree>, t: Vec<Tree>) -> Vec<Tree> {
    let (mut s, mut t) = (s.into_iter(), t.into_iter());
    let mut all = Vec::new();
    loop {
        match (s.next(), t.next()) {
            (Some(one), Some(other)) => all.push(merged(one, other)),
            (Some(one), None) | (None, Some(one)) => all.push(one),
            (None, None) => return all,
        }
    }
}

/// Keep by a path.
pub fn kept(path: &[u8], tree: &Tree) -> Tree {
    let Some((label, rest)) = path.split_first() else {
        return tree.clone();
    };
    match tree.labels.get(label) {
        None => Tree::void(),
        Some(array) => Tree::void().with(*label, array.iter().map(|under| kept(rest, under)).collect()),
    }
}

/// Place of an array, or of absent data, at a path that is not empty.
pub fn placed(array: Option<Vec<Tree>>, path: &[u8]) -> Tree {
    let Some(array) = array else {
        return Tree::void();
    };
    let (last, inner) = path.split_last().expect("a place has a path that is not empty");
    let lowest = Tree::void().with(*last, array);
    inner.iter().rev().fold(lowest, |under, label| Tree::void().with(*label, vec![under]))
}

/// A tree, if it is not too large.
fn tested(tree: Tree) -> Result<Tree, TooLarge> {
    if tree.too_large() {
        Err(TooLarge::Tree)
    } else {
        Ok(tree)
    }
}

/// Parts merged onto a tree from left to right; each part is tested on its
/// own, and so is the merge after each.
fn built(start: Tree, parts: impl IntoIterator<Item = Tree>) -> Result<Tree, TooLarge> {
    parts.into_iter().try_fold(start, |tree, part| tested(merged(tree, tested(part)?)))
}

/// The project stage.
pub fn projected(items: &[Item], trees: &[Tree]) -> Result<Vec<Tree>, TooLarge> {
    trees.iter().map(|tree| built(Tree::void(), items.iter().map(|item| made(item, tree)))).collect()
}

/// What an item makes of a tree.
fn made(item: &Item, tree: &Tree) -> Tree {
    match item {
        Item::Keep(path) => kept(path, tree),
        Item::Place(data, path) => placed(given(data, tree), path),
    }
}

/// The group stage.
pub fn grouped(aggregates: &[Pair], grouping: &[Pair], trees: &[Tree]) -> Result<Vec<Tree>, TooLarge> {
    let trees: Vec<&Tree> = trees.iter().collect();
    let all = grouped_from(aggregates, grouping, &trees)?;
    Ok(all.into_iter().map(|(_, tree)| tree).collect())
}

/// The group stage: subsets of the grouping pairs by rising sum, and in each
/// the classes in order of first appearance. Of each class its tree, and where
/// in the list its first member stands, from 0.
///
/// The totals of all classes are tested before any tree is.
pub fn grouped_from(
    aggregates: &[Pair],
    grouping: &[Pair],
    trees: &[&Tree],
) -> Result<Vec<(usize, Tree)>, TooLarge> {
    let subsets = 0..1_usize << grouping.len();
    let classes: Vec<Class> = subsets.flat_map(|subset| classes(grouping, subset, trees)).collect();
    for class in &classes {
        for pair in aggregates.iter().filter(|pair| pair.total) {
            total(&pair.source, &class.members)?;
        }
    }
    classes.iter().map(|class| Ok((class.first, class_tree(aggregates, grouping, class)?))).collect()
}

/// Trees whose sources have equal values, absent ones among them.
struct Class<'a> {
    values: Vec<Found<'a>>,
    members: Vec<&'a Tree>,
    /// Where the first member stands in the list.
    first: usize,
}

/// The classes of the trees that have exactly a subset's sources.
fn classes<'a>(grouping: &[Pair], subset: usize, trees: &[&'a Tree]) -> Vec<Class<'a>> {
    let mut classes: Vec<Class> = Vec::new();
    for (place, tree) in trees.iter().enumerate() {
        let values: Vec<Found> = grouping.iter().map(|pair| apply(&pair.source, tree)).collect();
        if sum_of_present(&values) != subset {
            continue;
        }
        match classes.iter_mut().find(|class| class.values == values) {
            Some(class) => class.members.push(tree),
            None => classes.push(Class { values, members: vec![tree], first: place }),
        }
    }
    classes
}

/// The sum of the subset that is present: pair j counts 2 to the power j.
fn sum_of_present(values: &[Found]) -> usize {
    values.iter().enumerate().map(|(j, value)| usize::from(value.is_some()) << j).sum()
}

/// What a path gives of all members of a class: applied to each, joined.
fn over<'a>(path: &[u8], members: &[&'a Tree]) -> Found<'a> {
    join(members.iter().map(|member| apply(path, member)))
}

/// The sum of the integer roots of the trees that a path gives of a class's
/// members; none if no tree among them has an integer root.
///
/// The roots are those of the trees that the path gives, and not of trees
/// below them. The sum is exact, in a type that is wide enough for any list:
/// only at the end it is asked whether it fits.
fn total(path: &[u8], members: &[&Tree]) -> Result<Option<i64>, TooLarge> {
    let integer = |tree: &Tree| match tree.root {
        Root::Integer(value) => Some(i128::from(value)),
        _ => None,
    };
    let integers = over(path, members).unwrap_or_default().into_iter().filter_map(integer);
    let exact = integers.reduce(|sum, value| sum + value);
    exact.map(i64::try_from).transpose().map_err(|_| TooLarge::Total)
}

/// What an aggregate places of a class: all that its source gives, or of a
/// total one bare integer.
fn aggregate(pair: &Pair, members: &[&Tree]) -> Result<Option<Vec<Tree>>, TooLarge> {
    if pair.total {
        let sum = total(&pair.source, members)?;
        return Ok(sum.map(|value| vec![Tree::integer(value)]));
    }
    Ok(over(&pair.source, members).map(owned))
}

/// The tree of a class: the aggregates, then the grouping values that are
/// there, in list order. A value that is absent is none of the subset's, and
/// no part is built of it.
fn class_tree(aggregates: &[Pair], grouping: &[Pair], class: &Class) -> Result<Tree, TooLarge> {
    let mut parts = Vec::new();
    for pair in aggregates {
        parts.push(placed(aggregate(pair, &class.members)?, &pair.destination));
    }
    let values = grouping.iter().zip(&class.values).filter(|(_, value)| value.is_some());
    parts.extend(values.map(|(pair, value)| placed(value.clone().map(owned), &pair.destination)));
    built(Tree::void(), parts)
}

/// The lookup stage.
pub fn looked_up(
    q: &[u8],
    r: &[u8],
    p: &[u8],
    trees: &[Tree],
    joined: &[Tree],
) -> Result<Vec<Tree>, TooLarge> {
    let keys: Vec<Found> = joined.iter().map(|other| apply(r, other)).collect();
    let with_matches = |tree: &Tree| {
        let key = apply(q, tree);
        let equal = joined.iter().zip(&keys).filter(|(_, other)| **other == key);
        let matches = equal.map(|(other, _)| other.clone()).collect();
        built(tree.clone(), [placed(Some(matches), p)])
    };
    trees.iter().map(with_matches).collect()
}

/// One stage over a whole list; each tree that leaves it is tested.
pub fn staged(stage: &Stage, trees: &[Tree], joined: &[Tree]) -> Result<Vec<Tree>, TooLarge> {
    let after = match stage {
        Stage::Match(criterion) => matched(criterion, trees),
        Stage::Unwind(path) => unwound(path, trees),
        Stage::Project(items) => projected(items, trees)?,
        Stage::Group { aggregates, grouping } => grouped(aggregates, grouping, trees)?,
        Stage::Lookup { q, r, p } => looked_up(q, r, p, trees, joined)?,
    };
    after.into_iter().map(tested).collect()
}

#[cfg(test)]
mod tests {
    use super::*;

    fn v() -> Tree {
        Tree::void()
    }

    fn n(value: i64) -> Tree {
        Tree::integer(value)
    }

    #[test]
    fn p1_exists() {
        let tree = v().with(1, vec![]);
        assert!(holds(&Criterion::Exists(vec![1]), &tree));
        assert!(holds(&Criterion::Exists(vec![1, 2]), &tree));
        assert!(!holds(&Criterion::Exists(vec![2]), &tree));
    }

    #[test]
    fn p2_unwind() {
        let trees = [v().with(1, vec![n(5), n(6)]), v().with(2, vec![n(9)]), v().with(1, vec![])];
        assert_eq!(unwound(&[1], &trees), [v().with(1, vec![n(5)]), v().with(1, vec![n(6)])]);
    }

    #[test]
    fn p3_unwind_below() {
        let of = |values: &[i64]| v().with(2, values.iter().map(|value| n(*value)).collect());
        let trees = [v().with(1, vec![of(&[5, 6]), of(&[7])])];
        let one = |value| v().with(1, vec![of(&[value])]);
        assert_eq!(unwound(&[1, 2], &trees), [one(5), one(6), one(7)]);
    }

    #[test]
    fn p4_merge() {
        let s = n(3).with(1, vec![n(4), n(5)]);
        let t = v().with(1, vec![n(6)]).with(2, vec![n(7)]);
        assert_eq!(merged(s, t), n(3).with(1, vec![n(6), n(5)]).with(2, vec![n(7)]));
    }

    #[test]
    fn p5_place() {
        let tree = v().with(4, vec![v().with(5, vec![n(1)])]);
        assert_eq!(placed(Some(vec![n(1)]), &[4, 5]), tree);
        assert_eq!(placed(None, &[4, 5]), v());
    }

    #[test]
    fn p6_group() {
        let trees = [
            v().with(1, vec![n(1)]).with(2, vec![n(10)]),
            v().with(2, vec![n(11)]),
            v().with(1, vec![n(1)]).with(2, vec![n(12)]),
        ];
        let after = grouped(&[Pair::new(&[2], &[2])], &[Pair::new(&[1], &[1])], &trees).unwrap();
        let second = v().with(1, vec![n(1)]).with(2, vec![n(10), n(12)]);
        assert_eq!(after, [v().with(2, vec![n(11)]), second]);
    }

    #[test]
    fn p7_lookup() {
        let trees = [v().with(1, vec![n(1)]), v().with(2, vec![n(2)])];
        let joined = [v().with(1, vec![n(1)]).with(4, vec![n(8)]), v().with(4, vec![n(9)])];
        let after = looked_up(&[1], &[1], &[3], &trees, &joined).unwrap();
        let expected = [
            trees[0].clone().with(3, vec![joined[0].clone()]),
            trees[1].clone().with(3, vec![joined[1].clone()]),
        ];
        assert_eq!(after, expected);
    }

    #[test]
    fn p8_reduced() {
        let by_ten = |value| reduced(value, 10);
        assert_eq!([25, 24, -25, -24].map(by_ten), [3, 2, -3, -2]);
        assert_eq!(reduced(i64::MIN, 1), i64::MIN);
        assert_eq!(reduced(i64::MAX, 1), i64::MAX);
        assert_eq!(reduced(i64::MIN, 2), i64::MIN / 2);
    }

    #[test]
    fn a_lookup_without_a_match_places_an_empty_array() {
        let after = looked_up(&[1], &[1], &[3], &[v()], &[n(4).with(1, vec![])]).unwrap();
        assert_eq!(after, [v().with(3, vec![])]);
    }

    #[test]
    fn absent_is_not_empty() {
        let empty = v().with(1, vec![]);
        assert!(holds(&Criterion::Equal(vec![1], vec![]), &empty));
        assert!(!holds(&Criterion::Equal(vec![1], vec![]), &v()));
        assert!(holds(&Criterion::Same(vec![1], vec![2]), &v()));
        assert!(!holds(&Criterion::Same(vec![1], vec![2]), &empty));
    }

    #[test]
    fn subsets_go_by_rising_sum_and_classes_by_first_appearance() {
        let tree = |a: Option<i64>, b: Option<i64>| {
            let with = |tree: Tree, label, value: Option<i64>| match value {
                Some(value) => tree.with(label, vec![n(value)]),
                None => tree,
            };
            with(with(v(), 1, a), 2, b)
        };
        let trees = [
            tree(Some(2), Some(1)),
            tree(None, Some(1)),
            tree(Some(9), None),
            tree(Some(1), None),
            tree(None, None),
        ];
        let after = grouped(&[], &[Pair::new(&[1], &[1]), Pair::new(&[2], &[2])], &trees).unwrap();
        let order = [4, 2, 3, 1, 0].map(|index: usize| trees[index].clone());
        assert_eq!(after, order);
    }

    /// What a group of all trees gives, one class, by these aggregates.
    fn of_all(aggregates: &[Pair], trees: &[Tree]) -> Result<Tree, TooLarge> {
        grouped(aggregates, &[], trees).map(|all| all[0].clone())
    }

    /// The total at label 2 of these trees in one array.
    fn total_of(trees: &[Tree]) -> Result<Tree, TooLarge> {
        of_all(&[Pair::total(&[1], &[2])], &[v().with(1, trees.to_vec())])
    }

    fn placed_total(value: i64) -> Result<Tree, TooLarge> {
        Ok(v().with(2, vec![n(value)]))
    }

    #[test]
    fn a_total_is_the_sum_over_the_members() {
        let trees = [
            v().with(1, vec![n(1)]).with(2, vec![n(10), n(-3)]),
            v().with(2, vec![n(11)]),
            v().with(1, vec![n(1)]).with(2, vec![n(12)]),
        ];
        let after = grouped(&[Pair::total(&[2], &[3])], &[Pair::new(&[1], &[1])], &trees).unwrap();
        assert_eq!(after, [v().with(3, vec![n(11)]), v().with(1, vec![n(1)]).with(3, vec![n(19)])]);
    }

    #[test]
    fn other_roots_and_deeper_integers_add_nothing() {
        let deeper = v().with(1, vec![n(100)]);
        let others = [v(), Tree::bare(Root::Boolean(true)), Tree::text(b"7"), deeper];
        assert_eq!(total_of(&[&others[..], &[n(5).with(1, vec![n(100)])]].concat()), placed_total(5));
        assert_eq!(total_of(&others), Ok(v()));
    }

    #[test]
    fn without_an_integer_nothing_is_placed_and_a_sum_of_0_is() {
        assert_eq!(total_of(&[]), Ok(v()));
        assert_eq!(of_all(&[Pair::total(&[1], &[2])], &[v()]), Ok(v()));
        assert_eq!(total_of(&[n(0)]), placed_total(0));
        assert_eq!(total_of(&[n(7), n(-7)]), placed_total(0));
        // nothing placed leaves what another pair has placed
        let pairs = [Pair::new(&[1], &[2]), Pair::total(&[1], &[2])];
        assert_eq!(of_all(&pairs, &[v().with(1, vec![v()])]), Ok(v().with(2, vec![v()])));
    }

    #[test]
    fn the_empty_path_adds_the_members_own_roots() {
        let trees = [n(4).with(1, vec![n(100)]), v(), n(5)];
        assert_eq!(of_all(&[Pair::total(&[], &[2])], &trees), placed_total(9));
    }

    #[test]
    fn a_longer_path_adds_what_it_gives() {
        let trees = [
            v().with(1, vec![v().with(1, vec![n(1), n(2)]), n(50), v().with(1, vec![n(3)])]),
            v().with(1, vec![]),
            v().with(1, vec![v().with(1, vec![n(4)])]),
        ];
        assert_eq!(of_all(&[Pair::total(&[1, 1], &[2])], &trees), placed_total(10));
    }

    #[test]
    fn a_partial_sum_may_leave_64_bits() {
        assert_eq!(total_of(&[n(i64::MAX), n(1), n(-1)]), placed_total(i64::MAX));
        assert_eq!(total_of(&[n(i64::MIN), n(i64::MIN), n(i64::MAX), n(1)]), placed_total(i64::MIN));
        assert_eq!(total_of(&[n(i64::MIN)]), placed_total(i64::MIN));
        assert_eq!(total_of(&[n(i64::MAX), n(1)]), Err(TooLarge::Total));
        assert_eq!(total_of(&[n(i64::MIN), n(-1)]), Err(TooLarge::Total));
        assert_eq!(total_of(&vec![n(i64::MAX); 500]), Err(TooLarge::Total));
    }

    #[test]
    fn totals_and_aggregates_merge_in_list_order() {
        let trees = [v().with(1, vec![n(10), n(12)])];
        let (all, total) = (Pair::new(&[1], &[2]), Pair::total(&[1], &[2]));
        assert_eq!(of_all(&[all.clone(), total.clone()], &trees), Ok(v().with(2, vec![n(22), n(12)])));
        assert_eq!(of_all(&[total, all], &trees), Ok(v().with(2, vec![n(10), n(12)])));
        let below = [Pair::total(&[1], &[2]), Pair::total(&[1], &[2, 3])];
        assert_eq!(of_all(&below, &trees), Ok(v().with(2, vec![n(22).with(3, vec![n(22)])])));
    }

    #[test]
    fn every_total_is_tested_before_any_tree() {
        let large = v().with(3, vec![v(); 330]);
        let past = v().with(1, vec![n(1)]).with(2, vec![n(i64::MAX), n(1)]);
        let pairs = [Pair::new(&[3], &[3, 3]), Pair::new(&[3], &[4]), Pair::total(&[2], &[2])];
        let by_1 = [Pair::new(&[1], &[1])];
        let trees = [large.clone(), large, past];
        assert_eq!(grouped(&pairs, &by_1, &trees[..2]), Err(TooLarge::Tree));
        assert_eq!(grouped(&pairs, &by_1, &trees), Err(TooLarge::Total));
        assert_eq!(grouped(&pairs[..2], &by_1, &trees), Err(TooLarge::Tree));
    }

    /// Over an accepted grouping the totals of all classes add to the total over the array that entered.
    #[test]
    fn totals_of_all_classes_add_to_the_whole() {
        let keyed = |key: Option<i64>, value: i64| {
            let tree = v().with(2, vec![n(value)]);
            key.map_or(tree.clone(), |key| tree.with(1, vec![n(key)]))
        };
        let trees =
            [keyed(Some(1), 5), keyed(None, -9), keyed(Some(2), i64::MAX), keyed(Some(1), 7), keyed(None, 4)];
        let total = [Pair::total(&[2], &[3])];
        let classes = grouped(&total, &[Pair::new(&[1], &[1])], &trees).unwrap();
        let whole: i128 = trees.iter().map(|tree| integer_under(tree, 2)).sum();
        assert_eq!(classes.len(), 3);
        assert_eq!(classes.iter().map(|tree| integer_under(tree, 3)).sum::<i128>(), whole);
    }

    fn integer_under(tree: &Tree, label: u8) -> i128 {
        match tree.labels[&label][0].root {
            Root::Integer(value) => value.into(),
            _ => panic!("no integer"),
        }
    }

    #[test]
    fn the_merge_after_each_item_is_tested() {
        let items = [Item::Keep(vec![]), Item::Place(Data::Literal(vec![]), vec![2])];
        let over = |voids| v().with(1, vec![v(); voids]);
        assert!(projected(&items, &[over(338)]).is_ok());
        assert_eq!(projected(&items, &[over(339)]), Err(TooLarge::Tree));
    }

    #[test]
    fn a_merge_that_a_later_item_would_shrink_is_still_too_large() {
        let long = Data::Literal(vec![Tree::text(&[7; 255])]);
        let short = Data::Literal(vec![n(1)]);
        let after = |first: Data| {
            let items = [(first, vec![1]), (Data::Path(vec![3]), vec![2]), (short.clone(), vec![1])];
            projected(&items.map(|(data, path)| Item::Place(data, path)), &[v().with(3, vec![v(); 330])])
        };
        assert_eq!(after(long), Err(TooLarge::Tree));
        assert!(after(short.clone()).is_ok());
    }
}
