//! Random cases of groups with totals.
//!
//! Random integers seldom add to a sum near a limit of 64 bits. So sums are
//! chosen first, and then parts that add to them: on the way such a sum may
//! leave 64 bits, however it ends.

use super::random::Random;
use super::{
    around, blindly, by_field, damage, draw, few_entries, groups, groups_of_groups, long_paths, near,
    nestings, ordinary, place_of_known_size, related, short_length, tree_growth, value, with_fault, Case,
    Draft, Kind,
};
use crate::bytes::{tags, AGGREGATES_LIMIT, GROUPING_LIMIT, QUERY_LIMIT};
use crate::stages::{Criterion, Data, Item, Pair, Stage};
use crate::tree::{Root, Tree, ARRAY_LIMIT, HEAD, TREE_LIMIT};

/// The kinds of cases, and how often each is drawn, the others having a
/// thousand together.
pub const KINDS: [(usize, Kind<Case>); 12] = [
    (50, |random| sums(random).case()),
    (50, |random| sums_at_limits(random).case()),
    (15, |random| totals_of_totals(random).case()),
    (40, |random| other_groups(random).case()),
    (10, |random| entering_at_limit(random).case()),
    (15, |random| grown_by_total(random).case()),
    (10, |random| counts(random).case()),
    (15, |random| misplaced(random)),
    (25, |random| several_faults(random)),
    (10, |random| damaged(random)),
    (5, |random| short_work(random)),
    (5, |random| short_positions(random)),
];

/// The labels of a record: what it is grouped by, what is added, and where
/// what is added stands below another label.
const KEY: u8 = 1;
const ADDED: u8 = 2;
const NESTED: u8 = 3;

/// The least and the greatest sum that fit.
const MIN: i128 = i64::MIN as i128;
const MAX: i128 = i64::MAX as i128;

/// Sums that fit, and sums that do not.
const FITTING: [i128; 8] = [MAX, MAX, MAX - 1, MIN, MIN, MIN + 1, 0, 5];
const PAST: [i128; 8] = [MAX + 1, MAX + 1, MAX + 2, MIN - 1, MIN - 1, MIN - 2, 2 * MAX, 3 * MIN];

/// Integers that add to a sum, at least one, in any order.
fn parts(random: &mut Random, sum: i128) -> Vec<i64> {
    let any = |random: &mut Random| match random.below(4) {
        0 => random.bits() as i64,
        1 => random.below(10) as i64,
        _ => random.pick(&[i64::MAX, i64::MIN]),
    };
    let mut parts: Vec<i64> = (0..random.pick(&[0, 0, 1, 2, 3, 6])).map(|_| any(random)).collect();
    let mut left = sum - parts.iter().map(|part| i128::from(*part)).sum::<i128>();
    while left != 0 || parts.is_empty() {
        let part = left.clamp(MIN, MAX);
        parts.push(part as i64);
        left -= part;
    }
    shuffled(random, parts)
}

/// Values in any order.
pub(super) fn shuffled<T>(random: &mut Random, mut all: Vec<T>) -> Vec<T> {
    for at in (1..all.len()).rev() {
        all.swap(at, random.below(at + 1));
    }
    all
}

/// A tree that adds nothing: its root is no integer, at times one below it is.
fn adds_nothing(random: &mut Random) -> Tree {
    match random.below(6) {
        0 => Tree::void(),
        1 => Tree::bare(Root::Boolean(true)),
        2 => Tree::text(b"1"),
        3 => Tree::text(&i64::MAX.to_be_bytes()),
        _ => Tree::void().with(random.pick(&[KEY, ADDED]), vec![Tree::integer(i64::MAX)]),
    }
}

/// Integers as trees, some with an integer below them, among trees that add
/// nothing.
fn addends(random: &mut Random, integers: &[i64]) -> Vec<Tree> {
    let mut trees = Vec::new();
    for integer in integers {
        while random.chance(20) {
            trees.push(adds_nothing(random));
        }
        let tree = Tree::integer(*integer);
        trees.push(if random.chance(10) { tree.with(ADDED, vec![Tree::integer(1)]) } else { tree });
    }
    trees
}

/// A record with what is added, or with that in two arrays below a label.
fn with_added(random: &mut Random, record: Tree, mut trees: Vec<Tree>, nested: bool) -> Tree {
    if !nested {
        return record.with(ADDED, trees);
    }
    let behind = trees.split_off(random.below(trees.len() + 1));
    let under = |trees: Vec<Tree>| Tree::void().with(ADDED, trees);
    record.with(NESTED, vec![under(trees), Tree::void(), under(behind)])
}

/// The path to what is added.
fn source(nested: bool) -> &'static [u8] {
    if nested {
        &[NESTED, ADDED]
    } else {
        &[ADDED]
    }
}

fn keyed(key: usize) -> Tree {
    if key == 0 {
        Tree::void()
    } else {
        Tree::void().with(KEY, vec![Tree::integer(key as i64)])
    }
}

/// Records in classes of these sums, keys 0, which is absent, 1 and on. The
/// parts of a sum are parted among members of its class, and the members of
/// all classes are mixed.
fn classes_of(random: &mut Random, sums: &[i128], nested: bool) -> Vec<Tree> {
    let mut records = Vec::new();
    for (key, sum) in sums.iter().enumerate() {
        let mut left = parts(random, *sum);
        while !left.is_empty() {
            let behind = left.split_off(random.between(0, left.len()));
            let trees = addends(random, &left);
            records.push(with_added(random, keyed(key), trees, nested));
            left = behind;
        }
    }
    shuffled(random, records)
}

/// The group of such records by their key, with their sum; at times also with
/// what is added or with the sum of the keys, before it or behind it.
fn summed(random: &mut Random, nested: bool) -> Stage {
    let mut aggregates = vec![Pair::total(source(nested), &[random.pick(&[ADDED, NESTED])])];
    if random.chance(30) {
        aggregates.insert(random.below(2), Pair::new(source(nested), &[random.pick(&[ADDED, 4])]));
    }
    if random.chance(40) {
        aggregates.insert(random.below(aggregates.len() + 1), Pair::total(&[KEY], &[4]));
    }
    Stage::Group { aggregates, grouping: vec![Pair::new(&[KEY], &[KEY])] }
}

// Kinds of cases that are mostly accepted

/// Records of few keys, with integers of any size or with none, by aggregates
/// of both kinds whose destinations often are the same.
fn sums(random: &mut Random) -> Draft {
    let small = random.chance(70);
    let input: Vec<Tree> = (0..random.between(1, 16)).map(|_| any_record(random, small)).collect();
    let aggregates = (0..random.pick(&[1, 1, 2, 2, 3, 5])).map(|_| any_pair(random)).collect();
    let grouping = random.pick(&[vec![], vec![KEY], vec![KEY], vec![KEY, NESTED]]);
    let grouping = grouping.iter().map(|label| Pair::new(&[*label], &[*label])).collect();
    let mut stages = vec![Stage::Group { aggregates, grouping }];
    around(random, &mut stages, &input);
    Draft { stages, joined: related(random, &input), input }
}

fn any_record(random: &mut Random, small: bool) -> Tree {
    let mut record = Tree::bare(draw::root(random));
    if random.chance(80) {
        record = record.with(KEY, value(random));
    }
    if random.chance(20) {
        return record;
    }
    let integers: Vec<i64> =
        (0..random.pick(&[0, 0, 1, 1, 2, 4])).map(|_| any_integer(random, small)).collect();
    let mut trees = addends(random, &integers);
    if random.chance(30) {
        trees.push(adds_nothing(random));
    }
    let nested = random.chance(30);
    with_added(random, record, trees, nested)
}

fn any_integer(random: &mut Random, small: bool) -> i64 {
    match random.below(8) {
        0 if !small => random.pick(&[i64::MAX, i64::MIN]),
        1 if !small => random.bits() as i64,
        _ => random.below(200) as i64 - 100,
    }
}

fn any_pair(random: &mut Random) -> Pair {
    let below = random.pick(&[source(true), &[NESTED], &[ADDED, ADDED], &[KEY, KEY]]);
    let source = random.pick(&[source(false), source(false), below, &[KEY], &[], &[9]]);
    let destination = random.pick(&[&[ADDED][..], &[ADDED], &[KEY], &[NESTED], &[5, 6]]);
    Pair { total: random.chance(70), ..Pair::new(source, destination) }
}

/// Classes whose sums are at the limits; at times one past them.
fn sums_at_limits(random: &mut Random) -> Draft {
    let mut sums: Vec<i128> = (0..random.between(1, 4)).map(|_| random.pick(&FITTING)).collect();
    if random.chance(35) {
        let at = random.below(sums.len());
        sums[at] = random.pick(&PAST);
    }
    let nested = random.chance(30);
    let input = classes_of(random, &sums, nested);
    let mut stages = vec![summed(random, nested)];
    if random.chance(20) {
        let sum = random.pick(&sums).clamp(MIN, MAX) as i64;
        let label = random.pick(&[ADDED, NESTED]);
        stages.push(Stage::Match(Criterion::Equal(vec![label], vec![Tree::integer(sum)])));
    }
    around(random, &mut stages, &input);
    Draft { stages, input, joined: vec![] }
}

/// A group behind a group that adds its totals, or groups by them.
fn totals_of_totals(random: &mut Random) -> Draft {
    let sums: Vec<i128> = (0..random.between(1, 4)).map(|_| random.pick(&FITTING)).collect();
    let input = classes_of(random, &sums, false);
    let aggregates = vec![Pair::total(&[ADDED], &[ADDED])];
    let first = Stage::Group { aggregates, grouping: vec![Pair::new(&[KEY], &[KEY])] };
    let aggregates = vec![Pair::total(&[ADDED], &[NESTED]), Pair::new(&[KEY], &[KEY])];
    let grouping = random.pick(&[vec![], vec![Pair::new(&[ADDED], &[ADDED])], vec![Pair::new(&[9], &[9])]]);
    let mut stages = vec![first, Stage::Group { aggregates, grouping }];
    if random.chance(30) {
        stages.insert(1, Stage::Unwind(vec![random.pick(&[KEY, ADDED])]));
    }
    around(random, &mut stages, &input);
    Draft { stages, input, joined: vec![] }
}

/// Cases of other kinds, in whose groups some aggregates are totals.
fn other_groups(random: &mut Random) -> Draft {
    let mut draft = match random.below(8) {
        0 => ordinary(random),
        1 => long_paths(random),
        2 => nestings(random),
        3 => tree_growth(random),
        4 => groups_of_groups(random),
        _ => groups(random),
    };
    if !draft.stages.iter().any(|stage| matches!(stage, Stage::Group { .. })) {
        let number = random.below(3);
        let group = Stage::Group { aggregates: vec![], grouping: draw::pairs(random, &draft.input, number) };
        draft.stages.insert(random.below(draft.stages.len() + 1), group);
    }
    for stage in &mut draft.stages {
        if let Stage::Group { aggregates, .. } = stage {
            if aggregates.is_empty() {
                aggregates.push(draw::pair(random, &draft.input));
            }
            aggregates.iter_mut().for_each(|pair| pair.total = random.chance(60));
        }
    }
    draft
}

// Kinds of cases at the limits

/// An array that enters a group at its limit or one tree past it, of trees
/// whose total mostly does not fit: 9 goes before 12.
fn entering_at_limit(random: &mut Random) -> Draft {
    let sum = random.pick(&[MAX, MAX, MIN, 0]);
    let added: Vec<Tree> = parts(random, sum).into_iter().map(Tree::integer).collect();
    let tree = |voids: usize| Tree::void().with(KEY, vec![Tree::void(); voids]).with(ADDED, added.clone());
    let most = (ARRAY_LIMIT - HEAD) / tree(1).size();
    let input = vec![tree(most / 2), tree(most - most / 2 + random.pick(&[0, 0, 1]))];
    let grouping = random.pick(&[vec![], vec![Pair::new(&[KEY], &[KEY])]]);
    let group = Stage::Group { aggregates: vec![Pair::total(&[ADDED], &[ADDED])], grouping };
    Draft { stages: vec![Stage::Unwind(vec![KEY]), group], input, joined: vec![] }
}

/// A class whose tree comes to its limit or past it by a total.
fn grown_by_total(random: &mut Random) -> Draft {
    let (destination, more) = place_of_known_size(random);
    let bare = Tree::void().with(KEY, vec![]).size() + more + Tree::integer(0).size();
    let content = near(random, TREE_LIMIT) - bare;
    let front = random.between(6, content - 6);
    let mut filled = |size: usize| Tree::void().with(KEY, draw::filled(random, vec![], HEAD + size));
    let mut input = vec![filled(front), filled(content - front)];
    let sum = random.pick(&FITTING);
    let added = parts(random, sum).into_iter().map(Tree::integer).collect();
    input.insert(random.below(3), Tree::void().with(ADDED, added));
    let (filling, total) = (Pair::new(&[KEY], &[KEY]), Pair::total(&[ADDED], &destination));
    let aggregates = if random.chance(50) { vec![filling, total] } else { vec![total, filling] };
    let mut stages = vec![Stage::Group { aggregates, grouping: vec![] }];
    around(random, &mut stages, &[Tree::void()]);
    Draft { stages, input, joined: vec![] }
}

/// As many pairs of both kinds as are allowed, or one more.
fn counts(random: &mut Random) -> Draft {
    let sum = random.pick(&FITTING);
    let input = classes_of(random, &[sum], false);
    let number = random.pick(&[AGGREGATES_LIMIT, AGGREGATES_LIMIT, AGGREGATES_LIMIT + 1]);
    let mut aggregates = draw::pairs(random, &input, number);
    for pair in &mut aggregates {
        pair.total = random.chance(50);
        if random.chance(50) {
            pair.source = vec![ADDED];
        }
    }
    let number = random.pick(&[0, 1, GROUPING_LIMIT, GROUPING_LIMIT + 1]);
    let grouping = draw::pairs(random, &input, number);
    Draft { stages: vec![Stage::Group { aggregates, grouping }], input, joined: vec![] }
}

// Kinds of cases that are mostly refused

/// An accepted kind of case, as bytes.
fn sound(random: &mut Random) -> Option<Case> {
    if random.chance(50) { sums(random) } else { sums_at_limits(random) }.case()
}

/// A total where none may stand: among the grouping pairs, or in the place of
/// any field.
fn misplaced(random: &mut Random) -> Option<Case> {
    let mut draft = if random.chance(50) { sums(random) } else { groups(random) };
    if random.chance(50) {
        let mut case = draft.case()?;
        case.query = damage::tagged(random, &case.query, tags::TOTAL);
        return Some(case);
    }
    for stage in &mut draft.stages {
        if let Stage::Group { grouping, .. } = stage {
            grouping.truncate(GROUPING_LIMIT - 1);
            grouping.insert(random.below(grouping.len() + 1), Pair::total(&[ADDED], &[NESTED]));
        }
    }
    draft.case()
}

/// A total that does not fit, and a tree that is too large, before the group,
/// in it or behind it; at times with what is tested before a run.
fn several_faults(random: &mut Random) -> Option<Case> {
    let sums = [random.pick(&FITTING), random.pick(&PAST), random.pick(&FITTING)];
    let mut input = classes_of(random, &sums, false);
    let mut stages = vec![summed(random, false)];
    let large = Stage::Project(vec![
        Item::Keep(vec![]),
        Item::Place(Data::Literal(vec![Tree::void(); 339]), vec![1, 1]),
    ]);
    match random.below(6) {
        0 => stages.insert(0, large),
        1 => {
            let aggregates = vec![Pair::new(&[ADDED], &[ADDED])];
            let grouped = Stage::Group { aggregates, grouping: vec![Pair::new(&[KEY], &[KEY])] };
            stages.splice(0..0, [grouped, large]);
        }
        2 => stages.push(large),
        3 => stages.extend([large, summed(random, false)]),
        _ => too_large_in_group(random, &mut input, &mut stages),
    }
    let mut case = Draft { stages, input, joined: vec![] }.case()?;
    if random.chance(25) {
        case.query = with_fault(random, case.query, QUERY_LIMIT);
        case.input = with_fault(random, case.input, ARRAY_LIMIT);
        case.joined = with_fault(random, case.joined, ARRAY_LIMIT);
    }
    case.result_length = random.pick(&[0, 10, ARRAY_LIMIT]);
    Some(case)
}

/// A class of the first group becomes too large by its members, which an
/// aggregate places.
fn too_large_in_group(random: &mut Random, input: &mut Vec<Tree>, stages: &mut [Stage]) {
    let Some(Stage::Group { aggregates, .. }) = stages.first_mut() else { return };
    aggregates.insert(random.below(aggregates.len() + 1), Pair::new(&[], &[5, 6, 7, 8]));
    let member = keyed(random.below(3)).with(4, draw::filled(random, vec![], HEAD + 1_990));
    input.insert(random.below(input.len() + 1), member);
}

/// Bytes of a case changed, wherever they stand or field by field.
fn damaged(random: &mut Random) -> Option<Case> {
    let case = sound(random)?;
    Some(if random.chance(50) { blindly(random, case) } else { by_field(random, case) })
}

/// A work area that is too short.
fn short_work(random: &mut Random) -> Option<Case> {
    Some(Case { work_length: short_length(random), ..sound(random)? })
}

/// A position area that is too short.
fn short_positions(random: &mut Random) -> Option<Case> {
    Some(Case { positions_length: few_entries(random), ..sound(random)? })
}

#[cfg(test)]
mod tests {
    use super::*;
    use crate::bytes::{decode_query, encode_query};
    use crate::generate::Cases;
    use crate::run::{decide, Verdict};

    #[test]
    fn parts_add_to_their_sum() {
        let mut random = Random::new(1);
        for sum in FITTING.into_iter().chain(PAST).cycle().take(1_000) {
            let parts = parts(&mut random, sum);
            assert_eq!(parts.iter().map(|part| i128::from(*part)).sum::<i128>(), sum);
            assert!(!parts.is_empty());
        }
    }

    #[test]
    fn a_partial_sum_often_leaves_64_bits_where_the_sum_fits() {
        let mut random = Random::new(2);
        let leaves = |parts: Vec<i64>| parts.into_iter().try_fold(0_i64, i64::checked_add).is_none();
        let left = (0..1_000).filter(|_| leaves(parts(&mut random, MAX))).count();
        assert!(left > 200, "{left} of 1,000");
    }

    #[test]
    fn most_numbers_appear_and_many_are_accepted() {
        let mut numbers = [0; 13];
        Cases::with_totals(1)
            .take(4_000)
            .for_each(|(_, verdict)| numbers[usize::from(verdict.number())] += 1);
        assert!(numbers[0] > 1_500 && numbers[12] > 500, "{numbers:?}");
        assert!([1, 3, 5, 8, 9, 10, 11].iter().all(|number| numbers[*number] >= 20), "{numbers:?}");
    }

    /// Whether the totals of a case were worth drawing: with other pairs in their place it is answered otherwise.
    #[test]
    fn totals_tell() {
        let (mut telling, mut cases) = (0, 0);
        for (case, verdict) in Cases::with_totals(2).take(2_000) {
            let Some(mut stages) = decode_query(&case.query) else { continue };
            for stage in &mut stages {
                if let Stage::Group { aggregates, .. } = stage {
                    aggregates.iter_mut().for_each(|pair| pair.total = false);
                }
            }
            let query = encode_query(&stages).unwrap();
            let others = decide(&query, &case.input, &case.joined, case.lengths(), usize::MAX);
            cases += usize::from(!matches!(verdict, Verdict::Refused(1..=7 | 11)));
            telling += usize::from(others != Some(verdict));
        }
        assert!(telling * 2 > cases, "{telling} of {cases}");
    }
}
