//! Random cases of the call that joins the results of two trays.
//!
//! As for runs there are kinds, each drawn for something that the call can
//! get wrong. Half of the arrays are results of trays; the others are any, for
//! the call asks for none.

use super::day::{group_of, such_group, tray};
use super::random::Random;
use super::{around_limit, blindly, by_field, draw, near, of_kinds, short_length, some_trees, with_fault};
use super::{with_random_bytes, Kind, Lent, LONGEST, LONGEST_WORK};
use crate::bytes::{encode_array, encode_query};
use crate::bytes::{AGGREGATES_LIMIT, GROUPING_LIMIT, QUERY_LIMIT};
use crate::regroup::decide_regroup;
use crate::run::{Verdict, WORK_LEAST};
use crate::stages::{staged, Criterion, Pair, Stage};
use crate::tree::{array_size, Tree, ARRAY_LIMIT, DEPTH_LIMIT, HEAD, TREE_LIMIT};

/// What the call is given; of the work and result areas their lengths.
#[derive(Clone, Debug, PartialEq, Eq)]
pub struct RegroupCase {
    pub query: Vec<u8>,
    pub first: Vec<u8>,
    pub second: Vec<u8>,
    pub work_length: usize,
    pub result_length: usize,
}

impl RegroupCase {
    fn verdict(&self) -> Verdict {
        decide_regroup(&self.query, &self.first, &self.second, self.work_length, self.result_length)
    }
}

impl Lent for RegroupCase {
    fn areas(&mut self) -> [&mut Vec<u8>; 3] {
        [&mut self.query, &mut self.first, &mut self.second]
    }
}

/// A case before it has a byte form.
struct Draft {
    stages: Vec<Stage>,
    first: Vec<Tree>,
    second: Vec<Tree>,
}

impl Draft {
    /// The case, in areas that are long enough, if there is a byte form.
    fn case(&self) -> Option<RegroupCase> {
        if array_size(&self.first) > LONGEST || array_size(&self.second) > LONGEST {
            return None;
        }
        let query = encode_query(&self.stages)?;
        let (first, second) = (encode_array(&self.first)?, encode_array(&self.second)?);
        let case = RegroupCase { query, first, second, work_length: WORK_LEAST, result_length: ARRAY_LIMIT };
        case.within_longest()
    }
}

/// Cases without end, with what the reference answers to them.
pub struct RegroupCases {
    random: Random,
    kinds: Vec<(usize, Kind<RegroupCase>)>,
}

impl RegroupCases {
    /// Cases of all kinds.
    pub fn new(seed: u64) -> RegroupCases {
        RegroupCases { random: Random::new(seed), kinds: [&KINDS[..], &TOTALS].concat() }
    }

    /// Cases without totals. A seed gives those that it gave before there were
    /// totals, so that the stored ones can be made again.
    pub fn without_totals(seed: u64) -> RegroupCases {
        RegroupCases { kinds: KINDS.to_vec(), ..RegroupCases::new(seed) }
    }

    /// Cases of groups with totals, which the call refuses.
    pub fn with_totals(seed: u64) -> RegroupCases {
        RegroupCases { kinds: TOTALS.to_vec(), ..RegroupCases::new(seed) }
    }
}

impl Iterator for RegroupCases {
    type Item = (RegroupCase, Verdict);

    fn next(&mut self) -> Option<(RegroupCase, Verdict)> {
        loop {
            let case = of_kinds(&mut self.random, &self.kinds).and_then(RegroupCase::within_longest);
            if let Some(case) = case {
                return Some(in_areas(&mut self.random, case));
            }
        }
    }
}

/// The kinds of cases without totals, and how often each is drawn, in thousand.
const KINDS: [(usize, Kind<RegroupCase>); 14] = [
    (300, |random| results(random)?.case()),
    (150, |random| any_arrays(random).case()),
    (60, |random| counts(random).case()),
    (110, |random| near_misses(random).case()),
    (80, |random| join_limits(random).case()),
    (80, |random| tree_growth(random).case()),
    (30, |random| array_limits(random).case()),
    (30, |random| tree_limits(random).case()),
    (20, |random| long_query(random)),
    (40, |random| blind_damage(random)),
    (50, |random| field_damage(random)),
    (15, |random| random_bytes(random)),
    (40, |random| several_faults(random)),
    (15, |random| short_work(random)),
];

/// Those of groups with totals, the others having a thousand together.
const TOTALS: [(usize, Kind<RegroupCase>); 3] = [
    (40, |random| totals(random).case()),
    (10, |random| totals_and_faults(random)),
    (5, |random| totals_in_short_work(random)),
];

/// Gives a case its areas. Some result areas are measured by the result: just
/// long enough, or one byte too short.
fn in_areas(random: &mut Random, mut case: RegroupCase) -> (RegroupCase, Verdict) {
    if case.work_length >= WORK_LEAST && random.chance(30) {
        case.work_length = random.between(WORK_LEAST, LONGEST_WORK);
    }
    if random.chance(10) {
        case.result_length = random.pick(&[0, 2, 3, 9, 100, ARRAY_LIMIT - 1, ARRAY_LIMIT + 1, LONGEST]);
    }
    let verdict = case.verdict();
    let length = verdict.bytes().len();
    if length == 0 || !random.chance(12) {
        return (case, verdict);
    }
    case.result_length = random.pick(&[length, length, length + 1, length - 1]);
    let verdict = case.verdict();
    (case, verdict)
}

// Kinds of cases that are mostly accepted

/// The results of two trays.
fn results(random: &mut Random) -> Option<Draft> {
    let group = such_group(random);
    let mut result = || staged(&group, &tray(random), &[]).ok();
    let (first, second) = (result()?, result()?);
    Some(Draft { stages: vec![group], first, second })
}

/// Arrays that are no results of trays: records, or any trees.
fn any_arrays(random: &mut Random) -> Draft {
    let array = |random: &mut Random| if random.chance(50) { tray(random) } else { some_trees(random) };
    let (first, second) = (array(random), array(random));
    Draft { stages: vec![such_group(random)], first, second }
}

/// As many pairs as are allowed, or one more, or none.
fn counts(random: &mut Random) -> Draft {
    let count = |random: &mut Random, limit| random.pick(&[0, limit, limit, limit + 1]);
    let (aggregates, grouping) = (count(random, AGGREGATES_LIMIT), count(random, GROUPING_LIMIT));
    Draft { stages: vec![group_of(random, aggregates, grouping)], ..any_arrays(random) }
}

// Kinds of cases at the limits

/// Queries that are nearly one such group alone.
fn near_misses(random: &mut Random) -> Draft {
    let mut draft = any_arrays(random);
    let group = group_of(random, 2, 2);
    draft.stages = match random.below(8) {
        0 => vec![],
        1 => vec![draw::stage(random, &draft.first)],
        2 => vec![group.clone(), group],
        3 => vec![Stage::Match(Criterion::True), group],
        4 => vec![group, Stage::Unwind(vec![])],
        _ => vec![with_other_destination(random, group)],
    };
    draft
}

/// A group of two pairs each, with a destination of two labels or of none, or
/// with one that another has.
fn with_other_destination(random: &mut Random, mut group: Stage) -> Stage {
    let Stage::Group { aggregates, grouping } = &mut group else {
        return group;
    };
    let mut pairs: Vec<&mut Pair> = aggregates.iter_mut().chain(grouping).collect();
    let (at, from) = (random.below(pairs.len()), random.below(pairs.len()));
    let other = pairs[from].destination.clone();
    match random.below(5) {
        0 => pairs[at].destination.push(2),
        1 if random.chance(30) => pairs[at].destination.clear(),
        _ => pairs[at].destination = other,
    }
    group
}

/// A group that would be such a one without its totals, over any arrays; seldom
/// the totals stand among the grouping pairs.
fn totals(random: &mut Random) -> Draft {
    let (aggregates, grouping) = (random.pick(&[1, 1, 2, 3, AGGREGATES_LIMIT]), random.between(1, 2));
    let mut group = group_of(random, aggregates, grouping);
    if let Stage::Group { aggregates, grouping } = &mut group {
        let pairs = if random.chance(10) { grouping } else { aggregates };
        let at = random.below(pairs.len());
        pairs[at].total = true;
        pairs.iter_mut().for_each(|pair| pair.total |= random.chance(40));
    }
    Draft { stages: vec![group], ..any_arrays(random) }
}

/// A query at its limit, which no such group reaches, or past it.
fn long_query(random: &mut Random) -> Option<RegroupCase> {
    let mut case = any_arrays(random).case()?;
    case.query.resize(random.pick(&[QUERY_LIMIT, QUERY_LIMIT + 1, QUERY_LIMIT + 1, 6_000]), 0);
    Some(case)
}

/// Arrays whose join is at its limit, or a few bytes off, by one head and by two.
fn join_limits(random: &mut Random) -> Draft {
    let size = ARRAY_LIMIT + random.between(0, 9) - 4;
    let part = random.pick(&[HEAD, HEAD, 100, size / 2, size / 3, size / 2 + 1, size - 100, size]);
    let some =
        |random: &mut Random, size| if size == HEAD { vec![] } else { draw::filled(random, vec![], size) };
    let (first, second) = (some(random, part), some(random, size + HEAD - part));
    // label 9 is absent; label 1 makes a tree too large, or classes
    let pair = |label: u8| vec![Pair::new(&[3], &[label])];
    let (aggregates, grouping) =
        random.pick(&[(vec![], vec![]), (pair(9), vec![]), (pair(1), pair(9)), (vec![], pair(1))]);
    Draft { stages: vec![Stage::Group { aggregates, grouping }], first, second }
}

/// A class whose tree comes to the limit or past it by what both arrays have.
fn tree_growth(random: &mut Random) -> Draft {
    let value = vec![Tree::text(&vec![b'k'; random.between(0, 9)])];
    let keyed = |array: Vec<Tree>| Tree::void().with(1, array).with(2, value.clone());
    let content = near(random, TREE_LIMIT) - keyed(vec![]).size();
    let part = random.between(6, content - 6);
    let half = |random: &mut Random, size: usize| {
        let mut trees = tray(random);
        let grown = keyed(draw::filled(random, vec![], HEAD + size));
        trees.insert(random.below(trees.len() + 1), grown);
        trees
    };
    let (first, second) = (half(random, part), half(random, content - part));
    let pair = |label: u8| Pair::new(&[], &[label]);
    let stages = vec![Stage::Group { aggregates: vec![pair(1)], grouping: vec![pair(2)] }];
    Draft { stages, first, second }
}

/// One array at its limit, one past it or far past it.
fn array_limits(random: &mut Random) -> Draft {
    let mut draft = any_arrays(random);
    let size = random.pick(&[ARRAY_LIMIT - 1, ARRAY_LIMIT, ARRAY_LIMIT + 1, ARRAY_LIMIT + 1, LONGEST]);
    let long = draw::filled(random, vec![], size);
    let other = if random.chance(50) { vec![] } else { draft.first };
    (draft.first, draft.second) = if random.chance(50) { (long, other) } else { (other, long) };
    draft
}

/// A tree at a limit or past it: its size or its depth.
fn tree_limits(random: &mut Random) -> Draft {
    let mut draft = any_arrays(random);
    let tree = if random.chance(60) {
        let size = around_limit(random, TREE_LIMIT);
        draw::sized(random, size)
    } else {
        let depth = around_limit(random, DEPTH_LIMIT);
        draw::deep(random, depth)
    };
    if random.chance(50) { &mut draft.first } else { &mut draft.second }.push(tree);
    draft
}

// Kinds of cases that are mostly refused

/// An accepted kind of case, as bytes.
fn sound(random: &mut Random) -> Option<RegroupCase> {
    if random.chance(50) { results(random)? } else { any_arrays(random) }.case()
}

fn blind_damage(random: &mut Random) -> Option<RegroupCase> {
    let case = sound(random)?;
    Some(blindly(random, case))
}

fn field_damage(random: &mut Random) -> Option<RegroupCase> {
    let case = sound(random)?;
    Some(by_field(random, case))
}

fn random_bytes(random: &mut Random) -> Option<RegroupCase> {
    let case = sound(random)?;
    with_random_bytes(random, case)
}

/// Faults in several places at once, for the order of the tests.
fn several_faults(random: &mut Random) -> Option<RegroupCase> {
    let draft = match random.below(3) {
        0 => near_misses(random),
        1 => join_limits(random),
        _ => tree_growth(random),
    };
    let mut case = draft.case()?;
    case.query = with_fault(random, case.query, QUERY_LIMIT);
    case.first = with_fault(random, case.first, ARRAY_LIMIT);
    case.second = with_fault(random, case.second, ARRAY_LIMIT);
    if random.chance(15) {
        case.work_length = short_length(random);
    }
    case.result_length = random.pick(&[0, 10, ARRAY_LIMIT]);
    Some(case)
}

/// Totals, and faults that are tested before them or behind.
fn totals_and_faults(random: &mut Random) -> Option<RegroupCase> {
    let mut case = totals(random).case()?;
    case.query = with_fault(random, case.query, QUERY_LIMIT);
    case.first = with_fault(random, case.first, ARRAY_LIMIT);
    case.second = with_fault(random, case.second, ARRAY_LIMIT);
    Some(case)
}

fn totals_in_short_work(random: &mut Random) -> Option<RegroupCase> {
    let case = totals(random).case()?;
    Some(RegroupCase { work_length: short_length(random), ..case })
}

/// A work area that is too short.
fn short_work(random: &mut Random) -> Option<RegroupCase> {
    let mut case = if random.chance(50) { sound(random)? } else { field_damage(random)? };
    case.work_length = short_length(random);
    Some(case)
}

#[cfg(test)]
mod tests {
    use super::*;

    #[test]
    fn a_seed_gives_the_same_cases() {
        let cases = |seed| RegroupCases::new(seed).take(50).collect::<Vec<_>>();
        assert_eq!(cases(7), cases(7));
        assert_ne!(cases(7), cases(8));
    }

    #[test]
    fn totals_are_never_accepted() {
        let mut numbers = [0; 13];
        let cases = RegroupCases::with_totals(1).take(1_000);
        cases.for_each(|(_, verdict)| numbers[usize::from(verdict.number())] += 1);
        assert!(numbers[3] > 700 && numbers[1] > 20 && numbers[2] > 10, "{numbers:?}");
        // a damaged query may have lost its totals
        assert!(numbers[0] < 10 && numbers[12] == 0, "{numbers:?}");
    }

    #[test]
    fn most_are_accepted_and_every_number_but_6_and_7_appears() {
        let mut numbers = [0; 11];
        RegroupCases::new(1).take(4_000).for_each(|(_, verdict)| numbers[usize::from(verdict.number())] += 1);
        assert!(numbers[0] > 2_000, "{numbers:?}");
        let (with, without): (Vec<_>, Vec<_>) = (0..11).partition(|number| ![6, 7].contains(number));
        assert!(with.iter().all(|number| numbers[*number] >= 40), "{numbers:?}");
        assert!(without.iter().all(|number| numbers[*number] == 0), "{numbers:?}");
    }
}
