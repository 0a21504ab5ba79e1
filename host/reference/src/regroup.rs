//! Trays: a day's records in several arrays, and the list that their results make.
//!
//! The results of a query without a group join to the day's list as they are.
//! Those of a query that ends in its only group are joined and grouped again,
//! each destination now also being the source; that is one call over two
//! arrays, [`plain_regroup`]. As in the rest of this crate, nothing is clever:
//! the regrouping is a stage, made of the group, and the call is the plain run
//! of that stage over the two lists, one behind the other.

use crate::run::{after_stages, array_within, query_within, refuse, written};
use crate::run::{Outcome, Stop, Verdict, WORK_LEAST};
use crate::stages::{Pair, Stage};
use crate::tree::Tree;

/// What stages regroup by, if they are one group alone, without a total, whose
/// destinations are single labels, distinct over both lists of pairs: that
/// group, with each destination for its source.
pub fn regrouping(stages: &[Stage]) -> Option<Stage> {
    let [Stage::Group { aggregates, grouping }] = stages else {
        return None;
    };
    let totals = aggregates.iter().any(|pair| pair.total);
    let destinations: Vec<&[u8]> =
        aggregates.iter().chain(grouping).map(|pair| &pair.destination[..]).collect();
    let single = destinations.iter().all(|path| path.len() == 1);
    let distinct = (1..destinations.len()).all(|at| !destinations[..at].contains(&destinations[at]));
    let again = |pair: &Pair| Pair { source: pair.destination.clone(), ..pair.clone() };
    (!totals && single && distinct).then(|| Stage::Group {
        aggregates: aggregates.iter().map(again).collect(),
        grouping: grouping.iter().map(again).collect(),
    })
}

/// The call that takes such a group and two arrays.
pub fn plain_regroup(
    query: &[u8],
    first: &[u8],
    second: &[u8],
    work_length: usize,
    result_area: &[u8],
) -> Outcome {
    decide_regroup(query, first, second, work_length, result_area.len()).over(result_area, &[])
}

/// What that call answers. A group makes no more trees than it is given, so
/// no case needs to be left out. It takes no position area.
pub fn decide_regroup(
    query: &[u8],
    first: &[u8],
    second: &[u8],
    work_length: usize,
    result_length: usize,
) -> Verdict {
    let answer = admitted(query, first, second, work_length)
        .and_then(|(group, joined)| after_stages(&[group], joined, &[], usize::MAX))
        .and_then(|list| written(&list, result_length));
    match answer {
        Ok(bytes) => Verdict::Accepted { bytes, positions: vec![] },
        Err(Stop::Refused(number)) => Verdict::Refused(number),
        Err(Stop::TooLong) => unreachable!("a list has no limit of its own"),
    }
}

/// The tests before the run: the regrouping and the join, or the first
/// refusal. That the join may be over its limit is the group's own test.
fn admitted(
    query: &[u8],
    first: &[u8],
    second: &[u8],
    work_length: usize,
) -> Result<(Stage, Vec<Tree>), Stop> {
    refuse(1, work_length < WORK_LEAST)?;
    let stages = query_within(query)?;
    let group = regrouping(&stages).ok_or(Stop::Refused(3))?;
    let mut trees = array_within(first, 4, 5)?;
    trees.extend(array_within(second, 4, 5)?);
    Ok((group, trees))
}

#[cfg(test)]
mod tests {
    use super::*;
    use crate::bytes::{encode_array, encode_query};
    use crate::generate::{filled, Random};
    use crate::run::Work;
    use crate::stages::Criterion;
    use crate::tree::{ARRAY_LIMIT, HEAD, TREE_LIMIT};

    fn v() -> Tree {
        Tree::void()
    }

    fn n(value: i64) -> Tree {
        Tree::integer(value)
    }

    fn group(aggregates: &[Pair], grouping: &[Pair]) -> Stage {
        Stage::Group { aggregates: aggregates.to_vec(), grouping: grouping.to_vec() }
    }

    fn query(stages: &[Stage]) -> Vec<u8> {
        encode_query(stages).unwrap()
    }

    fn array(trees: &[Tree]) -> Vec<u8> {
        encode_array(trees).unwrap()
    }

    /// What the call answers, in areas that are long enough.
    fn regroup(group: &Stage, first: &[Tree], second: &[Tree]) -> Verdict {
        let query = query(std::slice::from_ref(group));
        decide_regroup(&query, &array(first), &array(second), WORK_LEAST, ARRAY_LIMIT)
    }

    fn accepted(trees: &[Tree]) -> Verdict {
        Verdict::Accepted { bytes: array(trees), positions: vec![] }
    }

    #[test]
    fn each_destination_is_now_also_the_source() {
        let one = group(&[Pair::new(&[3, 4], &[1])], &[Pair::new(&[], &[2])]);
        let again = group(&[Pair::new(&[1], &[1])], &[Pair::new(&[2], &[2])]);
        assert_eq!(regrouping(&[one]), Some(again.clone()));
        assert_eq!(regrouping(std::slice::from_ref(&again)), Some(again));
        assert_eq!(regrouping(&[group(&[], &[])]), Some(group(&[], &[])));
    }

    #[test]
    fn what_is_not_one_such_group_alone() {
        let such = group(&[Pair::new(&[1], &[1])], &[Pair::new(&[2], &[2])]);
        let (one, other) = (Pair::new(&[1], &[3]), Pair::new(&[2], &[3]));
        for stages in [
            vec![],
            vec![Stage::Unwind(vec![])],
            vec![such.clone(), such.clone()],
            vec![Stage::Match(Criterion::True), such.clone()],
            vec![such, Stage::Match(Criterion::True)],
            vec![group(&[Pair::new(&[1], &[1, 2])], &[])],
            vec![group(&[], &[Pair::new(&[1], &[1, 2])])],
            vec![group(&[one.clone(), other.clone()], &[])],
            vec![group(&[], &[one.clone(), other.clone()])],
            vec![group(std::slice::from_ref(&one), &[other])],
            vec![group(&[Pair::total(&[1], &[1])], &[])],
            vec![group(&[one, Pair::total(&[1], &[1])], &[Pair::new(&[2], &[2])])],
        ] {
            assert_eq!(regrouping(&stages), None, "{stages:?}");
            let empty = array(&[]);
            let answer = decide_regroup(&query(&stages), &empty, &empty, WORK_LEAST, ARRAY_LIMIT);
            assert_eq!(answer, Verdict::Refused(3));
        }
    }

    #[test]
    fn the_classes_of_two_trays_come_together() {
        let by_1 = group(&[Pair::new(&[2], &[2])], &[Pair::new(&[1], &[1])]);
        let tree =
            |key, values: &[i64]| v().with(1, vec![n(key)]).with(2, values.iter().map(|x| n(*x)).collect());
        let (first, second) = ([tree(7, &[1]), tree(8, &[2])], [tree(9, &[3]), tree(7, &[4, 5])]);
        let whole = [tree(7, &[1, 4, 5]), tree(8, &[2]), tree(9, &[3])];
        assert_eq!(regroup(&by_1, &first, &second), accepted(&whole));
    }

    #[test]
    fn an_aggregate_absent_in_one_tray_and_empty_in_another_is_present() {
        let all = group(&[Pair::new(&[1], &[1])], &[]);
        let (absent, empty) = ([v()], [v().with(1, vec![])]);
        assert_eq!(regroup(&all, &absent, &empty), accepted(&empty));
        assert_eq!(regroup(&all, &empty, &absent), accepted(&empty));
        assert_eq!(regroup(&all, &absent, &absent), accepted(&absent));
    }

    #[test]
    fn a_group_of_no_pairs_is_such_a_group() {
        assert_eq!(regroup(&group(&[], &[]), &[n(1)], &[n(2)]), accepted(&[v()]));
        assert_eq!(regroup(&group(&[], &[]), &[], &[]), accepted(&[]));
    }

    /// Trees whose array measures so many bytes.
    fn texts(size: usize) -> Vec<Tree> {
        filled(&mut Random::new(1), vec![], size)
    }

    #[test]
    fn the_join_counts_one_head() {
        let none = group(&[], &[Pair::new(&[9], &[9])]);
        let half = texts(8_000);
        let answer = |size| regroup(&none, &half, &texts(size));
        assert_eq!(answer(ARRAY_LIMIT - 8_000 + 3), accepted(&[v()]));
        assert_eq!(answer(ARRAY_LIMIT - 8_000 + 4), Verdict::Refused(9));
    }

    #[test]
    fn refusals_in_their_order() {
        let large = v().with(1, texts(1_500));
        let (over, half) = (array(std::slice::from_ref(&large)), array(&vec![large; 6]));
        let such = query(&[group(&[Pair::new(&[1], &[1])], &[])]);
        let two = query(&[group(&[Pair::new(&[1], &[1, 1])], &[])]);
        let total = query(&[group(&[Pair::total(&[1], &[1])], &[])]);
        let (bad, long) = (vec![1], vec![0; ARRAY_LIMIT + 1]);
        let run = |query: &[u8], first: &[u8], second: &[u8], work, kept: bool| {
            let outcome = plain_regroup(query, first, second, work, &[3; 4]);
            assert_eq!((outcome.length, outcome.result), (0, vec![if kept { 3 } else { 0 }; 4]));
            assert_eq!(outcome.work, if work < WORK_LEAST { Work::Kept } else { Work::Zero });
            outcome.number
        };
        assert_eq!(run(&[0; 4_097], &long, &long, WORK_LEAST - 1, true), 1);
        assert_eq!(run(&[0; 4_097], &long, &long, WORK_LEAST, true), 2);
        assert_eq!(run(&bad, &long, &long, WORK_LEAST, true), 3);
        assert_eq!(run(&two, &long, &long, WORK_LEAST, true), 3);
        assert_eq!(run(&total, &long, &bad, WORK_LEAST, true), 3);
        assert_eq!(run(&such, &long, &bad, WORK_LEAST, true), 4);
        assert_eq!(run(&such, &bad, &long, WORK_LEAST, true), 5);
        assert_eq!(run(&such, &half, &long, WORK_LEAST, true), 4);
        assert_eq!(run(&such, &half, &bad, WORK_LEAST, true), 5);
        assert_eq!(run(&such, &half, &half, WORK_LEAST, false), 9);
        assert_eq!(run(&such, &over, &over, WORK_LEAST, false), 8);
        assert_eq!(run(&such, &over, &array(&[]), WORK_LEAST, false), 10);
    }

    /// Two totals, each placed, that do not fit together.
    #[test]
    fn a_total_that_would_not_fit_is_never_added() {
        let totals = group(&[Pair::total(&[1], &[1])], &[]);
        let half = [v().with(1, vec![n(i64::MAX)])];
        assert_eq!(regroup(&totals, &half, &half), Verdict::Refused(3));
    }

    #[test]
    fn a_class_may_come_to_the_tree_limit() {
        let all = group(&[Pair::new(&[1], &[1])], &[]);
        let tree = |size| vec![v().with(1, texts(size))];
        let answer = |size| regroup(&all, &tree(1_000), &tree(size)).number();
        let left = TREE_LIMIT - tree(1_000)[0].size() + HEAD;
        assert_eq!((answer(left), answer(left + 1)), (0, 8));
    }
}
