//! Days in trays: the list that the trays' results make is what the stages
//! give of all the trays together.

use reference::bytes::{decode_array, encode_array, encode_query};
use reference::generate::{day, Day, Random};
use reference::regroup::{decide_regroup, regrouping};
use reference::run::{decide, Lengths, Verdict, POSITIONS_LEAST, WORK_LEAST};
use reference::stages::{staged, Stage};
use reference::tree::{Tree, ARRAY_LIMIT};

const DAYS: usize = 4_000;
const MOST_TREES: usize = 5_000;

/// What the stages give of all the trays together, without a limit on lists.
fn whole(day: &Day) -> Option<Vec<Tree>> {
    let over = |trees: Vec<Tree>, stage: &Stage| staged(stage, &trees, &day.joined).ok();
    day.stages.iter().try_fold(day.trays.concat(), over)
}

/// The results of the trays, if all runs are accepted.
fn results(day: &Day) -> Option<Vec<Vec<u8>>> {
    let (query, joined) = (encode_query(&day.stages)?, encode_array(&day.joined)?);
    let lengths = Lengths { work: WORK_LEAST, result: ARRAY_LIMIT, positions: POSITIONS_LEAST };
    let run = |tray: &Vec<Tree>| {
        let verdict = decide(&query, &encode_array(tray)?, &joined, lengths, MOST_TREES)?;
        accepted(verdict)
    };
    day.trays.iter().map(run).collect()
}

fn accepted(verdict: Verdict) -> Option<Vec<u8>> {
    match verdict {
        Verdict::Accepted { bytes, .. } => Some(bytes),
        Verdict::Refused(_) => None,
    }
}

/// Results regrouped, some first and then the others, and both together.
fn regrouped(random: &mut Random, group: &[u8], results: &[Vec<u8>]) -> Option<Vec<u8>> {
    let both =
        |one: &[u8], other: &[u8]| accepted(decide_regroup(group, one, other, WORK_LEAST, ARRAY_LIMIT));
    match results {
        [] => encode_array(&[]),
        [one] => Some(one.clone()),
        _ => {
            let (front, back) = results.split_at(random.between(1, results.len() - 1));
            both(&regrouped(random, group, front)?, &regrouped(random, group, back)?)
        }
    }
}

/// The list that the results make, with another bracketing each time.
fn list(random: &mut Random, day: &Day, results: &[Vec<u8>]) -> Option<Vec<Tree>> {
    let last = &day.stages[day.stages.len().saturating_sub(1)..];
    if regrouping(last).is_some() {
        return decode_array(&regrouped(random, &encode_query(last)?, results)?);
    }
    Some(results.iter().filter_map(|bytes| decode_array(bytes)).flatten().collect())
}

#[test]
fn the_list_is_what_the_stages_give_of_the_whole_day() {
    let mut random = Random::new(1);
    let (mut appended, mut grouped) = (0, 0);
    for _ in 0..DAYS {
        let day = day(&mut random);
        let Some(results) = results(&day) else { continue };
        let Some(list) = list(&mut random, &day, &results) else { continue };
        assert_eq!(Some(&list), whole(&day).as_ref(), "{:?} over {:?}", day.stages, day.trays);
        let telling = usize::from(day.trays.len() > 1 && !list.is_empty());
        match day.stages.last() {
            Some(Stage::Group { .. }) => grouped += telling,
            _ => appended += telling,
        }
    }
    assert!(appended > DAYS / 10 && grouped > DAYS / 4, "{appended} appended, {grouped} grouped");
}
