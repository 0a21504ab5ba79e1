//! Random days: records in trays, and a query whose results join.

use super::draw;
use super::random::Random;
use super::{record, related, source};
use crate::bytes::{AGGREGATES_LIMIT, GROUPING_LIMIT};
use crate::stages::{Pair, Stage};
use crate::tree::Tree;

/// A day. Its query has no group, or ends in its only one, whose destinations
/// are single and distinct labels.
pub struct Day {
    pub stages: Vec<Stage>,
    pub joined: Vec<Tree>,
    pub trays: Vec<Vec<Tree>>,
}

pub fn day(random: &mut Random) -> Day {
    let trays: Vec<Vec<Tree>> = (0..random.between(0, 6)).map(|_| tray(random)).collect();
    let all = trays.concat();
    let mut stages = Vec::new();
    for _ in 0..random.pick(&[0, 0, 1, 1, 2]) {
        let drawn = draw::stage(random, &all);
        stages.extend(Some(drawn).filter(|stage| !matches!(stage, Stage::Group { .. })));
    }
    if random.chance(70) {
        stages.push(such_group(random));
    }
    Day { stages, joined: related(random, &all), trays }
}

/// Records of few labels and values, so that trays share classes.
pub fn tray(random: &mut Random) -> Vec<Tree> {
    (0..random.pick(&[0, 1, 2, 3, 5, 8, 12])).map(|_| record(random, 4)).collect()
}

/// A group whose destinations are single and distinct labels.
pub fn such_group(random: &mut Random) -> Stage {
    let aggregates = random.pick(&[0, 0, 1, 1, 1, 2, 3, AGGREGATES_LIMIT]);
    let grouping = random.pick(&[0, 1, 1, 1, 2, 2, 3, GROUPING_LIMIT]);
    group_of(random, aggregates, grouping)
}

/// A group of so many pairs whose destinations are single and distinct labels.
pub fn group_of(random: &mut Random, aggregates: usize, grouping: usize) -> Stage {
    let mut free: Vec<u8> = (1..=14).chain([255]).collect();
    let mut pairs = |number: usize| -> Vec<Pair> { (0..number).map(|_| pair(random, &mut free)).collect() };
    Stage::Group { aggregates: pairs(aggregates), grouping: pairs(grouping) }
}

/// A pair to a label that is free, mostly one that records have too.
fn pair(random: &mut Random, free: &mut Vec<u8>) -> Pair {
    let most = if random.chance(70) { free.len().min(4) } else { free.len() };
    let destination = vec![free.remove(random.below(most))];
    let label = random.between(1, 5) as u8;
    let from = source(random, label);
    Pair::new(&random.pick(&[destination.clone(), from.clone(), from, vec![]]), &destination)
}
