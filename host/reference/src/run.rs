//! The plain run: the tests of the table in their order, then the stages over
//! one whole list.

use crate::bytes::{decode_array, decode_query, encode_array, QUERY_LIMIT};
use crate::positions::{carried, numbered, Borne};
use crate::stages::{Stage, TooLarge};
use crate::tree::{array_size, Tree, ARRAY_LIMIT};

/// The least work area, in bytes.
pub const WORK_LEAST: usize = 65_536;

/// The least position area, in entries.
pub const POSITIONS_LEAST: usize = 2_730;

/// The lengths of the areas that a run writes: in bytes, the position area's in entries.
#[derive(Clone, Copy, Debug, PartialEq, Eq)]
pub struct Lengths {
    pub work: usize,
    pub result: usize,
    pub positions: usize,
}

/// What the work area holds after a run.
#[derive(Clone, Copy, Debug, PartialEq, Eq)]
pub enum Work {
    Zero,
    Kept,
}

/// All that a run leaves behind.
#[derive(Clone, Debug, PartialEq, Eq)]
pub struct Outcome {
    pub number: u8,
    pub length: usize,
    /// The whole result area afterwards.
    pub result: Vec<u8>,
    /// The whole position area afterwards.
    pub positions: Vec<u16>,
    pub work: Work,
}

/// What a run answers, before it is laid into areas: this much follows from
/// the lengths of the areas alone, and not from what they hold.
#[derive(Clone, Debug, PartialEq, Eq)]
pub enum Verdict {
    /// The bytes of the result, and a position for each of its trees; of a
    /// call that takes no position area, none.
    Accepted {
        bytes: Vec<u8>,
        positions: Vec<u16>,
    },
    Refused(u8),
}

impl Verdict {
    /// The number of the table.
    pub fn number(&self) -> u8 {
        match self {
            Verdict::Accepted { .. } => 0,
            Verdict::Refused(number) => *number,
        }
    }

    /// The bytes of the result; none after a refusal.
    pub fn bytes(&self) -> &[u8] {
        match self {
            Verdict::Accepted { bytes, .. } => bytes,
            Verdict::Refused(_) => &[],
        }
    }

    /// The positions of the result's trees; none after a refusal.
    pub fn positions(&self) -> &[u16] {
        match self {
            Verdict::Accepted { positions, .. } => positions,
            Verdict::Refused(_) => &[],
        }
    }

    /// The outcome over a result area and a position area: 1 to 7, 11 and 13
    /// leave both, 8 to 10 and 12 clear both, and acceptance writes at their
    /// start. 1 and 11 leave the work area too.
    pub fn over(&self, result_area: &[u8], position_area: &[u16]) -> Outcome {
        let (mut result, mut positions) = (result_area.to_vec(), position_area.to_vec());
        if let Verdict::Refused(8..=10 | 12) = self {
            result.fill(0);
            positions.fill(0);
        }
        result[..self.bytes().len()].copy_from_slice(self.bytes());
        positions[..self.positions().len()].copy_from_slice(self.positions());
        let work = if let Verdict::Refused(1 | 11) = self { Work::Kept } else { Work::Zero };
        Outcome { number: self.number(), length: self.bytes().len(), result, positions, work }
    }
}

/// Why a run ended without a result.
#[derive(Clone, Copy, Debug, PartialEq, Eq)]
pub(crate) enum Stop {
    Refused(u8),
    /// The list grew past what the caller will wait for; see [`decide`].
    TooLong,
}

/// The plain run.
pub fn plain_run(
    query: &[u8],
    input: &[u8],
    joined: &[u8],
    work_length: usize,
    result_area: &[u8],
    position_area: &[u16],
) -> Outcome {
    let lengths = Lengths { work: work_length, result: result_area.len(), positions: position_area.len() };
    let verdict = decide(query, input, joined, lengths, usize::MAX);
    verdict.expect("a list has no limit of its own").over(result_area, position_area)
}

/// What the plain run answers, or nothing if a list would pass a number of
/// trees between two stages.
///
/// The document gives such lists no limit, and a few unwinds of one tree can
/// make millions of trees. Whoever draws random cases gives a limit and leaves
/// out the case.
pub fn decide(
    query: &[u8],
    input: &[u8],
    joined: &[u8],
    lengths: Lengths,
    most_trees: usize,
) -> Option<Verdict> {
    let answer = admitted(query, input, joined, lengths)
        .and_then(|run| after_stages(&run.stages, run.input, &run.joined, most_trees))
        .and_then(|list| Ok((written(&list, lengths.result)?, positions_of(&list))));
    match answer {
        Ok((bytes, positions)) => Some(Verdict::Accepted { bytes, positions }),
        Err(Stop::Refused(number)) => Some(Verdict::Refused(number)),
        Err(Stop::TooLong) => None,
    }
}

/// What the bytes of an admitted run say.
struct Admitted {
    stages: Vec<Stage>,
    input: Vec<Tree>,
    joined: Vec<Tree>,
}

/// Tests 1, 11 and 2 to 7: what the bytes say, or the first refusal.
fn admitted(query: &[u8], input: &[u8], joined: &[u8], lengths: Lengths) -> Result<Admitted, Stop> {
    refuse(1, lengths.work < WORK_LEAST)?;
    refuse(11, lengths.positions < POSITIONS_LEAST)?;
    let stages = query_within(query)?;
    let input = array_within(input, 4, 5)?;
    let joined = array_within(joined, 6, 7)?;
    Ok(Admitted { stages, input, joined })
}

/// Tests 2 and 3: what a query says.
pub(crate) fn query_within(bytes: &[u8]) -> Result<Vec<Stage>, Stop> {
    refuse(2, bytes.len() > QUERY_LIMIT)?;
    decode_query(bytes).ok_or(Stop::Refused(3))
}

/// What an array holds, or the number for one that is long or for one that is malformed.
pub(crate) fn array_within(bytes: &[u8], long: u8, malformed: u8) -> Result<Vec<Tree>, Stop> {
    refuse(long, bytes.len() > ARRAY_LIMIT)?;
    decode_array(bytes).ok_or(Stop::Refused(malformed))
}

pub(crate) fn refuse(number: u8, fault: bool) -> Result<(), Stop> {
    if fault {
        Err(Stop::Refused(number))
    } else {
        Ok(())
    }
}

/// The stages in their order, each over the whole list.
pub(crate) fn after_stages(
    stages: &[Stage],
    input: Vec<Tree>,
    joined: &[Tree],
    most_trees: usize,
) -> Result<Vec<Borne>, Stop> {
    let mut list = numbered(input);
    for stage in stages {
        let groups = matches!(stage, Stage::Group { .. });
        refuse(9, groups && array_size(trees_of(&list)) > ARRAY_LIMIT)?;
        list = carried(stage, &list, joined).map_err(refusal_of)?;
        if list.len() > most_trees {
            return Err(Stop::TooLong);
        }
    }
    Ok(list)
}

fn refusal_of(what: TooLarge) -> Stop {
    match what {
        TooLarge::Tree => Stop::Refused(8),
        TooLarge::Total => Stop::Refused(12),
    }
}

fn trees_of(list: &[Borne]) -> impl Iterator<Item = &Tree> {
    list.iter().map(|borne| &borne.tree)
}

/// The end of a run: the bytes, if they are within the limit and the area.
pub(crate) fn written(list: &[Borne], result_length: usize) -> Result<Vec<u8>, Stop> {
    let size = array_size(trees_of(list));
    refuse(10, size > ARRAY_LIMIT || size > result_length)?;
    let trees: Vec<Tree> = trees_of(list).cloned().collect();
    let bytes = encode_array(&trees).expect("an array within the limit has a byte form");
    assert_eq!(bytes.len(), size, "a size is the length of the byte form");
    Ok(bytes)
}

/// The positions as the numbers of 16 bits that they are written as.
fn positions_of(list: &[Borne]) -> Vec<u16> {
    let position = |borne: &Borne| u16::try_from(borne.position);
    list.iter().map(position).collect::<Result<_, _>>().expect("an input has at most 2,730 trees")
}

/// What a call that only checks an array answers: 0, 4 or 5.
pub fn check_array(bytes: &[u8]) -> u8 {
    if bytes.len() > ARRAY_LIMIT {
        return 4;
    }
    if decode_array(bytes).is_some() {
        0
    } else {
        5
    }
}

/// What a call that only checks a query answers: 0, 2 or 3.
pub fn check_query(bytes: &[u8]) -> u8 {
    if bytes.len() > QUERY_LIMIT {
        return 2;
    }
    if decode_query(bytes).is_some() {
        0
    } else {
        3
    }
}

#[cfg(test)]
mod tests {
    use super::*;
    use crate::bytes::encode_query;
    use crate::stages::{Criterion, Data, Item, Pair};

    const NO_STAGE: [u8; 3] = [16, 0, 0];
    const EMPTY: [u8; 3] = [1, 0, 0];

    fn array(trees: &[Tree]) -> Vec<u8> {
        encode_array(trees).unwrap()
    }

    fn query(stages: &[Stage]) -> Vec<u8> {
        encode_query(stages).unwrap()
    }

    fn voids_and_text(voids: usize, text: usize) -> Vec<Tree> {
        let mut trees = vec![Tree::void(); voids];
        trees.push(Tree::text(&vec![7; text]));
        trees
    }

    /// A position area of the least length.
    const ENTRIES: [u16; POSITIONS_LEAST] = [43_690; POSITIONS_LEAST];

    fn number(query: &[u8], input: &[u8], joined: &[u8]) -> u8 {
        plain_run(query, input, joined, WORK_LEAST, &[187; ARRAY_LIMIT], &ENTRIES).number
    }

    fn empty_group() -> Stage {
        Stage::Group { aggregates: vec![], grouping: vec![] }
    }

    #[test]
    fn the_programs_example() {
        let outcome = plain_run(&NO_STAGE, &EMPTY, &EMPTY, WORK_LEAST, &[9; 5], &ENTRIES);
        let (result, positions) = (vec![1, 0, 0, 9, 9], ENTRIES.to_vec());
        assert_eq!(outcome, Outcome { number: 0, length: 3, result, positions, work: Work::Zero });
    }

    #[test]
    fn refusals_in_their_order() {
        let (long_query, bad, long) = (vec![0; 4_097], vec![1], vec![0; 16_385]);
        let run = |query: &[u8], input: &[u8], joined: &[u8], work, entries: usize| {
            let entries = vec![5; entries];
            let outcome = plain_run(query, input, joined, work, &[3; 4], &entries);
            assert_eq!((outcome.length, outcome.result), (0, vec![3; 4]));
            assert_eq!(outcome.positions, entries);
            outcome.number
        };
        assert_eq!(run(&long_query, &long, &long, 65_535, 2_729), 1);
        assert_eq!(run(&long_query, &long, &long, 65_536, 2_729), 11);
        assert_eq!(run(&long_query, &long, &long, 65_536, 2_730), 2);
        assert_eq!(run(&bad, &long, &long, 65_536, 2_730), 3);
        assert_eq!(run(&NO_STAGE, &long, &long, 65_536, 2_730), 4);
        assert_eq!(run(&NO_STAGE, &bad, &long, 65_536, 2_730), 5);
        assert_eq!(run(&NO_STAGE, &EMPTY, &long, 65_536, 2_730), 6);
        assert_eq!(run(&NO_STAGE, &EMPTY, &bad, 65_536, 2_730), 7);
    }

    #[test]
    fn only_refusals_1_and_11_keep_the_work_area() {
        assert_eq!(plain_run(&[], &[], &[], 0, &[], &ENTRIES).work, Work::Kept);
        assert_eq!(plain_run(&[], &[], &[], WORK_LEAST, &[], &[]).work, Work::Kept);
        assert_eq!(plain_run(&[], &[], &[], WORK_LEAST, &[], &ENTRIES).work, Work::Zero);
    }

    #[test]
    fn each_result_tree_has_an_entry_and_later_ones_are_kept() {
        let input = array(&[Tree::integer(4), Tree::void().with(1, vec![Tree::void(); 2])]);
        let unwind = query(&[Stage::Unwind(vec![1])]);
        let outcome = plain_run(&unwind, &input, &EMPTY, WORK_LEAST, &[187; ARRAY_LIMIT], &ENTRIES);
        assert_eq!(outcome.positions[..2], [2, 2]);
        assert_eq!(outcome.positions[2..], ENTRIES[2..]);
    }

    #[test]
    fn as_many_trees_as_an_array_holds_have_their_entries() {
        let input = array(&vec![Tree::void(); POSITIONS_LEAST]);
        let outcome = plain_run(&NO_STAGE, &input, &EMPTY, WORK_LEAST, &[187; ARRAY_LIMIT], &ENTRIES);
        assert_eq!(outcome.positions, (1..=2_730).collect::<Vec<u16>>());
        assert_eq!(number(&NO_STAGE, &array(&vec![Tree::void(); POSITIONS_LEAST + 1]), &EMPTY), 4);
    }

    #[test]
    fn the_tree_limit() {
        let tree = |text| array(&[Tree::void().with(1, voids_and_text(338, text))]);
        assert_eq!(number(&NO_STAGE, &tree(1), &EMPTY), 0);
        assert_eq!(number(&NO_STAGE, &tree(2), &EMPTY), 5);
        assert_eq!(number(&NO_STAGE, &EMPTY, &tree(2)), 7);
    }

    #[test]
    fn the_array_limit() {
        let at = array(&voids_and_text(2_729, 1));
        assert_eq!(at.len(), 16_384);
        assert_eq!(number(&NO_STAGE, &at, &at), 0);
        let past = array(&voids_and_text(2_729, 2));
        assert_eq!(number(&NO_STAGE, &past, &EMPTY), 4);
        assert_eq!(number(&NO_STAGE, &EMPTY, &past), 6);
    }

    #[test]
    fn arrays_between_stages_have_no_limit_but_before_a_group() {
        let input = array(&[Tree::void().with(1, vec![Tree::void(); 100]).with(2, vec![Tree::void(); 100])]);
        let (one, two) = (Stage::Unwind(vec![1]), Stage::Unwind(vec![2]));
        let none = Stage::Match(Criterion::Not(Box::new(Criterion::True)));
        let outcome = |last: &[Stage]| {
            let stages = [&[one.clone(), two.clone()], last].concat();
            plain_run(&query(&stages), &input, &EMPTY, WORK_LEAST, &[187; ARRAY_LIMIT], &[9; 4_000])
        };
        let accepted = outcome(&[none]);
        assert_eq!((accepted.number, &accepted.result[..3]), (0, &EMPTY[..]));
        for (last, refusal) in [(vec![empty_group()], 9), (vec![], 10)] {
            let refused = outcome(&last);
            assert_eq!((refused.number, refused.length), (refusal, 0));
            assert!(refused.result.iter().all(|byte| *byte == 0));
            assert_eq!(refused.positions, [0; 4_000]);
        }
    }

    #[test]
    fn a_tree_too_large_goes_before_a_long_array_of_its_stretch() {
        let input = array(&[Tree::void().with(1, vec![Tree::void(); 100]).with(2, vec![Tree::void(); 100])]);
        let large = Stage::Project(vec![Item::Place(Data::Literal(vec![Tree::void(); 400]), vec![1])]);
        let stages = [Stage::Unwind(vec![1]), Stage::Unwind(vec![2]), large.clone(), empty_group()];
        assert_eq!(number(&query(&stages), &input, &EMPTY), 8);
        let later = [Stage::Unwind(vec![1]), Stage::Unwind(vec![2]), empty_group(), large];
        assert_eq!(number(&query(&later), &input, &EMPTY), 9);
    }

    /// A group whose one class has a total at label 2 of what stands there.
    fn total_group() -> Stage {
        Stage::Group { aggregates: vec![Pair::total(&[2], &[2])], grouping: vec![] }
    }

    /// A tree whose total of label 2 does not fit, with voids under label 1.
    fn past(voids: usize) -> Tree {
        let integers = vec![Tree::integer(i64::MAX), Tree::integer(1)];
        Tree::void().with(1, vec![Tree::void(); voids]).with(2, integers)
    }

    #[test]
    fn a_total_that_does_not_fit_clears_all_areas() {
        let (stages, input) = (query(&[total_group()]), array(&[past(0)]));
        let outcome = plain_run(&stages, &input, &EMPTY, WORK_LEAST, &[187; 9_999], &[7; 4_000]);
        let expected = Outcome {
            number: 12,
            length: 0,
            result: vec![0; 9_999],
            positions: vec![0; 4_000],
            work: Work::Zero,
        };
        assert_eq!(outcome, expected);
    }

    #[test]
    fn a_total_is_tested_after_9_and_before_8() {
        let unwind = Stage::Unwind(vec![1]);
        let large = Stage::Project(vec![Item::Place(Data::Literal(vec![Tree::void(); 400]), vec![1])]);
        let run = |stages: &[Stage], voids: usize| number(&query(stages), &array(&[past(voids)]), &EMPTY);
        // the trees behind the unwind have 54 bytes each: 303 of them enter, 304 do not
        assert_eq!(run(&[unwind.clone(), total_group()], 303), 12);
        assert_eq!(run(&[unwind.clone(), total_group()], 304), 9);
        assert_eq!(run(&[total_group(), large.clone()], 1), 12);
        assert_eq!(run(&[large.clone(), total_group()], 1), 8);
        // a later group's total waits for what comes before it
        let kept = Stage::Group { aggregates: vec![Pair::new(&[2], &[2])], grouping: vec![] };
        assert_eq!(run(&[kept.clone(), total_group()], 1), 12);
        assert_eq!(run(&[kept, large, total_group()], 1), 8);
        assert_eq!(run(&[unwind, total_group(), total_group()], 303), 12);
    }

    #[test]
    fn a_total_is_tested_before_the_trees_of_its_group() {
        let pair = Pair::new(&[1], &[1, 1]);
        let group = |aggregates: &[Pair]| {
            query(&[Stage::Group { aggregates: aggregates.to_vec(), grouping: vec![] }])
        };
        let (input, total) = (array(&[past(200), past(200)]), Pair::total(&[2], &[2]));
        assert_eq!(number(&group(std::slice::from_ref(&pair)), &input, &EMPTY), 8);
        assert_eq!(number(&group(&[pair.clone(), total.clone()]), &input, &EMPTY), 12);
        assert_eq!(number(&group(&[total, pair]), &input, &EMPTY), 12);
    }

    #[test]
    fn a_total_that_is_misplaced_is_malformed() {
        let (one, total) = (Pair::new(&[1], &[1]), Pair::total(&[1], &[1]));
        for (aggregates, grouping, expected) in [
            (vec![total.clone(); 8], vec![one.clone()], 0),
            (vec![total.clone(); 9], vec![one], 3),
            (vec![], vec![total], 3),
        ] {
            assert_eq!(number(&query(&[Stage::Group { aggregates, grouping }]), &EMPTY, &EMPTY), expected);
        }
    }

    #[test]
    fn a_tree_with_a_total_bears_the_position_of_its_first_member() {
        let input = array(&[Tree::void(), past(0).with(2, vec![Tree::integer(3)]), Tree::void()]);
        let group =
            Stage::Group { aggregates: vec![Pair::total(&[2], &[2])], grouping: vec![Pair::new(&[2], &[1])] };
        let outcome = plain_run(&query(&[group]), &input, &EMPTY, WORK_LEAST, &[187; ARRAY_LIMIT], &ENTRIES);
        assert_eq!((outcome.number, &outcome.positions[..2]), (0, &[1, 2][..]));
    }

    #[test]
    fn the_result_area_may_be_just_long_enough() {
        let input = array(&[Tree::integer(4)]);
        let run =
            |length: usize| plain_run(&NO_STAGE, &input, &EMPTY, WORK_LEAST, &vec![187; length], &ENTRIES);
        let enough = run(input.len());
        assert_eq!((enough.number, enough.result), (0, input.clone()));
        let short = run(input.len() - 1);
        assert_eq!((short.number, short.result), (10, vec![0; input.len() - 1]));
    }

    #[test]
    fn a_limit_on_trees_leaves_a_case_out() {
        let input = array(&[Tree::void().with(1, vec![Tree::void(); 100])]);
        let stages = query(&[Stage::Unwind(vec![1])]);
        let lengths = Lengths { work: WORK_LEAST, result: 20_000, positions: POSITIONS_LEAST };
        assert_eq!(decide(&stages, &input, &EMPTY, lengths, 99), None);
        assert!(decide(&stages, &input, &EMPTY, lengths, 100).is_some());
    }
}
