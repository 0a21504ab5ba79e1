//! Random cases from a seed.
//!
//! Random bytes alone would be refused as malformed for ever, and random
//! queries alone would seldom come near a limit. So cases are of kinds, each
//! drawn for something that a run can get wrong; [`KINDS`] says how often.
//! Most cases are accepted, since an answer with bytes says most.

mod damage;
mod day;
mod draw;
mod random;
mod regroup;
mod totals;
mod tracer;

use crate::bytes::{
    encode_array, encode_query, AGGREGATES_LIMIT, GROUPING_LIMIT, ITEMS_LIMIT, LIST_LIMIT, NESTING_LIMIT,
    QUERY_LIMIT, STAGES_LIMIT,
};
use crate::run::{decide, Lengths, Verdict, POSITIONS_LEAST, WORK_LEAST};
use crate::stages::{Criterion, Data, Item, Pair, Stage};
use crate::tree::{array_size, Tree, ARRAY_LIMIT, DEPTH_LIMIT, HEAD, TEXT_LIMIT, TREE_LIMIT};
pub use day::{day, Day};
pub use draw::filled;
pub use random::Random;
pub use regroup::{RegroupCase, RegroupCases};
pub use tracer::{TracerCase, TracerCases};

/// The longest query, input, joined array and result area of a case.
pub const LONGEST: usize = 20_000;

/// The longest work area of a case.
pub const LONGEST_WORK: usize = 70_000;

/// The longest position area of a case, in entries.
pub const LONGEST_POSITIONS: usize = 20_000;

/// A case is left out if a list passes this number of trees on its way.
const MOST_TREES: usize = 5_000;

/// What a run is given; of the areas that it writes their lengths, in bytes
/// and of the position area in entries.
#[derive(Clone, Debug, PartialEq, Eq)]
pub struct Case {
    pub query: Vec<u8>,
    pub input: Vec<u8>,
    pub joined: Vec<u8>,
    pub work_length: usize,
    pub result_length: usize,
    pub positions_length: usize,
}

impl Case {
    pub fn lengths(&self) -> Lengths {
        Lengths { work: self.work_length, result: self.result_length, positions: self.positions_length }
    }

    /// What the plain run answers, if its lists stay short.
    fn verdict(&self) -> Option<Verdict> {
        decide(&self.query, &self.input, &self.joined, self.lengths(), MOST_TREES)
    }
}

impl Lent for Case {
    fn areas(&mut self) -> [&mut Vec<u8>; 3] {
        [&mut self.query, &mut self.input, &mut self.joined]
    }
}

/// A case of any call, by the areas that it is lent to read: a query and two arrays.
trait Lent: Sized {
    fn areas(&mut self) -> [&mut Vec<u8>; 3];

    /// The case, if none of them is longer than a case may have.
    fn within_longest(mut self) -> Option<Self> {
        self.areas().iter().all(|bytes| bytes.len() <= LONGEST).then_some(self)
    }
}

/// A case before it has a byte form.
struct Draft {
    stages: Vec<Stage>,
    input: Vec<Tree>,
    joined: Vec<Tree>,
}

impl Draft {
    /// The case, in areas that are long enough, if there is a byte form.
    fn case(&self) -> Option<Case> {
        if array_size(&self.input) > LONGEST || array_size(&self.joined) > LONGEST {
            return None;
        }
        let query = encode_query(&self.stages)?;
        let (input, joined) = (encode_array(&self.input)?, encode_array(&self.joined)?);
        let (work_length, result_length, positions_length) = (WORK_LEAST, ARRAY_LIMIT, POSITIONS_LEAST);
        Case { query, input, joined, work_length, result_length, positions_length }.within_longest()
    }
}

/// Cases without end, with what the reference answers to them.
pub struct Cases {
    random: Random,
    kinds: Vec<(usize, Kind<Case>)>,
}

impl Cases {
    /// Cases of all kinds.
    pub fn new(seed: u64) -> Cases {
        Cases { random: Random::new(seed), kinds: [&KINDS[..], &totals::KINDS].concat() }
    }

    /// Cases without totals. A seed gives those that it gave before there were
    /// totals, so that the stored ones can be made again.
    pub fn without_totals(seed: u64) -> Cases {
        Cases { kinds: KINDS.to_vec(), ..Cases::new(seed) }
    }

    /// Cases of groups with totals.
    pub fn with_totals(seed: u64) -> Cases {
        Cases { kinds: totals::KINDS.to_vec(), ..Cases::new(seed) }
    }
}

impl Iterator for Cases {
    type Item = (Case, Verdict);

    fn next(&mut self) -> Option<(Case, Verdict)> {
        loop {
            let case = of_kinds(&mut self.random, &self.kinds).and_then(Case::within_longest);
            let drawn = case.and_then(|case| in_areas(&mut self.random, case));
            if drawn.is_some() {
                return drawn;
            }
        }
    }
}

/// A kind of cases.
type Kind<C> = fn(&mut Random) -> Option<C>;

/// The kinds of cases without totals, and how often each is drawn, in thousand.
const KINDS: [(usize, Kind<Case>); 22] = [
    (205, |random| ordinary(random).case()),
    (90, |random| groups(random).case()),
    (40, |random| groups_of_groups(random).case()),
    (70, |random| lookups(random).case()),
    (30, |random| near_values(random).case()),
    (50, |random| long_paths(random).case()),
    (40, |random| nestings(random).case()),
    (30, |random| counts(random).case()),
    (30, |random| array_limits(random).case()),
    (10, |random| bare_trees(random).case()),
    (40, |random| tree_limits(random).case()),
    (35, |random| query_limits(random)),
    (65, |random| tree_growth(random).case()),
    (25, |random| depth_growth(random).case()),
    (30, |random| list_growth(random).case()),
    (35, |random| products(random).case()),
    (45, |random| blind_damage(random)),
    (55, |random| field_damage(random)),
    (15, |random| random_bytes(random)),
    (20, |random| several_faults(random)),
    (20, |random| short_work(random)),
    (20, |random| short_positions(random)),
];

/// A case of one of the kinds, each drawn as often as its weight says.
fn of_kinds<C>(random: &mut Random, kinds: &[(usize, Kind<C>)]) -> Option<C> {
    let mut left = random.below(kinds.iter().map(|(weight, _)| weight).sum());
    for (weight, kind) in kinds {
        if left < *weight {
            return kind(random);
        }
        left -= weight;
    }
    unreachable!("a number is below the sum of the weights")
}

/// Gives a case its areas. Some result areas are measured by the result: just
/// long enough, or one byte too short.
fn in_areas(random: &mut Random, mut case: Case) -> Option<(Case, Verdict)> {
    if case.work_length >= WORK_LEAST && random.chance(30) {
        case.work_length = random.between(WORK_LEAST, LONGEST_WORK);
    }
    if case.positions_length >= POSITIONS_LEAST && random.chance(30) {
        case.positions_length = random.pick(&[POSITIONS_LEAST + 1, 3_000, 4_001, LONGEST_POSITIONS]);
    }
    if random.chance(12) {
        case.result_length =
            random.pick(&[0, 1, 2, 3, 20, 100, 300, ARRAY_LIMIT - 1, ARRAY_LIMIT + 1, LONGEST]);
    }
    let verdict = case.verdict()?;
    let length = verdict.bytes().len();
    if length == 0 || !random.chance(12) {
        return Some((case, verdict));
    }
    case.result_length = random.pick(&[length, length, length + 1, length - 1]);
    let verdict = case.verdict()?;
    Some((case, verdict))
}

// Kinds of cases that are mostly accepted

/// Any stages over any trees.
fn ordinary(random: &mut Random) -> Draft {
    let input = some_trees(random);
    let joined = related(random, &input);
    let number = random.pick(&[0, 1, 1, 1, 1, 2, 2, 2, 3, 3, 4, 6, STAGES_LIMIT]);
    Draft { stages: draw::stages(random, &input, number), input, joined }
}

fn some_trees(random: &mut Random) -> Vec<Tree> {
    let number = random.pick(&[0, 1, 1, 2, 2, 3, 3, 4, 6, 10]);
    let levels = random.pick(&[1, 1, 2, 2, 3]);
    draw::trees(random, number, levels)
}

/// Trees of which some share values with the given ones, so that a lookup has
/// something to find.
fn related(random: &mut Random, input: &[Tree]) -> Vec<Tree> {
    let one = |random: &mut Random| {
        if input.is_empty() || random.chance(40) {
            return draw::tree(random, 1);
        }
        let mut tree = random.pick(input);
        if random.chance(50) {
            tree.root = draw::root(random);
        }
        tree
    };
    (0..random.pick(&[0, 0, 1, 2, 3, 5])).map(|_| one(random)).collect()
}

/// Up to four grouping pairs over trees that have any subset of their sources,
/// with few values, the empty array among them.
fn groups(random: &mut Random) -> Draft {
    let input: Vec<Tree> = (0..random.between(1, 24)).map(|_| record(random, 4)).collect();
    let number = random.between(0, GROUPING_LIMIT);
    let grouping = (1..=number as u8).map(|label| {
        let from = source(random, label);
        Pair::new(&from, &random.pick(&[vec![label], vec![5], vec![1, 2]]))
    });
    let grouping = grouping.collect();
    let number = random.pick(&[0, 1, 1, 2, 3]);
    let aggregates = draw::pairs(random, &input, number);
    let mut stages = vec![Stage::Group { aggregates, grouping }];
    around(random, &mut stages, &input);
    Draft { stages, joined: related(random, &input), input }
}

/// A group behind a group, by fewer of the pairs: so a class of the second has
/// members of several subsets, and the first of them need not be the one that
/// bears the smallest position.
fn groups_of_groups(random: &mut Random) -> Draft {
    let input: Vec<Tree> = (0..random.between(2, 24)).map(|_| record(random, 3)).collect();
    let same = |label: u8| Pair::new(&[label], &[label]);
    let by = |labels: &[u8]| Stage::Group {
        aggregates: vec![same(3)],
        grouping: labels.iter().map(|label| same(*label)).collect(),
    };
    let mut stages = vec![by(random.pick(&[&[1, 2][..], &[2, 1], &[1, 2, 4]])), by(&[random.pick(&[1, 2])])];
    if random.chance(20) {
        stages.insert(1, Stage::Unwind(vec![3]));
    }
    around(random, &mut stages, &input);
    Draft { stages, joined: related(random, &input), input }
}

/// A tree with each of some labels or without it.
fn record(random: &mut Random, labels: u8) -> Tree {
    let mut tree = Tree::bare(draw::root(random));
    for label in 1..=labels {
        if random.chance(60) {
            tree.labels.insert(label, value(random));
        }
    }
    tree
}

fn value(random: &mut Random) -> Vec<Tree> {
    let (one, two) = (Tree::integer(1), Tree::text(b"a"));
    match random.below(6) {
        0 => vec![],
        1 => vec![two],
        2 => vec![one, two],
        3 => vec![Tree::void().with(1, random.pick(&[vec![], vec![one]]))],
        _ => vec![one],
    }
}

/// A source that is the label, or below it.
fn source(random: &mut Random, label: u8) -> Vec<u8> {
    if random.chance(15) {
        vec![label, 1]
    } else {
        vec![label]
    }
}

/// Seldom a stage before the stages, or some behind them.
fn around(random: &mut Random, stages: &mut Vec<Stage>, trees: &[Tree]) {
    if random.chance(20) {
        stages.insert(0, Stage::Match(draw::criterion(random, trees, 2)));
    }
    if random.chance(30) {
        let number = random.between(1, 2);
        stages.extend(draw::stages(random, trees, number));
    }
}

/// Lookups that find one, several or no trees, by values or by absence.
fn lookups(random: &mut Random) -> Draft {
    let input: Vec<Tree> = (0..random.between(1, 8)).map(|_| record(random, 2)).collect();
    let joined: Vec<Tree> = (0..random.between(0, 8)).map(|_| record(random, 2)).collect();
    let p = random.pick(&[vec![3], vec![1], vec![2, 1], vec![3, 4, 5]]);
    let (q, r) = (random.between(1, 3) as u8, random.between(1, 3) as u8);
    let mut stages = vec![Stage::Lookup { q: source(random, q), r: source(random, r), p }];
    around(random, &mut stages, &input);
    Draft { stages, input, joined }
}

/// Values of any length that are the same or differ in one byte, compared by
/// paths and literals, in a group and in a lookup.
fn near_values(random: &mut Random) -> Draft {
    let values = nearly_equal(random);
    let trees = |random: &mut Random, most| -> Vec<Tree> {
        let value = |random: &mut Random| random.pick(&values);
        let record = |random: &mut Random| Tree::void().with(1, value(random)).with(2, value(random));
        (0..random.between(1, most)).map(|_| record(random)).collect()
    };
    let (input, joined) = (trees(random, 8), trees(random, 4));
    let mut stages = Vec::new();
    for _ in 0..random.between(1, 3) {
        stages.push(match random.below(4) {
            0 => Stage::Match(Criterion::Same(vec![1], vec![2])),
            1 => Stage::Match(Criterion::Not(Box::new(Criterion::Equal(vec![1], random.pick(&values))))),
            2 => Stage::Lookup { q: vec![1], r: vec![2], p: vec![3] },
            _ => {
                let pair = |label: u8| Pair::new(&[label], &[label]);
                Stage::Group { aggregates: vec![pair(2)], grouping: vec![pair(1)] }
            }
        });
    }
    Draft { stages, input, joined }
}

/// A value of texts, and some that differ from it in one byte of one text.
fn nearly_equal(random: &mut Random) -> Vec<Vec<Tree>> {
    let most = random.pick(&[3, 10, 30, 30, TEXT_LIMIT]);
    let text = |random: &mut Random| -> Vec<u8> {
        (0..random.between(1, most)).map(|_| random.bits() as u8).collect()
    };
    let texts: Vec<Vec<u8>> = (0..random.pick(&[1, 1, 1, 2, 3])).map(|_| text(random)).collect();
    let value = |texts: &[Vec<u8>]| texts.iter().map(|bytes| Tree::text(bytes)).collect();
    let mut values = vec![value(&texts)];
    for _ in 0..random.between(1, 3) {
        let mut other = texts.clone();
        let changed = random.below(other.len());
        let at = random.below(other[changed].len());
        other[changed][at] ^= 1 << random.below(8);
        values.push(value(&other));
    }
    values
}

/// Paths of up to eight labels over trees as deep.
fn long_paths(random: &mut Random) -> Draft {
    let number = random.between(1, 3);
    let trees = |random: &mut Random| -> Vec<Tree> {
        (0..number)
            .map(|_| {
                let depth = random.between(6, 12);
                draw::deep(random, depth)
            })
            .collect()
    };
    let (input, joined) = (trees(random), trees(random));
    let number = random.pick(&[1, 1, 2, 3]);
    Draft { stages: draw::stages(random, &input, number), input, joined }
}

// Kinds of cases at the limits of the form

/// A limit, or one past it.
fn around_limit(random: &mut Random, limit: usize) -> usize {
    random.pick(&[limit, limit, limit, limit + 1])
}

/// Criteria and data nested to the limit and one past it.
fn nestings(random: &mut Random) -> Draft {
    let mut draft = ordinary(random);
    draft.stages.truncate(3);
    let levels = around_limit(random, NESTING_LIMIT);
    let stage = if random.chance(50) {
        Stage::Match(draw::nested_criterion(random, &draft.input, levels))
    } else {
        let data = draw::nested_data(random, &draft.input, levels);
        Stage::Project(vec![Item::Place(data, draw::destination(random, &draft.input))])
    };
    draft.stages.insert(random.below(draft.stages.len() + 1), stage);
    draft
}

/// As many parts as are allowed, or one more, or none.
fn counts(random: &mut Random) -> Draft {
    let mut draft = ordinary(random);
    draft.input.truncate(3);
    let trees = draft.input.clone();
    let count = |random: &mut Random, limit| if random.chance(10) { 0 } else { around_limit(random, limit) };
    draft.stages = match random.below(4) {
        0 => vec![Stage::Match(draw::criterion(random, &trees, 2)); count(random, STAGES_LIMIT)],
        1 => vec![Stage::Project(
            (0..count(random, ITEMS_LIMIT)).map(|_| draw::item(random, &trees)).collect(),
        )],
        2 => {
            let members = (0..count(random, LIST_LIMIT)).map(|_| draw::data(random, &trees, 1)).collect();
            vec![Stage::Project(vec![Item::Place(Data::List(members), vec![1])])]
        }
        _ => {
            let (aggregates, grouping) = (count(random, AGGREGATES_LIMIT), count(random, GROUPING_LIMIT));
            let aggregates = draw::pairs(random, &trees, aggregates);
            vec![Stage::Group { aggregates, grouping: draw::pairs(random, &trees, grouping) }]
        }
    };
    draft
}

/// An input or joined array at its limit, one past it or far past it.
fn array_limits(random: &mut Random) -> Draft {
    let mut draft = ordinary(random);
    draft.stages = match random.below(4) {
        0 => draft.stages,
        1 => vec![],
        2 => vec![Stage::Match(draw::criterion(random, &draft.input, 2))],
        _ => vec![Stage::Group { aggregates: vec![], grouping: vec![Pair::new(&[2], &[1])] }],
    };
    let size = random.pick(&[
        ARRAY_LIMIT - 1,
        ARRAY_LIMIT,
        ARRAY_LIMIT + 1,
        ARRAY_LIMIT + 1,
        ARRAY_LIMIT + 2,
        LONGEST,
    ]);
    if random.chance(50) {
        let first = draw::trees(random, 8, 2);
        draft.input = draw::filled(random, first, size);
    } else {
        draft.joined = draw::filled(random, draft.joined, size);
    }
    draft
}

/// Nearly as many trees as an array holds, or as many, through stages that keep
/// them, put them together, or take some of them out.
fn bare_trees(random: &mut Random) -> Draft {
    let mut input = vec![Tree::void(); POSITIONS_LEAST - random.pick(&[0, 0, 0, 1, 2, 20])];
    let kept = Stage::Match(Criterion::Equal(vec![], vec![Tree::void()]));
    let group = Stage::Group { aggregates: vec![], grouping: vec![] };
    let bare = Stage::Project(vec![Item::Keep(vec![9])]);
    let stages = random.pick(&[vec![], vec![kept.clone()], vec![bare, kept.clone()], vec![kept, group]]);
    if random.chance(50) {
        input.pop();
        input.insert(random.below(input.len()), Tree::text(b"a"));
    }
    Draft { stages, input, joined: vec![] }
}

/// A tree at a limit or past it: its size, its depth, its text.
fn tree_limits(random: &mut Random) -> Draft {
    let mut draft = ordinary(random);
    draft.stages.truncate(2);
    let tree = match random.below(4) {
        0 | 1 => {
            let size = around_limit(random, TREE_LIMIT);
            draw::sized(random, size)
        }
        2 => {
            let depth = around_limit(random, DEPTH_LIMIT);
            draw::deep(random, depth)
        }
        _ => Tree::text(&vec![b'a'; around_limit(random, TEXT_LIMIT)]),
    };
    match random.below(4) {
        0 => draft.joined.push(tree),
        1 => draft.stages.push(Stage::Match(Criterion::Equal(vec![], vec![tree]))),
        _ => draft.input.insert(random.below(draft.input.len() + 1), tree),
    }
    draft
}

/// A query at its limit, or one or more bytes past it.
fn query_limits(random: &mut Random) -> Option<Case> {
    let mut draft = ordinary(random);
    draft.stages.truncate(STAGES_LIMIT - 1);
    let at = random.below(draft.stages.len() + 1);
    let with_literal = |array: Vec<Tree>| {
        let equal = Box::new(Criterion::Equal(vec![], array));
        Stage::Match(Criterion::Or(equal, Box::new(Criterion::True)))
    };
    draft.stages.insert(at, with_literal(vec![]));
    let size =
        random.pick(&[QUERY_LIMIT, QUERY_LIMIT, QUERY_LIMIT + 1, QUERY_LIMIT + 1, QUERY_LIMIT + 2, 6_000]);
    let missing = size.checked_sub(encode_query(&draft.stages)?.len())?;
    if missing >= Tree::void().size() {
        draft.stages[at] = with_literal(draw::filled(random, vec![], HEAD + missing));
    }
    draft.case()
}

// Kinds of cases that grow on the way

/// A size near a limit.
fn near(random: &mut Random, limit: usize) -> usize {
    random.pick(&[limit - 1, limit, limit, limit, limit + 1, limit + 1, limit + 2])
}

/// A path of one to three labels from 2 on, and what a place at it adds to
/// a tree beside the placed trees.
fn place_of_known_size(random: &mut Random) -> (Vec<u8>, usize) {
    let path: Vec<u8> = (0..random.between(1, 3)).map(|_| random.pick(&[2, 3])).collect();
    let size = crate::stages::placed(Some(vec![]), &path).size() - Tree::void().size();
    (path, size)
}

/// Trees that come to the size limit or past it by a stage.
fn tree_growth(random: &mut Random) -> Draft {
    let size = near(random, TREE_LIMIT);
    let (path, more) = place_of_known_size(random);
    let mut draft = match random.below(6) {
        0 | 1 => grown_by_project(random, path, size - more),
        2 => grown_by_lookup(random, path, size - more),
        3 => grown_by_aggregate(random, path, size - more - Tree::void().size()),
        4 => grown_by_grouping(random, path, size - more - Tree::void().size()),
        _ => shrunk_later(random, size),
    };
    around(random, &mut draft.stages, &[Tree::void()]);
    draft
}

/// A tree, and a text placed beside what it has.
fn grown_by_project(random: &mut Random, path: Vec<u8>, size: usize) -> Draft {
    let text = Tree::text(&vec![b'b'; random.between(0, TEXT_LIMIT)]);
    let tree = draw::sized(random, size - text.size());
    let place = Item::Place(Data::Literal(vec![text]), path);
    let stages = vec![Stage::Project(vec![Item::Keep(vec![]), place])];
    Draft { stages, input: among_small(random, tree), joined: vec![] }
}

/// A tree somewhere among trees that nothing refuses.
fn among_small(random: &mut Random, tree: Tree) -> Vec<Tree> {
    let number = random.below(4);
    let mut trees = draw::trees(random, number, 1);
    trees.insert(random.below(number + 1), tree);
    trees
}

/// A tree, and all joined trees, by absence.
fn grown_by_lookup(random: &mut Random, p: Vec<u8>, size: usize) -> Draft {
    let found = random.between(100, 1_800);
    let joined = draw::filled(random, vec![], HEAD + found);
    let tree = draw::sized(random, size - found);
    Draft { stages: vec![Stage::Lookup { q: vec![9], r: vec![9], p }], input: vec![tree], joined }
}

/// All trees, aggregated.
fn grown_by_aggregate(random: &mut Random, destination: Vec<u8>, size: usize) -> Draft {
    let input = draw::filled(random, vec![], HEAD + size);
    let aggregates = vec![Pair::new(&[], &destination)];
    let grouping = random.pick(&[vec![], vec![Pair::new(&[9], &[1])]]);
    Draft { stages: vec![Stage::Group { aggregates, grouping }], input, joined: vec![] }
}

/// A tree as a grouping value.
fn grown_by_grouping(random: &mut Random, destination: Vec<u8>, size: usize) -> Draft {
    let tree = draw::sized(random, size);
    let grouping = vec![Pair::new(&[], &destination)];
    Draft {
        stages: vec![Stage::Group { aggregates: vec![], grouping }],
        input: among_small(random, tree),
        joined: vec![],
    }
}

/// A merge that comes near the limit, and a last item that would make it
/// smaller again: what is tested only at the end misses it.
fn shrunk_later(random: &mut Random, size: usize) -> Draft {
    let long = crate::stages::placed(Some(vec![Tree::text(&[b'b'; TEXT_LIMIT])]), &[1]);
    let beside = crate::stages::placed(Some(vec![]), &[2]).size() - Tree::void().size();
    let tree = draw::sized(random, size - long.size() - beside);
    let places = [
        (Data::Literal(long.labels[&1].clone()), vec![1]),
        (Data::Path(vec![]), vec![2]),
        (Data::Literal(vec![Tree::integer(1)]), vec![1]),
    ];
    let items = places.map(|(data, path)| Item::Place(data, path)).to_vec();
    Draft { stages: vec![Stage::Project(items)], input: among_small(random, tree), joined: vec![] }
}

/// Trees that come to the depth limit or past it by a stage.
fn depth_growth(random: &mut Random) -> Draft {
    let labels = random.between(1, 8);
    let path = vec![random.pick(&[1, 2]); labels];
    let depth = random.pick(&[DEPTH_LIMIT, DEPTH_LIMIT, DEPTH_LIMIT + 1]);
    let tree = draw::deep(random, depth - labels);
    let pair = vec![Pair::new(&[], &path)];
    let (stage, joined) = match random.below(4) {
        0 => (Stage::Group { aggregates: pair, grouping: vec![] }, vec![]),
        1 => (Stage::Group { aggregates: vec![], grouping: pair }, vec![]),
        2 => (Stage::Lookup { q: vec![9], r: vec![9], p: path }, vec![tree.clone()]),
        _ => (Stage::Project(vec![Item::Place(Data::Path(vec![]), path)]), vec![]),
    };
    let mut stages = vec![stage];
    around(random, &mut stages, &[Tree::void()]);
    Draft { stages, input: among_small(random, tree), joined }
}

/// A list that comes to the array limit or past it by a project, before a
/// group, at the end, or where it has no limit.
fn list_growth(random: &mut Random) -> Draft {
    let number = random.between(20, 120);
    let text = Tree::text(&vec![b'b'; random.between(0, 80)]);
    let (path, more) = place_of_known_size(random);
    let inputs = near(random, ARRAY_LIMIT) - HEAD - number * (more + text.size());
    let mut input: Vec<Tree> = (1..number).map(|_| draw::sized(random, inputs / number)).collect();
    input.push(draw::sized(random, inputs / number + inputs % number));
    let place = Item::Place(Data::Literal(vec![text]), path);
    let mut stages = vec![Stage::Project(vec![Item::Keep(vec![]), place])];
    stages.extend(end_of_growth(random));
    Draft { stages, input, joined: vec![] }
}

/// What may follow a list that has grown.
fn end_of_growth(random: &mut Random) -> Vec<Stage> {
    let none = Stage::Match(Criterion::Not(Box::new(Criterion::True)));
    let grouping = vec![Pair::new(&[random.pick(&[2, 3, 9])], &[1])];
    let group = Stage::Group { aggregates: vec![], grouping };
    match random.below(6) {
        0 => vec![],
        1 => vec![none],
        2 => vec![none, group],
        3 => vec![group, none],
        _ => vec![group],
    }
}

/// Products of two unwinds, most of them near the array limit: 511 trees are
/// within it and 512 are not.
fn products(random: &mut Random) -> Draft {
    let any = (random.between(0, 60), random.between(0, 60));
    let (one, two) = random.pick(&[(7, 73), (73, 7), (8, 64), (16, 32), (23, 22), any, any]);
    let tree = Tree::void().with(1, vec![Tree::void(); one]).with(2, vec![Tree::void(); two]);
    let mut stages = vec![Stage::Unwind(vec![1]), Stage::Unwind(vec![2])];
    stages.extend(end_of_growth(random));
    if random.chance(20) {
        let large = Data::Literal(vec![Tree::void(); 339]);
        stages.insert(random.between(2, stages.len()), Stage::Project(vec![Item::Place(large, vec![1, 1])]));
    }
    Draft { stages, input: vec![tree], joined: vec![] }
}

// Kinds of cases that are mostly refused

/// One area of a case.
fn any_area<'a>(random: &mut Random, case: &'a mut impl Lent) -> &'a mut Vec<u8> {
    let [query, first, second] = case.areas();
    match random.below(3) {
        0 => query,
        1 => first,
        _ => second,
    }
}

/// The case with bytes of one area changed, wherever they stand.
fn blindly<C: Lent>(random: &mut Random, mut case: C) -> C {
    let area = any_area(random, &mut case);
    *area = damage::blind(random, area);
    case
}

/// The case with a field of one area changed.
fn by_field<C: Lent>(random: &mut Random, mut case: C) -> C {
    let area = any_area(random, &mut case);
    *area = damage::fielded(random, area);
    case
}

/// The case with random bytes in one area, at times behind a right head.
fn with_random_bytes<C: Lent>(random: &mut Random, mut case: C) -> Option<C> {
    let area = any_area(random, &mut case);
    let tag = area[0];
    let length = random.pick(&[0, 1, 2, 3, 4, 8, 30, 300]);
    let content = random.bytes(length);
    *area = if random.chance(50) { crate::bytes::field(tag, &content)? } else { content };
    Some(case)
}

/// An accepted kind of case, as bytes.
fn sound(random: &mut Random) -> Option<Case> {
    match random.below(4) {
        0 => groups(random),
        1 => lookups(random),
        _ => ordinary(random),
    }
    .case()
}

fn blind_damage(random: &mut Random) -> Option<Case> {
    let case = sound(random)?;
    Some(blindly(random, case))
}

fn field_damage(random: &mut Random) -> Option<Case> {
    let case = sound(random)?;
    Some(by_field(random, case))
}

fn random_bytes(random: &mut Random) -> Option<Case> {
    let case = sound(random)?;
    with_random_bytes(random, case)
}

/// Faults in several places at once, for the order of the tests.
fn several_faults(random: &mut Random) -> Option<Case> {
    let mut case =
        if random.chance(50) { list_growth(random).case()? } else { tree_growth(random).case()? };
    case.query = with_fault(random, case.query, QUERY_LIMIT);
    case.input = with_fault(random, case.input, ARRAY_LIMIT);
    case.joined = with_fault(random, case.joined, ARRAY_LIMIT);
    if random.chance(15) {
        case.work_length = short_length(random);
    }
    if random.chance(20) {
        case.positions_length = few_entries(random);
    }
    case.result_length = random.pick(&[0, 10, ARRAY_LIMIT]);
    Some(case)
}

/// Bytes as they are, or damaged, or too long, or both.
fn with_fault(random: &mut Random, bytes: Vec<u8>, limit: usize) -> Vec<u8> {
    let mut bytes = if random.chance(25) { damage::blind(random, &bytes) } else { bytes };
    if random.chance(15) {
        bytes.resize(limit + random.between(1, 3), 0);
    }
    bytes
}

/// A work area that is too short.
fn short_work(random: &mut Random) -> Option<Case> {
    let mut case = if random.chance(50) { sound(random)? } else { field_damage(random)? };
    case.work_length = short_length(random);
    Some(case)
}

fn short_length(random: &mut Random) -> usize {
    random.pick(&[0, 1, 100, WORK_LEAST / 2, WORK_LEAST - 2, WORK_LEAST - 1, WORK_LEAST - 1])
}

/// A position area that is too short.
fn short_positions(random: &mut Random) -> Option<Case> {
    let mut case = if random.chance(50) { sound(random)? } else { field_damage(random)? };
    case.positions_length = few_entries(random);
    Some(case)
}

fn few_entries(random: &mut Random) -> usize {
    random.pick(&[
        0,
        1,
        100,
        POSITIONS_LEAST / 2,
        POSITIONS_LEAST - 2,
        POSITIONS_LEAST - 1,
        POSITIONS_LEAST - 1,
    ])
}

#[cfg(test)]
mod tests {
    use super::*;
    use crate::bytes::{decode_array, decode_query};

    #[test]
    fn a_seed_gives_the_same_cases() {
        let cases = |seed| Cases::new(seed).take(50).collect::<Vec<_>>();
        assert_eq!(cases(7), cases(7));
        assert_ne!(cases(7), cases(8));
    }

    #[test]
    fn most_are_accepted_and_every_number_appears() {
        let mut numbers = [0; 13];
        Cases::new(1).take(5_000).for_each(|(_, verdict)| numbers[usize::from(verdict.number())] += 1);
        assert!(numbers[0] > 2_500, "{numbers:?}");
        assert!(numbers.iter().all(|number| *number >= 40), "{numbers:?}");
    }

    #[test]
    fn what_is_read_is_written_the_same() {
        for (case, verdict) in Cases::new(2).take(1_000) {
            if let Some(stages) = decode_query(&case.query) {
                assert_eq!(encode_query(&stages).unwrap(), case.query);
            }
            for bytes in [&case.input[..], &case.joined[..], verdict.bytes()] {
                if let Some(trees) = decode_array(bytes) {
                    assert_eq!(encode_array(&trees).unwrap(), bytes);
                }
            }
        }
    }

    #[test]
    fn sized_trees_have_their_size() {
        let mut random = Random::new(3);
        for size in 6..3_000 {
            assert_eq!(draw::sized(&mut random, size).size(), size);
        }
        for size in (9..LONGEST).step_by(97) {
            let first = draw::trees(&mut random, 3, 1);
            assert_eq!(array_size(&draw::filled(&mut random, first, size)), size);
        }
    }

    #[test]
    fn an_accepted_run_over_its_own_result_is_admitted() {
        for (case, verdict) in Cases::new(4).take(1_000) {
            if let Verdict::Accepted { bytes, .. } = verdict {
                let again = decide(&case.query, &bytes, &case.joined, case.lengths(), MOST_TREES);
                assert!(!matches!(again, Some(Verdict::Refused(1..=7 | 11))));
            }
        }
    }

    #[test]
    fn positions_are_those_of_input_trees_and_at_times_fall() {
        let (mut falling, mut repeated) = (0, 0);
        for (case, verdict) in Cases::new(5).take(2_000) {
            if let Verdict::Accepted { bytes, positions } = verdict {
                let trees = |bytes: &[u8]| decode_array(bytes).unwrap().len();
                assert_eq!(positions.len(), trees(&bytes));
                let inputs = 1..=trees(&case.input);
                assert!(positions.iter().all(|position| inputs.contains(&usize::from(*position))));
                falling += usize::from(positions.windows(2).any(|two| two[0] > two[1]));
                repeated += usize::from(positions.windows(2).any(|two| two[0] == two[1]));
            }
        }
        assert!(falling > 20 && repeated > 20, "{falling} fall, {repeated} are repeated");
    }
}
