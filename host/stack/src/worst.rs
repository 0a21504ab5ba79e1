//! Cases that go as deep as the limits allow.
//!
//! A call of the engine goes deeper with each stage behind a stage, unless one
//! of them is a group, with each level of criteria and data, each label of a
//! path and each level of a tree. So the cases have some groups, then stages of
//! one kind, then a last stage that goes deep in its own way, eight in all, over
//! a tree of depth 16. Behind them stand cases that nest far past the limits,
//! for the checks, and regroupings: of few pairs and of many. A message has no
//! depth: those here have as many names and values as there may be, or as many
//! lines.

use crate::left::{Contents, Values};
use crate::lending::{Call, Lending};
use reference::bytes::{encode_array, encode_query};
use reference::bytes::{AGGREGATES_LIMIT, GROUPING_LIMIT, NESTING_LIMIT, PATH_LIMIT, STAGES_LIMIT};
use reference::run::{POSITIONS_LEAST, WORK_LEAST};
use reference::stages::{Criterion, Data, Item, Pair, Stage};
use reference::tracer::{MESSAGE_LIMIT, NAMES, TRACED_LIMIT};
use reference::tree::{Root, Tree, ARRAY_LIMIT, DEPTH_LIMIT};

/// A case, and what its last stage is.
pub struct Worst {
    pub kind: &'static str,
    pub case: Lending,
}

/// The kinds of the cases that are refused.
#[cfg(test)]
pub const REFUSED: [&str; 3] = [FAR, NOT_SUCH, NOT_FITTING];
const FAR: &str = "refused, far past a limit";
const NOT_SUCH: &str = "not one such group alone";
const NOT_FITTING: &str = "totals that do not fit";

type Kinds = Vec<(&'static str, Stage)>;

/// All cases over records with some contents.
pub fn cases(contents: &Contents) -> Vec<Worst> {
    let mut all = Vec::new();
    let (tree, joined) = (chain(contents, DEPTH_LIMIT), chain(contents, DEPTH_LIMIT - PATH_LIMIT));
    for (kind, last) in last_stages(contents) {
        for groups in 0..STAGES_LIMIT {
            for between in stages_between() {
                let mut stages = vec![group(&[1], &[1]); groups];
                stages.resize(STAGES_LIMIT - 1, between);
                stages.push(last.clone());
                all.push(Worst { kind, case: case(&stages, &tree, &joined) });
            }
        }
    }
    all.extend(not_fitting(&tree, &joined));
    all.extend(refused());
    all.extend(regroups(contents));
    all.extend(no_regroups(contents));
    all
}

/// The kinds of the messages that are refused.
#[cfg(test)]
pub const REFUSED_MESSAGES: [&str; 2] = [OUT_OF_FORM, AREA_SHORT];
const OUT_OF_FORM: &str = "message out of form";
const AREA_SHORT: &str = "area too short for a message";

/// Messages with some values.
pub fn messages(values: &Values) -> Vec<Worst> {
    let line = |name: &[u8], value: &[u8]| [name, b"=", value, b";", value, b"\r\n"].concat();
    let all = |value: &[u8]| NAMES.iter().flat_map(|name| line(name, value)).collect::<Vec<u8>>();
    let (texts, numbers) = (all(&values.text), all(values.number.as_bytes()));
    let lines = b"X=\r\n".repeat(MESSAGE_LIMIT / 4);
    let of = |kind, message: &[u8], result_length| {
        let read = [message.to_vec(), vec![], vec![]];
        let case = Lending { call: Call::Tracer, read, work_length: 0, result_length, positions_length: 0 };
        Worst { kind, case }
    };
    let twice = |message: &[u8]| [message, message].concat();
    vec![
        of("message of texts", &texts, TRACED_LIMIT),
        of("message of numbers", &numbers, TRACED_LIMIT),
        of("message of 1,024 lines", &lines, TRACED_LIMIT),
        of("message of no lines", b"", TRACED_LIMIT),
        of(OUT_OF_FORM, &twice(&texts), TRACED_LIMIT),
        of(OUT_OF_FORM, &twice(&numbers), TRACED_LIMIT),
        of(OUT_OF_FORM, &twice(&lines), TRACED_LIMIT),
        of(AREA_SHORT, &texts, TRACED_LIMIT - 1),
        of(AREA_SHORT, &numbers, 0),
    ]
}

fn case(stages: &[Stage], tree: &Tree, joined: &Tree) -> Lending {
    let query = encode_query(stages).expect("a query of up to 4,096 bytes has a byte form");
    let array = |tree: &Tree| encode_array(std::slice::from_ref(tree)).expect("so has an array");
    let read = [query, array(tree), array(joined)];
    let (work_length, result_length, positions_length) = (WORK_LEAST, ARRAY_LIMIT, POSITIONS_LEAST);
    Lending { call: Call::Run, read, work_length, result_length, positions_length }
}

/// Totals of two integers, which do not fit together, behind groups and without.
fn not_fitting(tree: &Tree, joined: &Tree) -> Vec<Worst> {
    let stages = |groups: usize| [vec![group(&[1], &[1]); groups], vec![totals(PATH_LIMIT)]].concat();
    let all = (0..STAGES_LIMIT).map(|groups| case(&stages(groups), tree, joined));
    all.map(|case| Worst { kind: NOT_FITTING, case }).collect()
}

/// What a regrouping refuses after it has checked how deep it goes: each last
/// stage alone, and what is far past a limit.
fn no_regroups(contents: &Contents) -> Vec<Worst> {
    let tree = chain(contents, DEPTH_LIMIT);
    let alone = last_stages(contents).into_iter().map(|(_, stage)| (NOT_SUCH, case(&[stage], &tree, &tree)));
    let far = refused().into_iter().map(|worst| (worst.kind, worst.case));
    alone.chain(far).map(|(kind, case)| Worst { kind, case: case.to(Call::Regroup) }).collect()
}

/// Regroupings by the first labels, of trees that have them all, each a deep
/// one under the first.
fn regroups(contents: &Contents) -> Vec<Worst> {
    let labels = (AGGREGATES_LIMIT + GROUPING_LIMIT) as u8;
    let integer = vec![Tree::bare(Root::Integer(contents.integer))];
    let all =
        (2..=labels).fold(chain(contents, DEPTH_LIMIT), |tree, label| tree.with(label, integer.clone()));
    let pair = |label: u8| Pair::new(&long(), &[label]);
    let of = |aggregates: usize, grouping: usize| {
        let mut pairs = (1..).map(pair);
        let mut take = |number| pairs.by_ref().take(number).collect();
        let stage = Stage::Group { aggregates: take(aggregates), grouping: take(grouping) };
        Worst { kind: "regrouping", case: case(&[stage], &all, &all).to(Call::Regroup) }
    };
    vec![of(0, 0), of(1, 0), of(0, 1), of(1, 1), of(0, GROUPING_LIMIT), of(AGGREGATES_LIMIT, GROUPING_LIMIT)]
}

/// Cases that nest as deep as an area is long.
fn refused() -> Vec<Worst> {
    let deep_tree = |depth| (1..depth).fold(Tree::void(), |tree, _| Tree::void().with(1, vec![tree]));
    let nots = (0..1_300).fold(Criterion::True, |inner, _| Criterion::Not(Box::new(inner)));
    let lists = (0..1_300).fold(Data::Path(vec![]), |inner, _| Data::List(vec![inner]));
    let void = Tree::void();
    let of = |stage| case(&[stage], &void, &void);
    [
        of(Stage::Match(nots)),
        of(Stage::Project(vec![Item::Place(lists, vec![1])])),
        of(Stage::Match(Criterion::Equal(vec![], vec![deep_tree(150)]))),
        case(&[], &deep_tree(150), &void),
        case(&[], &deep_tree(1_200), &void),
        case(&[], &void, &deep_tree(1_200)),
    ]
    .map(|case| Worst { kind: FAR, case })
    .into()
}

/// A tree of a depth. Each level has a bare tree beside the next, which a path
/// finds at its end alone.
fn chain(contents: &Contents, depth: usize) -> Tree {
    let (text, integer) = (Root::Text(contents.text.to_vec()), Root::Integer(contents.integer));
    let mut tree = Tree::bare(text.clone());
    for level in 1..depth {
        let root = if level % 4 == 0 { &text } else { &integer };
        tree = Tree::bare(root.clone()).with(1, vec![tree, Tree::bare(integer.clone())]);
    }
    tree
}

/// The longest path.
fn long() -> Vec<u8> {
    vec![1; PATH_LIMIT]
}

fn group(source: &[u8], destination: &[u8]) -> Stage {
    let pair = Pair::new(source, destination);
    Stage::Group { aggregates: vec![pair.clone()], grouping: vec![pair] }
}

/// As many totals as a group may have, by paths of so many labels. Of a deep
/// tree 7 labels give an integer and a tree with a text, and 8 give two
/// integers.
fn totals(labels: usize) -> Stage {
    let pair = |label: u8| Pair::total(&vec![1; labels], &[label, 1, 1, 1, 1, 1, 1, 1]);
    let aggregates = (2..).map(pair).take(AGGREGATES_LIMIT).collect();
    Stage::Group { aggregates, grouping: vec![Pair::new(&long(), &long())] }
}

/// Stages that keep the tree as deep as it is.
fn stages_between() -> Vec<Stage> {
    vec![
        Stage::Match(Criterion::True),
        Stage::Unwind(vec![]),
        Stage::Unwind(vec![1]),
        Stage::Unwind(long()),
        Stage::Project(vec![Item::Keep(vec![])]),
        Stage::Lookup { q: long(), r: vec![9], p: vec![2] },
    ]
}

fn last_stages(contents: &Contents) -> Kinds {
    let place = |data: Data| Item::Place(data, vec![1]);
    let mut all: Kinds = vec![
        ("unwind by 8 labels", Stage::Unwind(long())),
        ("keep by 8 labels", Stage::Project(vec![Item::Keep(long())])),
        ("merge at depth 16", Stage::Project(vec![Item::Keep(vec![]), place(Data::Path(vec![1]))])),
        ("group by 8 labels", group(&long(), &long())),
        ("group of trees of depth 16", group(&[1], &[1])),
        ("totals by 7 labels", totals(PATH_LIMIT - 1)),
        ("lookup by 8 labels", Stage::Lookup { q: long(), r: long(), p: long() }),
        ("lookup that finds a tree", Stage::Lookup { q: vec![9], r: vec![9], p: long() }),
    ];
    for criterion in criteria(contents, NESTING_LIMIT) {
        all.push(("match, criteria 8 deep", Stage::Match(criterion)));
    }
    for data in nested_data(contents) {
        all.push(("project, data 8 deep", Stage::Project(vec![place(data)])));
    }
    all
}

/// A criterion that no tree meets, one deep.
fn never() -> Criterion {
    Criterion::Exists(vec![9])
}

/// Criteria that nest exactly so deep, by each way to nest and to each leaf.
fn criteria(contents: &Contents, levels: usize) -> Vec<Criterion> {
    let leaves = [
        Criterion::Exists(long()),
        Criterion::Equal(long(), vec![chain(contents, DEPTH_LIMIT - PATH_LIMIT)]),
        Criterion::Same(long(), long()),
        Criterion::Same(vec![1], long()),
        Criterion::Same(vec![], vec![]),
    ];
    let (always, never) = (|| Box::new(Criterion::True), || Box::new(never()));
    let ways: [&dyn Fn(Box<Criterion>) -> Criterion; 4] = [
        &Criterion::Not,
        &|inner| Criterion::And(inner, always()),
        &|inner| Criterion::And(always(), inner),
        &|inner| Criterion::Or(never(), inner),
    ];
    let mut all = Vec::new();
    for leaf in &leaves {
        for way in ways {
            all.push((1..levels).fold(leaf.clone(), |inner, _| way(Box::new(inner))));
        }
    }
    all
}

/// Data that nest exactly to the limit: some levels of data, by each way to
/// nest, then a leaf or criteria.
fn nested_data(contents: &Contents) -> Vec<Data> {
    let ways: [&dyn Fn(Data) -> Data; 3] = [
        &|inner| Data::List(vec![inner]),
        &|inner| Data::Choice(Criterion::True, Box::new(inner), Box::new(Data::Path(vec![]))),
        &|inner| Data::Choice(never(), Box::new(Data::Path(vec![])), Box::new(inner)),
    ];
    let literal = Data::Literal(vec![chain(contents, 2)]);
    let leaves = [Data::Path(long()), Data::Path(vec![1]), Data::Reduced(long(), 10), literal];
    let mut all = Vec::new();
    for way in ways {
        let mut nested = |data: Data, levels: usize| all.push((0..levels).fold(data, |inner, _| way(inner)));
        leaves.iter().for_each(|leaf| nested(leaf.clone(), NESTING_LIMIT - 1));
        for levels in 1..NESTING_LIMIT {
            for criterion in criteria(contents, NESTING_LIMIT - levels) {
                nested(Data::Criterion(criterion), levels - 1);
            }
        }
    }
    all
}
