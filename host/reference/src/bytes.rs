//! The byte form of arrays and queries.
//!
//! Reading splits a content into whole fields first and then compares them
//! with what may stand there, so that each rule of the document is one line:
//! which tags, how many, in which order. Bytes that no rule allows are `None`,
//! without a reason, since a refusal has none. Writing is `None` where two
//! length bytes could not hold a length.

use crate::stages::{Criterion, Data, Item, Pair, Path, Stage};
use crate::tree::{Root, Tree, DEPTH_LIMIT, HEAD, TEXT_LIMIT, TREE_LIMIT};
use std::collections::BTreeMap;

/// The greatest size of a query's field, in bytes.
pub const QUERY_LIMIT: usize = 4_096;
/// The most stages of a query.
pub const STAGES_LIMIT: usize = 8;
/// The most labels of a path.
pub const PATH_LIMIT: usize = 8;
/// How deep criteria and data may nest, the outermost counted.
pub const NESTING_LIMIT: usize = 8;
/// The most items of a project; the least is 1.
pub const ITEMS_LIMIT: usize = 16;
/// The most members of a data list; the least is 1.
pub const LIST_LIMIT: usize = 8;
/// The most aggregates of a group.
pub const AGGREGATES_LIMIT: usize = 8;
/// The most grouping pairs of a group.
pub const GROUPING_LIMIT: usize = 4;
/// The greatest divisor; the least is 1.
pub const DIVISOR_LIMIT: u16 = 10_000;

/// The tags, by the document's numbers.
pub mod tags {
    pub const ARRAY: u8 = 1;
    pub const TREE: u8 = 2;
    pub const VOID: u8 = 3;
    pub const BOOLEAN: u8 = 4;
    pub const INTEGER: u8 = 5;
    pub const TEXT: u8 = 6;
    pub const LABEL: u8 = 7;
    pub const QUERY: u8 = 16;
    pub const MATCH: u8 = 17;
    pub const UNWIND: u8 = 18;
    pub const PROJECT: u8 = 19;
    pub const GROUP: u8 = 20;
    pub const LOOKUP: u8 = 21;
    pub const PATH: u8 = 32;
    pub const TRUE: u8 = 33;
    pub const EXISTS: u8 = 34;
    pub const EQUAL: u8 = 35;
    pub const SAME: u8 = 36;
    pub const NOT: u8 = 37;
    pub const AND: u8 = 38;
    pub const OR: u8 = 39;
    pub const LITERAL: u8 = 40;
    pub const PATH_DATA: u8 = 41;
    pub const LIST: u8 = 42;
    pub const CRITERION_DATA: u8 = 43;
    pub const CHOICE: u8 = 44;
    pub const REDUCED: u8 = 45;
    pub const DIVISOR: u8 = 46;
    pub const KEEP: u8 = 47;
    pub const PLACE: u8 = 48;
    pub const PAIR: u8 = 49;
    pub const AGGREGATES: u8 = 50;
    pub const GROUPING: u8 = 51;
    pub const TOTAL: u8 = 54;
}
use tags::*;

/// A field: its tag and its content.
pub type Field<'a> = (u8, &'a [u8]);

// Reading

/// The fields that fill some bytes, or nothing if they do not end together.
pub fn fields(mut bytes: &[u8]) -> Option<Vec<Field<'_>>> {
    let mut all = Vec::new();
    while !bytes.is_empty() {
        let (head, rest) = bytes.split_at_checked(HEAD)?;
        let length = usize::from(u16::from_be_bytes([head[1], head[2]]));
        let (content, behind) = rest.split_at_checked(length)?;
        all.push((head[0], content));
        bytes = behind;
    }
    Some(all)
}

/// Reads an array that spans all the bytes, tree limits included.
///
/// The limit of the array's own size has a refusal of its own, and is not
/// tested here.
pub fn decode_array(bytes: &[u8]) -> Option<Vec<Tree>> {
    match fields(bytes)?.as_slice() {
        [(ARRAY, content)] => trees(content, 1),
        _ => None,
    }
}

/// The trees of an array's content, each at a depth.
fn trees(content: &[u8], depth: usize) -> Option<Vec<Tree>> {
    fields(content)?.into_iter().map(|field| tree(field, depth)).collect()
}

fn tree((tag, content): Field, depth: usize) -> Option<Tree> {
    if tag != TREE || HEAD + content.len() > TREE_LIMIT || depth > DEPTH_LIMIT {
        return None;
    }
    let all = fields(content)?;
    let (first, others) = all.split_first()?;
    Some(Tree { root: root(*first)?, labels: labels(others, depth)? })
}

fn root((tag, content): Field) -> Option<Root> {
    match (tag, content) {
        (VOID, []) => Some(Root::Void),
        (BOOLEAN, [byte @ (0 | 1)]) => Some(Root::Boolean(*byte == 1)),
        (INTEGER, bytes) => Some(Root::Integer(i64::from_be_bytes(bytes.try_into().ok()?))),
        (TEXT, bytes) if bytes.len() <= TEXT_LIMIT => Some(Root::Text(bytes.to_vec())),
        _ => None,
    }
}

/// The label fields of a tree: labels from 1, rising, none repeated.
fn labels(others: &[Field], depth: usize) -> Option<BTreeMap<u8, Vec<Tree>>> {
    let mut last = 0;
    let mut labels = BTreeMap::new();
    for (tag, content) in others {
        let (label, array) = content.split_first()?;
        if *tag != LABEL || *label <= last {
            return None;
        }
        last = *label;
        labels.insert(*label, array_below(array, depth + 1)?);
    }
    Some(labels)
}

/// The one array field of a label.
fn array_below(bytes: &[u8], depth: usize) -> Option<Vec<Tree>> {
    match fields(bytes)?.as_slice() {
        [(ARRAY, content)] => trees(content, depth),
        _ => None,
    }
}

/// Reads a query that spans all the bytes. Its size has a refusal of its own,
/// and is not tested here.
pub fn decode_query(bytes: &[u8]) -> Option<Vec<Stage>> {
    let all = fields(bytes)?;
    let [(QUERY, content)] = all.as_slice() else {
        return None;
    };
    several(content, 0, STAGES_LIMIT, stage)
}

/// Fields of one kind, from a least to a greatest number.
fn several<T>(content: &[u8], least: usize, most: usize, one: impl Fn(Field) -> Option<T>) -> Option<Vec<T>> {
    let all = fields(content)?;
    if all.len() < least || all.len() > most {
        return None;
    }
    all.into_iter().map(one).collect()
}

fn stage((tag, content): Field) -> Option<Stage> {
    match (tag, fields(content)?.as_slice()) {
        (MATCH, [inner]) => Some(Stage::Match(criterion(*inner, NESTING_LIMIT)?)),
        (UNWIND, [by]) => Some(Stage::Unwind(path(*by)?)),
        (PROJECT, _) => Some(Stage::Project(several(content, 1, ITEMS_LIMIT, item)?)),
        (GROUP, [(AGGREGATES, first), (GROUPING, second)]) => Some(Stage::Group {
            aggregates: several(first, 0, AGGREGATES_LIMIT, aggregate)?,
            grouping: several(second, 0, GROUPING_LIMIT, pair)?,
        }),
        (LOOKUP, [q, r, p]) => Some(Stage::Lookup { q: path(*q)?, r: path(*r)?, p: destination(*p)? }),
        _ => None,
    }
}

fn path((tag, content): Field) -> Option<Path> {
    let allowed = tag == PATH && content.len() <= PATH_LIMIT && !content.contains(&0);
    allowed.then(|| content.to_vec())
}

/// A path that is not empty.
fn destination(field: Field) -> Option<Path> {
    path(field).filter(|labels| !labels.is_empty())
}

/// A criterion, with as many levels left as may still be used.
fn criterion((tag, content): Field, levels: usize) -> Option<Criterion> {
    let below = levels.checked_sub(1)?;
    let inner = |field: &Field| criterion(*field, below).map(Box::new);
    Some(match (tag, fields(content)?.as_slice()) {
        (TRUE, []) => Criterion::True,
        (EXISTS, [one]) => Criterion::Exists(path(*one)?),
        (EQUAL, [one, (ARRAY, array)]) => Criterion::Equal(path(*one)?, trees(array, 1)?),
        (SAME, [one, other]) => Criterion::Same(path(*one)?, path(*other)?),
        (NOT, [one]) => Criterion::Not(inner(one)?),
        (AND, [one, other]) => Criterion::And(inner(one)?, inner(other)?),
        (OR, [one, other]) => Criterion::Or(inner(one)?, inner(other)?),
        _ => return None,
    })
}

/// Data, with as many levels left as may still be used; criteria inside data
/// use the same levels.
fn data((tag, content): Field, levels: usize) -> Option<Data> {
    let below = levels.checked_sub(1)?;
    Some(match (tag, fields(content)?.as_slice()) {
        (LITERAL, [(ARRAY, array)]) => Data::Literal(trees(array, 1)?),
        (PATH_DATA, [one]) => Data::Path(path(*one)?),
        (LIST, _) => Data::List(several(content, 1, LIST_LIMIT, |member| data(member, below))?),
        (CRITERION_DATA, [one]) => Data::Criterion(criterion(*one, below)?),
        (CHOICE, [test, first, second]) => Data::Choice(
            criterion(*test, below)?,
            Box::new(data(*first, below)?),
            Box::new(data(*second, below)?),
        ),
        (REDUCED, [one, by]) => Data::Reduced(path(*one)?, divisor(*by)?),
        _ => return None,
    })
}

fn divisor((tag, content): Field) -> Option<u16> {
    let value = u16::from_be_bytes(content.try_into().ok()?);
    (tag == DIVISOR && (1..=DIVISOR_LIMIT).contains(&value)).then_some(value)
}

fn item((tag, content): Field) -> Option<Item> {
    match (tag, fields(content)?.as_slice()) {
        (KEEP, [one]) => Some(Item::Keep(path(*one)?)),
        (PLACE, [what, at]) => Some(Item::Place(data(*what, NESTING_LIMIT)?, destination(*at)?)),
        _ => None,
    }
}

/// A pair of the aggregates, where a total may stand too: of the same content.
fn aggregate((tag, content): Field) -> Option<Pair> {
    match tag {
        TOTAL => pair((PAIR, content)).map(|pair| Pair { total: true, ..pair }),
        _ => pair((tag, content)),
    }
}

fn pair((tag, content): Field) -> Option<Pair> {
    match (tag, fields(content)?.as_slice()) {
        (PAIR, [from, to]) => {
            Some(Pair { source: path(*from)?, destination: destination(*to)?, total: false })
        }
        _ => None,
    }
}

// Writing

/// The byte form of a field.
pub fn field(tag: u8, content: &[u8]) -> Option<Vec<u8>> {
    let [high, low] = u16::try_from(content.len()).ok()?.to_be_bytes();
    Some([&[tag, high, low], content].concat())
}

/// A field whose content is other fields.
fn holding(tag: u8, inner: impl IntoIterator<Item = Option<Vec<u8>>>) -> Option<Vec<u8>> {
    let mut content = Vec::new();
    for one in inner {
        content.extend(one?);
    }
    field(tag, &content)
}

/// The byte form of an array.
pub fn encode_array(trees: &[Tree]) -> Option<Vec<u8>> {
    holding(ARRAY, trees.iter().map(encode_tree))
}

fn encode_tree(tree: &Tree) -> Option<Vec<u8>> {
    let labels = tree
        .labels
        .iter()
        .map(|(label, array)| field(LABEL, &[&[*label], encode_array(array)?.as_slice()].concat()));
    holding(TREE, [encode_root(&tree.root)].into_iter().chain(labels))
}

fn encode_root(root: &Root) -> Option<Vec<u8>> {
    match root {
        Root::Void => field(VOID, &[]),
        Root::Boolean(value) => field(BOOLEAN, &[u8::from(*value)]),
        Root::Integer(value) => field(INTEGER, &value.to_be_bytes()),
        Root::Text(bytes) => field(TEXT, bytes),
    }
}

/// The byte form of a query. Rules that the types do not keep, as the number
/// of stages, are not tested: a query that breaks them is written as it is.
pub fn encode_query(stages: &[Stage]) -> Option<Vec<u8>> {
    holding(QUERY, stages.iter().map(encode_stage))
}

fn encode_stage(stage: &Stage) -> Option<Vec<u8>> {
    match stage {
        Stage::Match(criterion) => holding(MATCH, [encode_criterion(criterion)]),
        Stage::Unwind(path) => holding(UNWIND, [encode_path(path)]),
        Stage::Project(items) => holding(PROJECT, items.iter().map(encode_item)),
        Stage::Group { aggregates, grouping } => holding(
            GROUP,
            [
                holding(AGGREGATES, aggregates.iter().map(encode_pair)),
                holding(GROUPING, grouping.iter().map(encode_pair)),
            ],
        ),
        Stage::Lookup { q, r, p } => holding(LOOKUP, [q, r, p].map(|path| encode_path(path))),
    }
}

fn encode_path(path: &[u8]) -> Option<Vec<u8>> {
    field(PATH, path)
}

fn encode_criterion(criterion: &Criterion) -> Option<Vec<u8>> {
    match criterion {
        Criterion::True => field(TRUE, &[]),
        Criterion::Exists(path) => holding(EXISTS, [encode_path(path)]),
        Criterion::Equal(path, array) => holding(EQUAL, [encode_path(path), encode_array(array)]),
        Criterion::Same(one, other) => holding(SAME, [encode_path(one), encode_path(other)]),
        Criterion::Not(one) => holding(NOT, [encode_criterion(one)]),
        Criterion::And(one, other) => holding(AND, [encode_criterion(one), encode_criterion(other)]),
        Criterion::Or(one, other) => holding(OR, [encode_criterion(one), encode_criterion(other)]),
    }
}

fn encode_data(data: &Data) -> Option<Vec<u8>> {
    match data {
        Data::Literal(array) => holding(LITERAL, [encode_array(array)]),
        Data::Path(path) => holding(PATH_DATA, [encode_path(path)]),
        Data::List(members) => holding(LIST, members.iter().map(encode_data)),
        Data::Criterion(criterion) => holding(CRITERION_DATA, [encode_criterion(criterion)]),
        Data::Choice(test, first, second) => {
            holding(CHOICE, [encode_criterion(test), encode_data(first), encode_data(second)])
        }
        Data::Reduced(path, by) => holding(REDUCED, [encode_path(path), field(DIVISOR, &by.to_be_bytes())]),
    }
}

fn encode_item(item: &Item) -> Option<Vec<u8>> {
    match item {
        Item::Keep(path) => holding(KEEP, [encode_path(path)]),
        Item::Place(data, path) => holding(PLACE, [encode_data(data), encode_path(path)]),
    }
}

fn encode_pair(pair: &Pair) -> Option<Vec<u8>> {
    let tag = if pair.total { TOTAL } else { PAIR };
    holding(tag, [encode_path(&pair.source), encode_path(&pair.destination)])
}

#[cfg(test)]
mod tests {
    use super::*;
    use crate::tree::array_size;

    fn query(stages: &[Stage]) -> Option<Vec<Stage>> {
        decode_query(&encode_query(stages).unwrap())
    }

    fn accepted(stage: Stage) -> bool {
        query(std::slice::from_ref(&stage)) == Some(vec![stage])
    }

    fn nots(levels: usize) -> Criterion {
        (1..levels).fold(Criterion::True, |inner, _| Criterion::Not(Box::new(inner)))
    }

    fn lists(levels: usize, innermost: Data) -> Data {
        (0..levels).fold(innermost, |inner, _| Data::List(vec![inner]))
    }

    fn place(data: Data) -> Stage {
        Stage::Project(vec![Item::Place(data, vec![1])])
    }

    #[test]
    fn p9_by_its_bytes() {
        let trees = [Tree::void().with(1, vec![Tree::integer(7)])];
        let bytes = encode_array(&trees).unwrap();
        let expected =
            [1, 0, 27, 2, 0, 24, 3, 0, 0, 7, 0, 18, 1, 1, 0, 14, 2, 0, 11, 5, 0, 8, 0, 0, 0, 0, 0, 0, 0, 7];
        assert_eq!(bytes, expected);
        assert_eq!(bytes.len(), array_size(&trees));
        assert_eq!(decode_array(&bytes).unwrap(), trees);
    }

    #[test]
    fn labels_rise_and_do_not_repeat() {
        let tree = |labels: &[u8]| {
            let mut content = vec![3, 0, 0];
            labels.iter().for_each(|label| content.extend([7, 0, 4, *label, 1, 0, 0]));
            decode_array(&field(1, &field(2, &content).unwrap()).unwrap()).is_some()
        };
        assert!(tree(&[]) && tree(&[1, 2, 255]));
        assert!(!tree(&[0]) && !tree(&[2, 1]) && !tree(&[3, 3]));
    }

    #[test]
    fn a_field_spans_all_bytes() {
        assert!(decode_array(&[1, 0, 0]).is_some());
        for bytes in [&[][..], &[1], &[1, 0], &[1, 0, 1], &[1, 0, 0, 0], &[1, 0, 0, 1, 0, 0], &[2, 0, 0]] {
            assert!(decode_array(bytes).is_none());
        }
    }

    #[test]
    fn roots_have_their_lengths() {
        let root = |tag, content: &[u8]| {
            let tree = field(2, &field(tag, content).unwrap()).unwrap();
            decode_array(&field(1, &tree).unwrap()).is_some()
        };
        assert!(root(3, &[]) && root(4, &[1]) && root(5, &[0; 8]) && root(6, &[7; 255]));
        assert!(
            !root(3, &[0]) && !root(4, &[2]) && !root(4, &[]) && !root(5, &[0; 7]) && !root(6, &[7; 256])
        );
        assert!(!root(8, &[]));
    }

    #[test]
    fn nesting_goes_eight_deep() {
        assert!(accepted(Stage::Match(nots(8))));
        assert!(!accepted(Stage::Match(nots(9))));
        assert!(accepted(place(lists(7, Data::Path(vec![])))));
        assert!(!accepted(place(lists(8, Data::Path(vec![])))));
        assert!(accepted(place(lists(4, Data::Criterion(nots(3))))));
        assert!(!accepted(place(lists(4, Data::Criterion(nots(4))))));
    }

    #[test]
    fn counts_have_limits() {
        let unwind = Stage::Unwind(vec![]);
        assert!(query(&vec![unwind.clone(); 8]).is_some() && query(&vec![unwind; 9]).is_none());
        let project = |n| accepted(Stage::Project(vec![Item::Keep(vec![]); n]));
        assert!(!project(0) && project(1) && project(16) && !project(17));
        let list = |n| accepted(place(Data::List(vec![Data::Path(vec![1]); n])));
        assert!(!list(0) && list(1) && list(8) && !list(9));
        let pairs = |n| vec![Pair::new(&[], &[1]); n];
        let group = |a, g| accepted(Stage::Group { aggregates: pairs(a), grouping: pairs(g) });
        assert!(group(0, 0) && group(8, 4) && !group(9, 4) && !group(8, 5));
    }

    #[test]
    fn a_total_is_a_pair_among_the_aggregates_alone() {
        let (pair, total) = (Pair::new(&[3], &[1]), Pair::total(&[3], &[1]));
        let group = |aggregates: &[&Pair], grouping: &[&Pair]| {
            let owned = |pairs: &[&Pair]| pairs.iter().map(|pair| (*pair).clone()).collect();
            accepted(Stage::Group { aggregates: owned(aggregates), grouping: owned(grouping) })
        };
        assert!(group(&[&total], &[]) && group(&[&total; 8], &[&pair; 4]));
        assert!(group(&[&pair, &total, &pair, &total], &[&pair]));
        assert!(!group(&[&total; 9], &[]) && !group(&[&[&pair; 8][..], &[&total]].concat(), &[]));
        assert!(!group(&[], &[&total]) && !group(&[&total], &[&pair, &total]));
        let content = encode_pair(&total).unwrap();
        assert_eq!(content, [54, 0, 8, 32, 0, 1, 3, 32, 0, 1, 1]);
        for tag in [QUERY, PROJECT, GROUP, LOOKUP] {
            assert_eq!(decode_query(&holding(QUERY, [field(tag, &content)]).unwrap()), None);
        }
        assert_eq!(decode_query(&field(QUERY, &content).unwrap()), None);
    }

    #[test]
    fn a_total_has_two_paths() {
        let group = |content: &[u8]| {
            let lists = [holding(AGGREGATES, [field(TOTAL, content)]), field(GROUPING, &[])];
            decode_query(&holding(QUERY, [holding(GROUP, lists)]).unwrap()).is_some()
        };
        let (one, none) = ([32, 0, 1, 1], [32, 0, 0]);
        assert!(group(&[&one[..], &one].concat()) && group(&[&none[..], &one].concat()));
        assert!(!group(&[&one[..], &none].concat()) && !group(&one) && !group(&[]));
        assert!(!group(&[&one[..], &one, &one].concat()));
    }

    #[test]
    fn paths_have_eight_labels_and_destinations_one() {
        let unwind = |path: &[u8]| accepted(Stage::Unwind(path.to_vec()));
        assert!(unwind(&[]) && unwind(&[255; 8]) && !unwind(&[1; 9]) && !unwind(&[1, 0]));
        let lookup = |p: &[u8]| accepted(Stage::Lookup { q: vec![], r: vec![], p: p.to_vec() });
        assert!(lookup(&[1]) && !lookup(&[]));
        assert!(!accepted(Stage::Project(vec![Item::Place(Data::Path(vec![]), vec![])])));
        for pair in [Pair::new(&[], &[]), Pair::total(&[], &[])] {
            assert!(!accepted(Stage::Group { aggregates: vec![pair], grouping: vec![] }));
        }
    }

    #[test]
    fn divisors_go_from_one_to_ten_thousand() {
        let reduced = |by| accepted(place(Data::Reduced(vec![1], by)));
        assert!(!reduced(0) && reduced(1) && reduced(10_000) && !reduced(10_001));
    }

    #[test]
    fn arrays_in_a_query_obey_the_tree_limits() {
        let literal = |tree: Tree| accepted(place(Data::Literal(vec![tree])));
        let chain = |depth: usize| (1..depth).fold(Tree::void(), |t, _| Tree::void().with(1, vec![t]));
        assert!(literal(chain(16)) && !literal(chain(17)));
        assert!(literal(Tree::void().with(1, vec![Tree::void(); 339])));
        assert!(!literal(Tree::void().with(1, vec![Tree::void(); 340])));
    }
}
