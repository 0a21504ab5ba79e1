//! The call that groups two arrays again: its results, its refusals in their
//! order, and what each leaves in the areas.

use tquery::{limits, Array, Engine, Error, Pair, Path, Query, Refusal, Tree};

fn path(text: &str) -> Path {
    text.parse().expect("a path")
}

fn array(text: &str) -> Array {
    text.parse().expect("an array")
}

fn pair(source: &str, destination: &str) -> Pair {
    Pair::new(path(source), path(destination))
}

/// One group alone: aggregates and grouping pairs, each a source and a destination.
fn group(aggregates: &[(&str, &str)], grouping: &[(&str, &str)]) -> Query {
    let pairs = |all: &[(&str, &str)]| -> Vec<Pair> { all.iter().map(|(s, d)| pair(s, d)).collect() };
    Query::new().group(pairs(aggregates), pairs(grouping))
}

fn regroup(query: &Query, first: &str, second: &str) -> Result<String, Error> {
    let mut work = vec![0xaa; limits::WORK];
    let list = Engine::new(&mut work).regroup_trees(query, &array(first), &array(second))?;
    assert!(work.iter().all(|byte| *byte == 0), "the work area is zero after a call");
    Ok(list.to_string())
}

fn gives(outcome: Result<String, Error>, notation: &str) {
    assert_eq!(outcome.as_deref(), Ok(notation));
}

#[test]
fn classes_of_both_arrays_come_together_in_order_of_first_appearance() {
    let by_lens = group(&[("9", "1")], &[("8.7", "2")]);
    gives(
        regroup(
            &by_lens,
            "[v{1:[11]}, v{1:[1, 2], 2:[16]}, v{1:[3], 2:[15]}]",
            "[v{1:[12]}, v{1:[4], 2:[15]}, v{1:[5], 2:[17]}, v{1:[6], 2:[16]}]",
        ),
        "[v{1:[11, 12]}, v{1:[1, 2, 6], 2:[16]}, v{1:[3, 4], 2:[15]}, v{1:[5], 2:[17]}]",
    );
}

#[test]
fn the_two_results_of_two_trays_give_the_result_of_both() -> Result<(), Error> {
    let query = group(&[("1", "3"), ("4.5", "1")], &[("2", "2")]);
    let (one, other) =
        ("v{1:[1], 2:[6], 4:[v{5:[8]}, v]}, 7{1:[2]}", "v{1:[3], 2:[6], 4:[]}, v{1:[4], 2:[]}, 9");
    let mut work = vec![0; limits::WORK];
    let mut engine = Engine::new(&mut work);
    let mut run = |trees: &str| engine.run_trees(&query, &array(&format!("[{trees}]")), &Array::new());
    let (first, second) = (run(one)?, run(other)?);
    let whole = run(&format!("{one}, {other}"))?;
    assert_eq!(engine.regroup_trees(&query, &first, &second)?, whole);
    Ok(())
}

#[test]
fn an_aggregate_absent_in_one_tray_and_empty_in_another_is_present() {
    let all = group(&[("1", "1")], &[]);
    gives(regroup(&all, "[v]", "[v{1:[]}]"), "[v{1:[]}]");
    gives(regroup(&all, "[v{1:[]}]", "[v]"), "[v{1:[]}]");
    gives(regroup(&all, "[v]", "[v]"), "[v]");
}

#[test]
fn a_group_of_no_pairs_is_such_a_group() {
    gives(regroup(&group(&[], &[]), "[]", "[]"), "[]");
    gives(regroup(&group(&[], &[]), "[1]", "[]"), "[v]");
    gives(regroup(&group(&[], &[]), "[1]", "[2{3:[4]}]"), "[v]");
}

#[test]
fn the_arrays_need_not_be_results() {
    let by_2 = group(&[("1", "1")], &[("1", "2")]);
    gives(
        regroup(&by_2, r#"[5{2:[v{2:[1]}], 3:[4]}, true, v{1:["a"]}]"#, "[v{2:[v{2:[1]}]}, v{1:[]}]"),
        r#"[v{1:["a"]}, v{2:[v{2:[1]}]}]"#,
    );
}

#[test]
fn a_query_that_is_not_one_such_group_alone_is_refused_with_3() {
    let such = group(&[("1", "1")], &[("2", "2")]);
    let refused =
        |query: Query| assert_eq!(regroup(&query, "[]", "[]"), Err(Error::Regroup(Refusal::QueryMalformed)));
    gives(regroup(&such, "[]", "[]"), "[]");
    refused(Query::new());
    refused(Query::new().unwind(Path::empty()));
    refused(such.clone().group([], []));
    refused(such.clone().unwind(Path::empty()));
    refused(Query::new().unwind(Path::empty()).group([], []));
    refused(group(&[("1", "1.2")], &[]));
    refused(group(&[], &[("1", "1.2")]));
    refused(group(&[("1", "3"), ("2", "3")], &[]));
    refused(group(&[], &[("1", "3"), ("2", "3")]));
    refused(group(&[("1", "3")], &[("2", "3")]));
    refused(Query::new().group([Pair::total(path("1"), path("1"))], [pair("2", "2")]));
    refused(Query::new().group([pair("1", "1"), Pair::total(path("3"), path("3"))], []));
}

#[test]
fn refusals_have_their_own_words() {
    let words = |refusal| Error::Regroup(refusal).to_string();
    assert_eq!(
        words(Refusal::QueryMalformed),
        "refused 3: query malformed, or not one group alone, without a total, with single, distinct destinations"
    );
    assert_eq!(words(Refusal::GroupLong), "refused 9: the two arrays joined over 16,384 bytes");
    assert_eq!(words(Refusal::WorkShort), Refusal::WorkShort.to_string());
}

/// One call by its areas, the two that are written by their lengths.
#[derive(Clone)]
struct Call {
    query: Vec<u8>,
    first: Vec<u8>,
    second: Vec<u8>,
    work: usize,
    result: usize,
}

impl Call {
    /// Calls, compares every byte of the areas with the table, and gives the number.
    fn number(&self) -> u32 {
        let (mut work, mut result) = (vec![0xaa; self.work], vec![0xbb; self.result]);
        let outcome = Engine::new(&mut work).regroup(&self.query, &self.first, &self.second, &mut result);
        let number = outcome.map_or_else(Refusal::number, |_| 0);
        let all = |area: &[u8], value| area.iter().all(|byte| *byte == value);
        assert!(all(&work, if number == 1 { 0xaa } else { 0 }), "the work area after {number}");
        let length = outcome.unwrap_or(0);
        assert!(length == 0 || Array::decode(&result[..length]).is_ok(), "the result is an array");
        let rest = if number < 8 { 0xbb } else { 0 };
        assert!(all(&result[length..], rest), "the result area after {number}");
        number
    }
}

/// Trees under label 1 that make a tree of so many bytes.
fn sized(size: usize) -> Tree {
    let texts =
        (0..(size - 19) / 200).map(|_| Tree::text([7; 194])).collect::<Result<Vec<_>, _>>().expect("texts");
    let rest = size - 13 - 200 * texts.len();
    let last = Tree::text(vec![7; rest - 6]).expect("a text");
    let tree = Tree::void().with(1, texts.into_iter().chain([last]).collect::<Array>()).expect("a tree");
    assert_eq!(tree.size(), size);
    tree
}

fn bytes(trees: impl Into<Array>) -> Vec<u8> {
    trees.into().encode().expect("an array")
}

/// Each case has its fault and all that are tested after it, as far as they
/// can stand together.
#[test]
fn refusals_come_in_their_order() {
    let such = group(&[("1", "1")], &[]).encode().expect("a query");
    let two = group(&[("1", "1.2")], &[]).encode().expect("a query");
    let total = Query::new().group([Pair::total(path("1"), path("1"))], []).encode().expect("a query");
    let (long, bad) = (vec![1; limits::ARRAY + 1], vec![1, 0, 1]);
    let (half, one) = (bytes(vec![sized(1_500); 6]), bytes([sized(1_500)]));
    let call = |query: &[u8], first: &[u8], second: &[u8]| {
        let (query, first, second) = (query.to_vec(), first.to_vec(), second.to_vec());
        Call { query, first, second, work: limits::WORK, result: 2 }
    };
    let first = Call { work: limits::WORK - 1, ..call(&[16; limits::QUERY + 1], &long, &long) };
    assert_eq!(first.number(), 1);
    assert_eq!(Call { work: 0, result: 0, ..first }.number(), 1);
    assert_eq!(call(&[16; limits::QUERY + 1], &long, &long).number(), 2);
    assert_eq!(call(&[16; limits::QUERY], &long, &long).number(), 3);
    assert_eq!(call(&two, &long, &long).number(), 3);
    assert_eq!(call(&total, &long, &long).number(), 3);
    assert_eq!(call(&such, &long, &bad).number(), 4);
    assert_eq!(call(&such, &bad, &long).number(), 5, "the first array's 5 goes before the second's 4");
    assert_eq!(call(&such, &half, &long).number(), 4);
    assert_eq!(call(&such, &half, &bad).number(), 5);
    assert_eq!(call(&such, &half, &half).number(), 9, "9 is tested before 8");
    assert_eq!(call(&such, &one, &one).number(), 8);
    assert_eq!(call(&such, &one, &bytes([Tree::void()])).number(), 10);
    assert_eq!(Call { result: 10, ..call(&such, &[1, 0, 0], &[1, 0, 0]) }.number(), 0);
    assert_eq!(Call { work: limits::WORK + 9, ..call(&such, &one, &one) }.number(), 8);
}

#[test]
fn a_result_area_may_be_just_long_enough() {
    let query = group(&[("1", "1")], &[]).encode().expect("a query");
    let (first, second) = (bytes(array("[v{1:[1]}]")), bytes(array("[v{1:[2]}]")));
    let length = bytes(array("[v{1:[1, 2]}]")).len();
    let call = Call { query, first, second, work: limits::WORK, result: length };
    assert_eq!(call.number(), 0);
    assert_eq!(Call { result: length - 1, ..call }.number(), 10);
}

#[test]
fn the_join_counts_one_head_and_not_two() {
    let query = group(&[], &[("9", "9")]).encode().expect("a query");
    let voids = |count| Array::from(vec![Tree::void(); count]);
    let with_text = |count: usize, text: &str| {
        voids(count).into_iter().chain([Tree::text(text).expect("a text")]).collect::<Array>()
    };
    let call = |first: Array, second: Array| {
        let (query, first, second) = (query.clone(), bytes(first), bytes(second));
        Call { query, first, second, work: limits::WORK, result: 9 }
    };
    // 2,729 voids and a text of one byte are 16,384 bytes; they are parted in several ways
    for first in [1, 1_000, 2_729] {
        assert_eq!(call(voids(first), with_text(2_729 - first, "a")).number(), 0);
        assert_eq!(call(voids(first), with_text(2_729 - first, "ab")).number(), 9);
        assert_eq!(call(with_text(2_729 - first, "a"), voids(first)).number(), 0);
        assert_eq!(call(with_text(2_729 - first, "ab"), voids(first)).number(), 9);
    }
    let full = with_text(2_729, "a");
    assert_eq!(call(full.clone(), Array::new()).number(), 0);
    assert_eq!(call(Array::new(), full.clone()).number(), 0);
    assert_eq!(call(full, voids(1)).number(), 9);
}

#[test]
fn a_class_may_come_to_the_tree_limit() {
    let all = group(&[("1", "1")], &[]).encode().expect("a query");
    let call = |second: usize| Call {
        query: all.clone(),
        first: bytes([sized(1_000)]),
        second: bytes([sized(second)]),
        work: limits::WORK,
        result: limits::ARRAY,
    };
    // the heads of the second tree, 13 bytes, fall away
    let left = limits::TREE - 1_000 + 13;
    assert_eq!((call(left).number(), call(left + 1).number()), (0, 8));
}
