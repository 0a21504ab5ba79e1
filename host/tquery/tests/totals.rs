//! Totals in a group: what is placed, sums at the limits of 64 bits, 12 in its place among the refusals, and where a
//! total may not stand.

use tquery::{check_query, limits, BuildError, TrayCause, Trays, Unfit};
use tquery::{Array, Criterion, Data, Engine, Error, Item, Pair, Path, Query, Refusal, Tree};

fn path(text: &str) -> Path {
    text.parse().expect("a path")
}

fn array(text: &str) -> Array {
    text.parse().expect("an array")
}

fn total(source: &str, destination: &str) -> Pair {
    Pair::total(path(source), path(destination))
}

fn pair(source: &str, destination: &str) -> Pair {
    Pair::new(path(source), path(destination))
}

fn run(query: &Query, input: &Array) -> Result<String, Error> {
    let mut work = vec![0xaa; limits::WORK];
    let result = Engine::new(&mut work).run_trees(query, input, &Array::new())?;
    assert!(work.iter().all(|byte| *byte == 0), "the work area is zero after a run");
    Ok(result.to_string())
}

fn gives(query: &Query, input: &str, notation: &str) {
    assert_eq!(run(query, &array(input)).as_deref(), Ok(notation), "{input}");
}

fn refused(query: &Query, input: &Array, refusal: Refusal) {
    assert_eq!(run(query, input), Err(Error::Refused(refusal)));
}

/// The sum of label 2 at label 3, in one class.
fn sum() -> Query {
    Query::new().group([total("2", "3")], [])
}

/// The sum of label 2 at label 3, by label 1.
fn by_job() -> Query {
    Query::new().group([total("2", "3")], [Pair::same(path("1"))])
}

#[test]
fn edge_lengths_are_added_per_job() {
    gives(
        &by_job(),
        "[v{1:[7], 2:[52, 54]}, v{2:[1]}, v{1:[8], 2:[-3]}, v{1:[7], 2:[4]}, v{1:[9]}, v{2:[2]}]",
        "[v{3:[3]}, v{1:[7], 3:[110]}, v{1:[8], 3:[-3]}, v{1:[9]}]",
    );
    gives(&by_job(), "[]", "[]");
}

#[test]
fn other_roots_and_deeper_integers_add_nothing() {
    gives(&sum(), r#"[v{2:[5, v, true, "9", 6]}, 100{2:[7]}]"#, "[v{3:[18]}]");
    gives(&sum(), "[v{2:[5{2:[100]}, v{2:[100]}]}]", "[v{3:[5]}]");
}

#[test]
fn without_an_integer_nothing_is_placed() {
    for input in ["[v]", "[v{2:[]}]", r#"[v{2:[v, true, "7"]}]"#, "[v{2:[v{2:[7]}]}, 5]"] {
        gives(&sum(), input, "[v]");
    }
    let kept = Query::new().group([pair("2", "3"), total("2", "3")], []);
    gives(&kept, "[v{2:[true]}]", "[v{3:[true]}]");
}

#[test]
fn a_sum_of_0_is_placed() {
    gives(&sum(), "[v{2:[0]}]", "[v{3:[0]}]");
    gives(&sum(), "[v{2:[7]}, v{2:[-7]}]", "[v{3:[0]}]");
}

#[test]
fn a_source_may_be_the_tree_itself_or_any_path() {
    gives(&Query::new().group([total("", "3")], []), "[4{2:[100]}, v, 5]", "[v{3:[9]}]");
    gives(
        &Query::new().group([total("2.2", "3.4")], []),
        "[v{2:[v{2:[1, 2]}, 50, v{2:[3]}]}, v{2:[]}, v{2:[v{2:[4]}]}]",
        "[v{3:[v{4:[10]}]}]",
    );
}

#[test]
fn a_partial_sum_may_leave_64_bits() {
    let (least, greatest) = (i64::MIN, i64::MAX);
    let trees = |values: &[i64]| values.iter().map(|value| format!("v{{2:[{value}]}}")).collect::<Vec<_>>();
    for (values, expected) in [
        (vec![greatest, 1, -1], greatest),
        (vec![1, greatest, -1], greatest),
        (vec![least], least),
        (vec![least, least, greatest, 1], least),
        (vec![least, -1, 1], least),
        ([greatest; 70].into_iter().chain([-greatest; 69]).collect(), greatest),
    ] {
        // in one array, and in a member each
        gives(&sum(), &format!("[v{{2:{values:?}}}]"), &format!("[v{{3:[{expected}]}}]"));
        gives(&sum(), &format!("[{}]", trees(&values).join(", ")), &format!("[v{{3:[{expected}]}}]"));
    }
    for values in [vec![greatest, 1], vec![least, -1], vec![greatest; 100], vec![least; 2], vec![least; 100]]
    {
        refused(&sum(), &array(&format!("[v{{2:{values:?}}}]")), Refusal::TotalLarge);
        refused(&sum(), &array(&format!("[{}]", trees(&values).join(", "))), Refusal::TotalLarge);
    }
}

/// The class at fault may be any of them, and the pair any of the totals.
#[test]
fn every_class_and_every_total_counts() {
    let past = format!("{}, 1", i64::MAX);
    for at in 1..=3 {
        let class = |key: i32| format!("v{{1:[{key}], 2:[{}]}}", if key == at { &past } else { "1" });
        let input = array(&format!("[{}, {}, {}]", class(1), class(2), class(3)));
        refused(&by_job(), &input, Refusal::TotalLarge);
        let two = Query::new().group([total("1", "4"), pair("2", "5"), total("2", "3")], [pair("1", "1")]);
        refused(&two, &input, Refusal::TotalLarge);
        assert!(run(&Query::new().group([total("1", "3")], [pair("1", "1")]), &input).is_ok());
    }
}

#[test]
fn totals_and_aggregates_merge_in_list_order() {
    let input = "[v{2:[10, 12]}]";
    let group = |pairs: Vec<Pair>| Query::new().group(pairs, []);
    gives(&group(vec![pair("2", "3"), total("2", "3")]), input, "[v{3:[22, 12]}]");
    gives(&group(vec![total("2", "3"), pair("2", "3")]), input, "[v{3:[10, 12]}]");
    gives(&group(vec![total("2", "3"), total("2", "3.4")]), input, "[v{3:[22{4:[22]}]}]");
    let key = Query::new().group([total("2", "1")], [pair("1", "1")]);
    gives(&key, "[v{1:[7, 8], 2:[10]}]", "[v{1:[7, 8]}]");
}

#[test]
fn eight_pairs_of_both_kinds_are_allowed_and_a_total_as_the_ninth_is_not() {
    let pairs = |count: usize| -> Vec<Pair> {
        let destination = |at: usize| format!("{}", at + 11);
        let of =
            |at: usize| if at % 2 == 0 { total("2", &destination(at)) } else { pair("2", &destination(at)) };
        (0..count).map(of).collect()
    };
    let eight = Query::new().group(pairs(8), []);
    gives(
        &eight,
        "[v{2:[1, 2]}]",
        "[v{11:[3], 12:[1, 2], 13:[3], 14:[1, 2], 15:[3], 16:[1, 2], 17:[3], 18:[1, 2]}]",
    );
    let nine = BuildError::Count { what: "aggregates", found: 9, least: 0, most: 8 };
    assert_eq!(Query::new().group(pairs(9), []).encode(), Err(nine));
}

#[test]
fn a_total_may_be_matched_unwound_and_grouped_by() {
    let input = "[v{1:[7], 2:[5]}, v{1:[8], 2:[6]}, v{1:[7], 2:[1]}, v{1:[9], 2:[4, 1]}]";
    let totals = "[v{1:[7], 3:[6]}, v{1:[8], 3:[6]}, v{1:[9], 3:[5]}]";
    gives(&by_job(), input, totals);
    gives(&by_job().unwind(path("3")), input, totals);
    let six = by_job().matching(Criterion::equal(path("3"), [6]));
    gives(&six, input, "[v{1:[7], 3:[6]}, v{1:[8], 3:[6]}]");
    gives(
        &by_job().group([pair("1", "1")], [pair("3", "2")]),
        input,
        "[v{1:[7, 8], 2:[6]}, v{1:[9], 2:[5]}]",
    );
    gives(&by_job().group([total("3", "2")], []), input, "[v{2:[17]}]");
}

#[test]
fn a_tree_with_a_total_bears_the_position_of_its_first_member() -> Result<(), Error> {
    let mut work = vec![0xaa; limits::WORK];
    let input = array("[v, v{1:[7], 2:[5]}, v{1:[8], 2:[6]}, v{1:[7], 2:[1]}]");
    let lines = Engine::new(&mut work).run_lines(&by_job(), &input, &Array::new())?;
    let lines: Vec<String> = lines.iter().map(|line| format!("{} {}", line.position, line.tree)).collect();
    assert_eq!(lines, ["1 v", "2 v{1:[7], 3:[6]}", "3 v{1:[8], 3:[6]}"]);
    Ok(())
}

/// What the sums of an accepted grouping add to is the sum over the array that entered.
#[test]
fn totals_of_all_classes_add_to_the_whole() {
    let input = "[v{1:[7], 2:[5, 9]}, v{2:[-20]}, v{1:[8], 2:[6]}, v{1:[7], 2:[1]}]";
    gives(&by_job(), input, "[v{3:[-20]}, v{1:[7], 3:[15]}, v{1:[8], 3:[6]}]");
    gives(&sum(), input, "[v{3:[1]}]");
}

/// One tree with integers under 2 whose sum does not fit, and so many voids under 1.
fn past(voids: usize) -> Array {
    let tree = Tree::void().with(1, vec![Tree::void(); voids]);
    let tree = tree.and_then(|tree| tree.with(2, [i64::MAX, 1])).expect("a tree within the limits");
    Array::from([tree])
}

/// The query, and behind it a stage whose every tree has over 2,400 bytes.
fn large(query: Query) -> Query {
    query.project([Item::place(Data::literal(vec![Tree::void(); 400]), path("1"))])
}

#[test]
fn nine_goes_before_twelve() {
    // behind the unwind each tree has 54 bytes
    let query = || Query::new().unwind(path("1")).group([total("2", "3")], []);
    refused(&query(), &past(303), Refusal::TotalLarge);
    refused(&query(), &past(304), Refusal::GroupLong);
    refused(&large(query()), &past(304), Refusal::GroupLong);
}

#[test]
fn twelve_goes_before_every_eight_of_its_stretch() {
    refused(&large(sum()), &past(1), Refusal::TotalLarge);
    refused(&large(sum()).group([], []), &past(1), Refusal::TotalLarge);
    // trees of the group itself: by a pair before the total, by one behind it, in another class
    let twice = || pair("1", "1.1");
    let two: Array = past(200).into_iter().chain(past(200)).collect();
    refused(&Query::new().group([twice()], []), &two, Refusal::TreeLarge);
    refused(&Query::new().group([twice(), total("2", "3")], []), &two, Refusal::TotalLarge);
    refused(&Query::new().group([total("2", "3"), twice()], []), &two, Refusal::TotalLarge);
    let voids = Tree::void().with(1, vec![Tree::void(); 200]).expect("a tree within the limits");
    let other: Array = [voids.clone(), voids].into_iter().chain(past(0)).collect();
    refused(&Query::new().group([twice(), total("2", "3")], [pair("2", "2")]), &other, Refusal::TotalLarge);
}

#[test]
fn an_eight_of_the_stretch_before_goes_first() {
    refused(&large(Query::new()).group([total("2", "3")], []), &past(1), Refusal::TreeLarge);
    let behind_a_group = large(Query::new().group([pair("2", "2")], []));
    refused(&behind_a_group.group([total("2", "3")], []), &past(1), Refusal::TreeLarge);
    let kept = Query::new().group([pair("2", "2")], []).group([total("2", "3")], []);
    refused(&kept, &past(1), Refusal::TotalLarge);
}

/// 12 clears all three areas, of whatever length, and has no length.
#[test]
fn twelve_leaves_zeros() {
    let (query, input) = (sum().encode().expect("a query"), past(0).encode().expect("an array"));
    for (work, result, positions) in [(limits::WORK, 0, limits::POSITIONS), (70_000, 20_000, 9_999)] {
        let (mut work, mut result) = (vec![0xaa; work], vec![0xbb; result]);
        let mut positions = vec![0xcccc; positions];
        let outcome = Engine::new(&mut work).run(&query, &input, &[1, 0, 0], &mut result, &mut positions);
        assert_eq!(outcome, Err(Refusal::TotalLarge));
        assert!(work.iter().chain(&result).all(|byte| *byte == 0));
        assert!(positions.iter().all(|entry| *entry == 0));
    }
}

#[test]
fn a_total_is_no_grouping_pair() {
    for grouping in [vec![total("1", "1")], vec![pair("1", "1"), total("2", "2")]] {
        assert_eq!(Query::new().group([], grouping).encode(), Err(BuildError::TotalInGrouping));
    }
    // the same by its bytes: field 50 or 51 with one pair of label 1 to label 1
    let group = |lists: &[u8]| [&[16, 0, 20, 20, 0, 17], lists].concat();
    let pair = |tag: u8| [tag, 0, 8, 32, 0, 1, 1, 32, 0, 1, 1];
    let aggregate = |tag: u8| group(&[&[50, 0, 11][..], &pair(tag), &[51, 0, 0]].concat());
    let grouping = |tag: u8| group(&[&[50, 0, 0, 51, 0, 11][..], &pair(tag)].concat());
    assert_eq!([49, 54].map(|tag| check_query(&aggregate(tag))), [Ok(()), Ok(())]);
    assert_eq!([49, 54].map(|tag| check_query(&grouping(tag))), [Ok(()), Err(Refusal::QueryMalformed)]);
    for tag in [48, 50, 52, 53, 55] {
        assert_eq!(check_query(&aggregate(tag)), Err(Refusal::QueryMalformed), "tag {tag}");
    }
}

#[test]
fn a_regrouping_takes_no_total() {
    let mut work = vec![0xaa; limits::WORK];
    let mut engine = Engine::new(&mut work);
    let list = array("[v{1:[7], 3:[5]}]");
    for query in [by_job(), sum(), Query::new().group([pair("2", "2"), total("2", "3")], [])] {
        let outcome = engine.regroup_trees(&query, &list, &list);
        assert_eq!(outcome, Err(Error::Regroup(Refusal::QueryMalformed)), "{query:?}");
        // 3 is tested before the arrays
        let query = query.encode().expect("a query");
        let mut result = [0xbb; 9];
        assert_eq!(engine.regroup(&query, &[], &[], &mut result), Err(Refusal::QueryMalformed));
        assert_eq!(result, [0xbb; 9]);
    }
}

#[test]
fn a_query_for_trays_has_no_total_in_its_group() {
    let words = |query: Query| Trays::new(&query).map_err(|unfit| unfit.to_string());
    assert_eq!(
        words(by_job()),
        Err("aggregate 1 of the last group is a total; for trays none may be one".to_string())
    );
    let second = Query::new().unwind(path("2")).group([pair("2", "2"), total("2", "3")], [pair("1", "1")]);
    assert_eq!(Trays::new(&second), Err(Unfit::Total(2)));
}

#[test]
fn mistakes_and_refusals_have_words() {
    assert_eq!(Refusal::TotalLarge.number(), 12);
    let words = "refused 12: a total does not fit a signed 64-bit integer";
    assert_eq!(Refusal::TotalLarge.to_string(), words);
    assert_eq!(TrayCause::Run(Refusal::TotalLarge).to_string(), words);
    assert_eq!(
        Query::new().group([Pair::total(path("1"), Path::empty())], []).encode(),
        Err(BuildError::DestinationEmpty("total"))
    );
    assert_eq!(
        BuildError::TotalInGrouping.to_string(),
        "a total among the grouping pairs; it may only be an aggregate"
    );
}
