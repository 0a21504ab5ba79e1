//! Days in trays: which queries are good for them, the list, and trays that are refused.

use tquery::{limits, Array, Criterion, Engine, Error, Item, Pair, Path, Query};
use tquery::{Refusal, TrayCause, TrayError, Trays, Tree, Unfit};

fn path(text: &str) -> Path {
    text.parse().expect("a path")
}

fn pair(source: &str, destination: &str) -> Pair {
    Pair::new(path(source), path(destination))
}

fn bytes(array: &Array) -> Vec<u8> {
    array.encode().expect("an array")
}

/// The list of trays by a query.
fn list(query: &Query, trays: &[Array]) -> Result<Trays, TrayError> {
    let mut work = vec![0; limits::WORK];
    let mut engine = Engine::new(&mut work);
    let mut day = Trays::new(query).expect("a query for trays");
    for tray in trays {
        day.run(&mut engine, &bytes(tray), &[1, 0, 0])?;
    }
    Ok(day)
}

#[test]
fn queries_that_are_good_for_trays() {
    let matching = || Query::new().matching(Criterion::always());
    for query in [
        Query::new(),
        matching(),
        matching().unwind(path("1")).lookup(path("1"), path("1"), path("2.3")),
        Query::new().group([], []),
        matching().group([pair("1", "1"), pair("2.2", "3")], [pair("ε", "2")]),
    ] {
        assert_eq!(Trays::new(&query).map(|day| day.come()), Ok(0), "{query:?}");
        let whole = Trays::of_bytes(&query.encode().expect("a query"));
        assert_eq!(whole, Trays::new(&query));
    }
}

#[test]
fn other_queries_are_an_error_in_words() {
    let words = |query: Query| Trays::new(&query).map_err(|unfit| unfit.to_string());
    let error = |words: &str| Err(words.to_string());
    let group = || Query::new().unwind(path("1")).group([pair("1", "1")], []);
    assert_eq!(
        words(group().matching(Criterion::always())),
        error("stage 2 is a group and not the last stage; for trays only the last may be one")
    );
    assert_eq!(
        words(group().group([], [])),
        error("stage 2 is a group and not the last stage; for trays only the last may be one")
    );
    assert_eq!(
        words(Query::new().group([], [pair("1", "1.2.3")])),
        error("a destination of the last group has 3 labels; for trays each has one")
    );
    assert_eq!(
        words(Query::new().group([pair("1", "3")], [pair("2", "3")])),
        error("two destinations of the last group are label 3; for trays all are distinct")
    );
    assert_eq!(
        words(Query::new().group([pair("1", "1"), Pair::total(path("2"), path("2"))], [])),
        error("aggregate 2 of the last group is a total; for trays none may be one")
    );
    assert_eq!(
        words(Query::new().project([])),
        error("the number of items of a project is 0; it runs from 1 to 16")
    );
    assert_eq!(Trays::of_bytes(&[16, 0, 1]), Err(Unfit::Refused(Refusal::QueryMalformed)));
    assert_eq!(Trays::of_bytes(&[16; limits::QUERY + 1]), Err(Unfit::Refused(Refusal::QueryLong)));
}

#[test]
fn the_empty_day_is_the_empty_array() -> Result<(), TrayError> {
    for query in [Query::new(), Query::new().group([], [])] {
        assert_eq!(list(&query, &[])?.arrays(), [[1, 0, 0]]);
        assert_eq!(list(&query, &[Array::new(), Array::new()])?.arrays(), [[1, 0, 0]]);
    }
    Ok(())
}

/// Trees of many sizes, as many as asked for.
fn trees(count: usize) -> Array {
    let tree = |at: usize| Tree::void().with(1, vec![Tree::integer(at as i64); 1 + at * 7 % 50]);
    (0..count).map(|at| tree(at).expect("a tree")).collect()
}

/// Trees parted into trays of so many.
fn parted(trees: &Array, each: usize) -> Vec<Array> {
    trees.chunks(each).map(|chunk| chunk.iter().cloned().collect()).collect()
}

#[test]
fn a_list_without_a_group_has_no_limit_and_does_not_tell_how_the_day_was_parted() -> Result<(), Error> {
    let all = trees(1_000);
    assert!(all.size() > 10 * limits::ARRAY);
    let one = list(&Query::new(), &parted(&all, 1)).expect("a list");
    assert_eq!(one.trees()?, all);
    for each in [2, 7, 25] {
        let other = list(&Query::new(), &parted(&all, each)).expect("a list");
        assert_eq!(other.arrays(), one.arrays());
    }
    let arrays = one.arrays();
    assert!(arrays.iter().all(|array| tquery::check_array(array).is_ok()));
    for (array, next) in arrays.iter().zip(&arrays[1..]) {
        let first = usize::from(next[4]) * 256 + usize::from(next[5]) + 3;
        assert!(array.len() + first > limits::ARRAY, "the next tree would have fitted");
    }
    Ok(())
}

/// Records of which many share their keys; every fifth has none.
fn records(count: usize) -> Array {
    let record = |at: usize| {
        let tree = Tree::void().with(1, [at as i64])?;
        match at % 5 {
            0 => Ok(tree),
            rest => tree.with(2, [rest as i64 * 100 + at as i64 % 3]),
        }
    };
    (0..count).map(record).collect::<Result<Vec<_>, _>>().expect("records").into()
}

#[test]
fn a_grouped_list_is_that_of_all_records_however_they_are_parted() -> Result<(), Error> {
    let query = Query::new().group([pair("1", "2")], [pair("2", "1")]);
    let all = records(300);
    let mut work = vec![0; limits::WORK];
    let mut engine = Engine::new(&mut work);
    let whole = engine.run_trees(&query, &all, &Array::new())?;
    for each in [1, 2, 3, 50, 299, 300] {
        let day = list(&query, &parted(&all, each)).expect("a list");
        assert_eq!(day.trees()?, whole);
        assert_eq!(day.come(), 300_usize.div_ceil(each));
    }
    // a list of a part of the day is taken as one result
    let mut day = Trays::new(&query).expect("a query for trays");
    for part in parted(&all, 100) {
        let part = list(&query, &parted(&part, 7)).expect("a list");
        day.take(&mut engine, &part.arrays().concat()).expect("a list");
    }
    assert_eq!(day.trees()?, whole);
    Ok(())
}

#[test]
fn a_refused_tray_is_named_and_leaves_the_list_as_it_was() -> Result<(), Error> {
    let mut work = vec![0; limits::WORK];
    let mut engine = Engine::new(&mut work);
    let keyed = |key: i64| Array::from([Tree::void().with(1, [key]).expect("a tree")]);
    let query = Query::new().group([pair("2", "2")], [pair("1", "1")]);
    let mut day = Trays::new(&query).expect("a query for trays");
    day.run(&mut engine, &bytes(&keyed(7)), &[1, 0, 0]).expect("a tray");
    let before = day.arrays();

    let refused = day.run(&mut engine, &[], &[1, 0, 0]).expect_err("no tray");
    assert_eq!(refused, TrayError { tray: 2, cause: TrayCause::Run(Refusal::InputMalformed) });
    assert_eq!(refused.to_string(), "tray 2: refused 5: input malformed, tree limits included");
    let words = |day: &mut Trays, engine: &mut Engine, result: &[u8]| {
        let error = day.take(engine, result).expect_err("no result to join");
        error.to_string()
    };
    assert_eq!(
        words(&mut day, &mut engine, &[1, 0]),
        "tray 3: refused 5: result malformed, tree limits included"
    );
    assert_eq!(
        words(&mut day, &mut engine, &[1; limits::ARRAY + 1]),
        "tray 4: refused 4: result over 16,384 bytes"
    );
    let full = Array::from(vec![Tree::void(); 2_730]);
    assert_eq!(
        words(&mut day, &mut engine, &bytes(&full)),
        "tray 5: refused 9: the list so far and the result joined over 16,384 bytes"
    );
    let large = |key: i64| Tree::void().with(1, [key]).and_then(|tree| tree.with(2, vec![Tree::void(); 320]));
    let large = bytes(&Array::from([large(7).expect("a tree")]));
    day.take(&mut engine, &large).expect("a result");
    assert_eq!(words(&mut day, &mut engine, &large), "tray 7: refused 8: tree too large in the regrouping");

    assert_ne!(day.arrays(), before);
    day.run(&mut engine, &bytes(&keyed(8)), &[1, 0, 0]).expect("a tray");
    assert_eq!((day.trees()?.len(), day.come()), (2, 8));
    Ok(())
}

#[test]
fn a_result_that_is_no_array_is_refused_without_a_group_too() -> Result<(), Error> {
    let mut work = vec![0; limits::WORK];
    let mut engine = Engine::new(&mut work);
    let query = Query::new().project([Item::keep(path("1"))]);
    let mut day = Trays::new(&query).expect("a query for trays");
    day.take(&mut engine, &bytes(&trees(2))).expect("a result");
    for (result, refusal) in
        [(vec![1, 0, 1, 2], Refusal::InputMalformed), (vec![1; limits::ARRAY + 1], Refusal::InputLong)]
    {
        let refused = day.take(&mut engine, &result).expect_err("no array");
        assert_eq!(refused.cause, TrayCause::Join(refusal));
    }
    assert_eq!((day.trees()?, day.come()), (trees(2), 3));
    Ok(())
}
