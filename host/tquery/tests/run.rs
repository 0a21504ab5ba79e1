//! Runs through the engine: document 01's examples, and each refusal.

use tquery::{check_array, check_query, limits};
use tquery::{Array, Criterion, Data, Engine, Error, Item, Pair, Path, Query, Refusal, Tree};

fn path(text: &str) -> Path {
    text.parse().expect("a path")
}

fn array(text: &str) -> Array {
    text.parse().expect("an array")
}

/// What a query gives, with a joined array.
fn joining(query: Query, input: &str, joined: &str) -> Result<String, Error> {
    let mut work = vec![0xaa; limits::WORK];
    let result = Engine::new(&mut work).run_trees(&query, &array(input), &array(joined))?;
    assert!(work.iter().all(|byte| *byte == 0), "the work area is zero after a run");
    Ok(result.to_string())
}

/// What a query gives.
fn run(query: Query, input: &str) -> Result<String, Error> {
    joining(query, input, "[]")
}

fn gives(outcome: Result<String, Error>, notation: &str) {
    assert_eq!(outcome.as_deref(), Ok(notation));
}

#[test]
fn no_stage_gives_the_input() {
    let input = r#"[v{1:[5, 6], 2:[]}, true, "text", -3{1:[v]}]"#;
    gives(run(Query::new(), input), input);
}

#[test]
fn p1_exists() {
    let input = "[v{1:[]}]";
    let exists = |p: &str| Query::new().matching(Criterion::exists(path(p)));
    gives(run(exists("1"), input), input);
    gives(run(exists("1.2"), input), input);
    gives(run(exists("2"), input), "[]");
}

#[test]
fn p2_unwind() {
    let query = Query::new().unwind(path("1"));
    gives(run(query, "[v{1:[5, 6]}, v{2:[9]}, v{1:[]}]"), "[v{1:[5]}, v{1:[6]}]");
}

#[test]
fn p3_unwind_along_a_path() {
    let query = Query::new().unwind(path("1.2"));
    gives(
        run(query, "[v{1:[v{2:[5, 6]}, v{2:[7]}]}]"),
        "[v{1:[v{2:[5]}]}, v{1:[v{2:[6]}]}, v{1:[v{2:[7]}]}]",
    );
}

/// The merge of the tree, kept whole, with two places.
#[test]
fn p4_merge() {
    let query = Query::new().project([
        Item::keep(Path::empty()),
        Item::place(array("[6]"), path("1")),
        Item::place(array("[7]"), path("2")),
    ]);
    gives(run(query, "[3{1:[4, 5]}]"), "[3{1:[6, 5], 2:[7]}]");
}

#[test]
fn p5_place() {
    let query = Query::new().project([Item::place(array("[1]"), path("4.5"))]);
    gives(run(query, "[v]"), "[v{4:[v{5:[1]}]}]");
}

#[test]
fn p6_group() {
    let query = Query::new().group([Pair::same(path("2"))], [Pair::same(path("1"))]);
    gives(run(query, "[v{1:[1], 2:[10]}, v{2:[11]}, v{1:[1], 2:[12]}]"), "[v{2:[11]}, v{1:[1], 2:[10, 12]}]");
}

#[test]
fn p7_lookup() {
    let query = Query::new().lookup(path("1"), path("1"), path("3"));
    gives(
        joining(query, "[v{1:[1]}, v{2:[2]}]", "[v{1:[1], 4:[8]}, v{4:[9]}]"),
        "[v{1:[1], 3:[v{1:[1], 4:[8]}]}, v{2:[2], 3:[v{4:[9]}]}]",
    );
}

#[test]
fn p8_reduced() {
    let query = Query::new().project([Item::place(Data::reduced(path("1"), 10), path("1"))]);
    gives(run(query, "[v{1:[25, 24, -25, -24]}]"), "[v{1:[3, 2, -3, -2]}]");
}

#[test]
fn data_of_every_kind() {
    let has = || Criterion::exists(path("1"));
    let query = Query::new().project([
        Item::place(Data::list([path("1").into(), array("[0]").into()]), path("2")),
        Item::place(has(), path("3")),
        Item::place(Data::choice(has().not(), array(r#"["none"]"#), path("1")), path("4")),
    ]);
    gives(run(query, "[v{1:[5]}, 6]"), r#"[v{2:[5, 0], 3:[true], 4:[5]}, v{2:[0], 3:[false], 4:["none"]}]"#);
}

/// 100 bare voids under 1 and under 2.
fn hundreds() -> Array {
    let voids = || Array::from(vec![Tree::void(); 100]);
    let tree = Tree::void().with(1, voids()).and_then(|tree| tree.with(2, voids()));
    Array::from([tree.expect("a tree within the limits")])
}

#[test]
fn ten_thousand_trees_may_pass() {
    let unwound = Query::new().unwind(path("1")).unwind(path("2"));
    let mut work = vec![0; limits::WORK];
    let mut engine = Engine::new(&mut work);
    let mut run = |query: Query| engine.run_trees(&query, &hundreds(), &Array::new());
    assert_eq!(run(unwound.clone().matching(Criterion::always().not())), Ok(Array::new()));
    assert_eq!(run(unwound.clone().group([], [])), Err(Error::Refused(Refusal::GroupLong)));
    assert_eq!(run(unwound), Err(Error::Refused(Refusal::ResultLong)));
}

#[test]
fn arrays_at_the_limits() {
    let voids = |count, text: &str| {
        let text = Tree::text(text).expect("a text");
        (0..count).map(|_| Tree::void()).chain([text]).collect::<Array>()
    };
    let tree = Tree::void().with(1, voids(338, "a")).expect("2,048 bytes");
    assert_eq!(tree.size(), limits::TREE);
    assert_eq!(check_array(&Array::from([tree]).encode().expect("an array")), Ok(()));
    assert!(Tree::void().with(1, voids(338, "ab")).is_err());

    let full = voids(2_729, "a").encode().expect("16,384 bytes");
    assert_eq!((full.len(), check_array(&full)), (limits::ARRAY, Ok(())));
    assert!(voids(2_729, "ab").encode().is_err());
}

/// The outcome of one call, and whether it left the areas as the table says.
struct Call {
    query: Vec<u8>,
    input: Vec<u8>,
    joined: Vec<u8>,
    work: usize,
    result: usize,
    /// In entries.
    positions: usize,
}

impl Call {
    fn new() -> Call {
        let empty = vec![1, 0, 0];
        Call {
            query: vec![16, 0, 0],
            input: empty.clone(),
            joined: empty,
            work: limits::WORK,
            result: 3,
            positions: limits::POSITIONS,
        }
    }

    /// Calls, compares the areas with the table, and gives the number.
    fn number(&self) -> u32 {
        let (mut work, mut result) = (vec![0xaa; self.work], vec![0xaa; self.result]);
        let mut positions = vec![0xaaaa; self.positions];
        let outcome =
            Engine::new(&mut work).run(&self.query, &self.input, &self.joined, &mut result, &mut positions);
        let number = outcome.map_or_else(Refusal::number, |_| 0);
        let all = |area: &[u8], value| area.iter().all(|byte| *byte == value);
        assert!(all(&work, if matches!(number, 1 | 11) { 0xaa } else { 0 }), "the work area after {number}");
        let left = if matches!(number, 8..=10 | 12) { 0 } else { 0xaa };
        assert!(number == 0 || all(&result, left), "the result area after {number}");
        let left = u16::from_ne_bytes([left; 2]);
        let kept = positions.iter().all(|entry| *entry == left);
        assert!(number == 0 || kept, "the position area after {number}");
        number
    }
}

#[test]
fn every_refusal_is_reached() {
    let twice = Query::new()
        .project([Item::keep(path("1")), Item::place(path("1"), path("2"))])
        .encode()
        .expect("a query");
    let grouped = Query::new().unwind(path("1")).unwind(path("2")).group([], []).encode().expect("a query");
    let total = Query::new().group([Pair::total(path("1"), path("1"))], []).encode().expect("a query");
    let past = array("[v{1:[9223372036854775807, 1]}]").encode().expect("an array");
    let big = Tree::void().with(1, Array::from(vec![Tree::void(); 300])).expect("a tree");
    let big = Array::from([big]).encode().expect("an array");
    let hundreds = hundreds().encode().expect("an array");

    assert_eq!(Call::new().number(), 0);
    assert_eq!(Call { work: limits::WORK - 1, ..Call::new() }.number(), 1);
    assert_eq!(Call { positions: limits::POSITIONS - 1, ..Call::new() }.number(), 11);
    assert_eq!(Call { positions: 0, query: vec![], ..Call::new() }.number(), 11);
    assert_eq!(Call { query: vec![16; limits::QUERY + 1], ..Call::new() }.number(), 2);
    assert_eq!(Call { query: vec![16, 0, 1, 0], ..Call::new() }.number(), 3);
    assert_eq!(Call { input: vec![1; limits::ARRAY + 1], ..Call::new() }.number(), 4);
    assert_eq!(Call { input: vec![], ..Call::new() }.number(), 5);
    assert_eq!(Call { joined: vec![1; limits::ARRAY + 1], ..Call::new() }.number(), 6);
    assert_eq!(Call { joined: vec![], ..Call::new() }.number(), 7);
    let far = 70_000;
    assert_eq!(Call { query: twice, input: big, result: 9_999, positions: far, ..Call::new() }.number(), 8);
    assert_eq!(Call { query: grouped, input: hundreds, positions: far, ..Call::new() }.number(), 9);
    assert_eq!(Call { result: 2, positions: far, ..Call::new() }.number(), 10);
    assert_eq!(Call { query: total, input: past, result: 9_999, positions: far, ..Call::new() }.number(), 12);
    assert_eq!(Call { result: 0, work: 0, positions: 0, ..Call::new() }.number(), 1);
}

#[test]
fn checks_refuse_by_the_same_numbers() {
    assert_eq!(check_query(&[16, 0, 0]), Ok(()));
    assert_eq!(check_query(&[16; limits::QUERY + 1]), Err(Refusal::QueryLong));
    assert_eq!(check_query(&[]), Err(Refusal::QueryMalformed));
    assert_eq!(check_array(&[1, 0, 0]), Ok(()));
    assert_eq!(check_array(&[1; limits::ARRAY + 1]), Err(Refusal::InputLong));
    assert_eq!(check_array(&[1, 0]), Err(Refusal::InputMalformed));
}

#[test]
fn refusals_have_numbers_and_words() {
    assert_eq!(Refusal::WorkShort.to_string(), "refused 1: work area under 65,536 bytes");
    assert_eq!(Refusal::TreeLarge.to_string(), "refused 8: tree too large in a stretch");
    assert_eq!(Refusal::PositionsShort.to_string(), "refused 11: position area under 2,730 entries");
    assert_eq!(Refusal::TotalLarge.to_string(), "refused 12: a total does not fit a signed 64-bit integer");
    let error: Box<dyn std::error::Error> = Box::new(Error::Refused(Refusal::QueryMalformed));
    assert_eq!(error.to_string(), "refused 3: query malformed");
}
