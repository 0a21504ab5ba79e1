//! The builders against byte forms written by hand from document 01's rules.

use tquery::{Array, Criterion, Data, Item, Pair, Path, Query, Stage, Tree};

type Outcome = Result<(), Box<dyn std::error::Error>>;

/// The bytes of hexadecimal digits; spaces are free.
fn hex(digits: &str) -> Vec<u8> {
    let digits: Vec<u32> = digits.chars().filter_map(|c| c.to_digit(16)).collect();
    digits.chunks(2).map(|pair| (pair[0] * 16 + pair[1]) as u8).collect()
}

fn path(text: &str) -> Path {
    text.parse().expect("a path")
}

fn array(text: &str) -> Array {
    text.parse().expect("an array")
}

/// What stands in a query of one stage, behind the query's head.
fn stage(stage: Stage) -> Vec<u8> {
    let bytes = Query::new().stage(stage).encode().expect("a query");
    assert_eq!(tquery::check_query(&bytes), Ok(()));
    bytes[3..].to_vec()
}

/// What stands in a match, behind the heads of query and match.
fn criterion(criterion: Criterion) -> Vec<u8> {
    stage(Stage::matching(criterion))[3..].to_vec()
}

/// What stands in a project's only item, without the place's head and its path, label 1.
fn data(data: Data) -> Vec<u8> {
    let bytes = stage(Stage::project([Item::place(data, path("1"))]));
    assert_eq!(bytes[bytes.len() - 4..], hex("20 0001 01"));
    bytes[6..bytes.len() - 4].to_vec()
}

#[test]
fn the_query_of_no_stage_and_the_empty_array() -> Outcome {
    assert_eq!(Query::new().encode()?, hex("10 0000"));
    assert_eq!(Array::new().encode()?, hex("01 0000"));
    Ok(())
}

#[test]
fn p9_is_30_bytes() -> Outcome {
    let form = hex("01 001b 02 0018 03 0000 07 0012 01 01 000e 02 000b 05 0008 0000000000000007");
    assert_eq!(form.len(), 30);
    assert_eq!(Array::from([Tree::void().with(1, [7])?]).encode()?, form);
    assert_eq!(array("[v{1:[7]}]").encode()?, form);
    assert_eq!(Array::decode(&form)?.to_string(), "[v{1:[7]}]");
    Ok(())
}

#[test]
fn roots() -> Outcome {
    assert_eq!(array("[v]").encode()?, hex("01 0006 02 0003 03 0000"));
    assert_eq!(array("[true, false]").encode()?, hex("01 000e 02 0004 04 0001 01 02 0004 04 0001 00"));
    assert_eq!(array("[-3]").encode()?, hex("01 000e 02 000b 05 0008 fffffffffffffffd"));
    assert_eq!(array(r#"["", "ab"]"#).encode()?, hex("01 000e 02 0003 06 0000 02 0005 06 0002 6162"));
    Ok(())
}

#[test]
fn labels_rise_however_they_were_given() -> Outcome {
    let tree = Tree::void().with(2, Array::new())?.with(1, Array::new())?;
    let form = hex("01 0014 02 0011 03 0000 07 0004 01 01 0000 07 0004 02 01 0000");
    assert_eq!(Array::from([tree]).encode()?, form);
    Ok(())
}

#[test]
fn p1_exists() {
    assert_eq!(stage(Stage::matching(Criterion::exists(path("1")))), hex("11 0007 22 0004 20 0001 01"));
    assert_eq!(criterion(Criterion::exists(path("1.2"))), hex("22 0005 20 0002 0102"));
    assert_eq!(criterion(Criterion::exists(path("ε"))), hex("22 0003 20 0000"));
}

#[test]
fn criteria() {
    let yes = Criterion::always;
    assert_eq!(criterion(yes()), hex("21 0000"));
    assert_eq!(criterion(Criterion::equal(path("1"), Array::new())), hex("23 0007 20 0001 01 01 0000"));
    assert_eq!(criterion(Criterion::same(path("1"), path("2"))), hex("24 0008 20 0001 01 20 0001 02"));
    assert_eq!(criterion(yes().not()), hex("25 0003 21 0000"));
    assert_eq!(criterion(yes().and(yes().not())), hex("26 0009 21 0000 25 0003 21 0000"));
    assert_eq!(criterion(yes().or(yes())), hex("27 0006 21 0000 21 0000"));
}

#[test]
fn p2_and_p3_unwind() {
    assert_eq!(stage(Stage::unwind(path("1"))), hex("12 0004 20 0001 01"));
    assert_eq!(stage(Stage::unwind(path("1.2"))), hex("12 0005 20 0002 0102"));
}

#[test]
fn p4_keep_and_place() {
    let items = [Item::keep(Path::empty()), Item::place(array("[v]"), path("1"))];
    let form = hex("13 0019 2f 0003 20 0000 30 0010 28 0009 01 0006 02 0003 03 0000 20 0001 01");
    assert_eq!(stage(Stage::project(items)), form);
}

#[test]
fn p5_place_along_a_path() {
    let items = [Item::place(array("[1]"), path("4.5"))];
    let form = hex("13 001c 30 0019 28 0011 01 000e 02 000b 05 0008 0000000000000001 20 0002 0405");
    assert_eq!(stage(Stage::project(items)), form);
}

#[test]
fn all_data() {
    let bare = || Data::path(path("1"));
    assert_eq!(data(bare()), hex("29 0004 20 0001 01"));
    assert_eq!(data(Data::literal(Array::new())), hex("28 0003 01 0000"));
    assert_eq!(data(Data::list([bare(), bare()])), hex("2a 000e 29 0004 20 0001 01 29 0004 20 0001 01"));
    assert_eq!(data(Criterion::always().into()), hex("2b 0003 21 0000"));
    let choice = Data::choice(Criterion::always(), path("1"), Array::new());
    assert_eq!(data(choice), hex("2c 0010 21 0000 29 0004 20 0001 01 28 0003 01 0000"));
}

#[test]
fn p6_group() {
    let group = Stage::group([Pair::same(path("2"))], [Pair::same(path("1"))]);
    let form = hex("14 001c 32 000b 31 0008 20 0001 02 20 0001 02 33 000b 31 0008 20 0001 01 20 0001 01");
    assert_eq!(stage(group), form);
    assert_eq!(stage(Stage::group([], [])), hex("14 0006 32 0000 33 0000"));
}

/// A total has tag 54, 36 in hexadecimal, and the same two paths; pairs of both kinds stand in list order.
#[test]
fn totals() {
    let total = Pair::total(path("2"), path("3"));
    let form = hex("14 0011 32 000b 36 0008 20 0001 02 20 0001 03 33 0000");
    assert_eq!(stage(Stage::group([total.clone()], [])), form);
    let both = Stage::group([Pair::same(path("2")), total, Pair::same(path("4"))], []);
    let pairs = "31 0008 20 0001 02 20 0001 02 36 0008 20 0001 02 20 0001 03 31 0008 20 0001 04 20 0001 04";
    let form = hex(&format!("14 0027 32 0021 {pairs} 33 0000"));
    assert_eq!(stage(both), form);
    let along = Stage::group([Pair::total(Path::empty(), path("5.6"))], []);
    assert_eq!(stage(along), hex("14 0011 32 000b 36 0008 20 0000 20 0002 0506 33 0000"));
}

#[test]
fn p7_lookup() {
    let lookup = Stage::lookup(path("1"), path("1"), path("3"));
    assert_eq!(stage(lookup), hex("15 000c 20 0001 01 20 0001 01 20 0001 03"));
}

#[test]
fn p8_reduced() {
    assert_eq!(data(Data::reduced(path("1"), 10)), hex("2d 0009 20 0001 01 2e 0002 000a"));
    assert_eq!(data(Data::reduced(path("1"), 10_000)), hex("2d 0009 20 0001 01 2e 0002 2710"));
}

/// The query of host/c/worklist.c.
#[test]
fn stages_stand_one_behind_another() -> Outcome {
    let query = Query::new().matching(Criterion::exists(path("2"))).unwind(path("3"));
    assert_eq!(query.encode()?, hex("10 0011 11 0007 22 0004 20 0001 02 12 0004 20 0001 03"));
    let same: Query = query.stages().iter().cloned().collect();
    assert_eq!(same, query);
    Ok(())
}
