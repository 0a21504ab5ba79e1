//! Where the trees of a result came from: each stage, groups behind groups, and every entry of the area.

use tquery::{limits, Array, Criterion, Data, Engine, Error, Item, Pair, Path, Query, Tree};

fn path(text: &str) -> Path {
    text.parse().expect("a path")
}

fn array(text: &str) -> Array {
    text.parse().expect("an array")
}

/// The positions of the trees that a query gives, with a joined array.
fn joining(query: &Query, input: &str, joined: &str) -> Result<Vec<usize>, Error> {
    let mut work = vec![0xaa; limits::WORK];
    let lines = Engine::new(&mut work).run_lines(query, &array(input), &array(joined))?;
    Ok(lines.into_iter().map(|line| line.position).collect())
}

fn bears(query: Query, input: &str, positions: &[usize]) {
    assert_eq!(joining(&query, input, "[]").as_deref(), Ok(positions));
}

fn by(labels: &[&str]) -> (Vec<Pair>, Vec<Pair>) {
    (vec![], labels.iter().map(|label| Pair::same(path(label))).collect())
}

#[test]
fn positions_begin_with_1() {
    bears(Query::new(), "[]", &[]);
    bears(Query::new(), "[7, 7, 8]", &[1, 2, 3]);
}

#[test]
fn each_stage_hands_them_on() -> Result<(), Error> {
    let input = "[v, v{1:[5, 6]}, v{1:[]}, v{1:[7]}]";
    bears(Query::new().matching(Criterion::exists(path("1"))), input, &[2, 3, 4]);
    bears(Query::new().unwind(path("1")), input, &[2, 2, 4]);
    bears(Query::new().unwind(Path::empty()), input, &[1, 2, 3, 4]);
    bears(Query::new().project([Item::place(Data::path(path("1")), path("2"))]), input, &[1, 2, 3, 4]);
    let lookup = Query::new().unwind(path("1")).lookup(path("1"), path("1"), path("2"));
    assert_eq!(joining(&lookup, input, "[v{1:[6]}, v{1:[6]}]")?, [2, 2, 4]);
    Ok(())
}

#[test]
fn a_groups_tree_bears_the_position_of_its_first_member() {
    let (none, one) = by(&["1"]);
    let group = Query::new().group(none, one);
    bears(group.clone(), "[]", &[]);
    bears(group.clone(), "[v{1:[8]}, v{1:[7]}, 4, v{1:[8]}, 3, v{1:[7]}]", &[3, 1, 2]);
    bears(group.unwind(path("1")), "[v{1:[8]}, v{1:[7]}, v{1:[8]}]", &[1, 2]);
    bears(Query::new().matching(Criterion::exists(path("2"))).group([], []), "[1, v{2:[]}, v{2:[]}]", &[2]);
}

/// The first group gives v{1:[5]} of tree 2, and behind it v{1:[5], 2:[6]} of tree 1. Both are in one class of the
/// second, and the first member is tree 2's.
#[test]
fn behind_a_group_the_first_member_need_not_bear_the_smallest_position() {
    let ((none, two), (_, one)) = (by(&["1", "2"]), by(&["1"]));
    let query = Query::new().group(none.clone(), two);
    bears(query.clone(), "[v{1:[5], 2:[6]}, v{1:[5]}]", &[2, 1]);
    bears(query.group(none, one), "[v{1:[5], 2:[6]}, v{1:[5]}]", &[2]);
}

#[test]
fn an_array_full_of_trees_has_an_entry_for_each() {
    let voids = Array::from(vec![Tree::void(); limits::POSITIONS]).encode().expect("16,383 bytes");
    let query = Query::new().matching(Criterion::always()).encode().expect("a query");
    for length in [limits::POSITIONS, limits::POSITIONS + 1, 70_000] {
        let (mut work, mut result) = (vec![0xaa; limits::WORK], vec![0xbb; limits::ARRAY]);
        let mut positions = vec![0xaaaa; length];
        let outcome = Engine::new(&mut work).run(&query, &voids, &[1, 0, 0], &mut result, &mut positions);
        assert_eq!(outcome, Ok(voids.len()));
        let (entries, later) = positions.split_at(limits::POSITIONS);
        assert!(entries.iter().zip(1..).all(|(entry, position)| *entry == position));
        assert!(later.iter().all(|entry| *entry == 0xaaaa), "later entries are as they were");
    }
}

#[test]
fn later_entries_are_as_they_were() {
    let (query, input) = (Query::new().unwind(path("1")), array("[v{1:[5]}, v, v{1:[6, 7]}]"));
    let (query, input) = (query.encode().expect("a query"), input.encode().expect("an array"));
    let (mut work, mut result) = (vec![0xaa; limits::WORK], vec![0xbb; limits::ARRAY]);
    let mut positions: Vec<u16> = (0..3_000).collect();
    let outcome = Engine::new(&mut work).run(&query, &input, &[1, 0, 0], &mut result, &mut positions);
    assert!(outcome.is_ok());
    assert_eq!(positions[..3], [1, 3, 3]);
    assert!(positions[3..].iter().zip(3..).all(|(entry, before)| *entry == before));
}
