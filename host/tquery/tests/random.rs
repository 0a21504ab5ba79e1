//! Random round trips, and this crate against the engine on random bytes and queries.

use tquery::{check_array, check_query, limits};
use tquery::{
    Array, Criterion, Data, Engine, Error, Item, Line, Pair, Path, Query, Refusal, Root, Stage, Text, Tree,
};

/// Marsaglia's xorshift, so that a failure can be made again.
struct Draws(u64);

impl Draws {
    fn draw(&mut self) -> u64 {
        self.0 ^= self.0 << 13;
        self.0 ^= self.0 >> 7;
        self.0 ^= self.0 << 17;
        self.0
    }

    /// A number below a bound.
    fn below(&mut self, bound: usize) -> usize {
        (self.draw() % bound as u64) as usize
    }

    fn byte(&mut self) -> u8 {
        self.draw() as u8
    }

    fn times<T>(&mut self, least: usize, most: usize, mut make: impl FnMut(&mut Draws) -> T) -> Vec<T> {
        let count = least + self.below(most - least + 1);
        (0..count).map(|_| make(self)).collect()
    }

    fn root(&mut self) -> Root {
        match self.below(6) {
            0 => Root::Boolean(self.below(2) == 1),
            1 => Root::Integer(self.draw() as i64),
            2 | 3 => Root::Integer(self.below(3) as i64),
            4 => Root::Text(Text::new(self.times(0, 6, Draws::byte)).expect("a short text")),
            _ => Root::Void,
        }
    }

    /// A tree with few labels, so that paths meet them.
    fn tree(&mut self, depth: usize) -> Tree {
        let mut tree = Tree::new(self.root());
        for label in 1..=3 {
            if depth > 0 && self.below(2) == 0 {
                let array: Array = self.times(0, 3, |draws| draws.tree(depth - 1)).into();
                // a label that would pass a limit is left out
                tree = tree.clone().with(label, array).unwrap_or(tree);
            }
        }
        tree
    }

    fn array(&mut self, most: usize) -> Array {
        let depth = self.below(4);
        self.times(0, most, |draws| draws.tree(depth)).into()
    }

    fn path(&mut self, least: usize) -> Path {
        Path::new(self.times(least, 3, |draws| 1 + draws.below(3) as u8)).expect("a short path")
    }

    fn criterion(&mut self, depth: usize) -> Criterion {
        match self.below(if depth == 0 { 4 } else { 7 }) {
            0 => Criterion::always(),
            1 => Criterion::exists(self.path(0)),
            2 => Criterion::equal(self.path(0), self.array(2)),
            3 => Criterion::same(self.path(0), self.path(0)),
            4 => self.criterion(depth - 1).not(),
            5 => self.criterion(depth - 1).and(self.criterion(depth - 1)),
            _ => self.criterion(depth - 1).or(self.criterion(depth - 1)),
        }
    }

    fn data(&mut self, depth: usize) -> Data {
        match self.below(if depth == 0 { 3 } else { 6 }) {
            0 => Data::literal(self.array(2)),
            1 => Data::path(self.path(0)),
            2 => Data::reduced(self.path(0), 1 + self.below(10_000) as u16),
            3 => Data::list(self.times(1, 3, |draws| draws.data(depth - 1))),
            4 => Data::criterion(self.criterion(depth - 1)),
            _ => Data::choice(self.criterion(depth - 1), self.data(depth - 1), self.data(depth - 1)),
        }
    }

    fn item(&mut self) -> Item {
        match self.below(2) {
            0 => Item::keep(self.path(0)),
            _ => Item::place(self.data(2), self.path(1)),
        }
    }

    fn pairs(&mut self) -> Vec<Pair> {
        self.times(0, 3, |draws| Pair::new(draws.path(0), draws.path(1)))
    }

    /// Pairs of which some are totals.
    fn aggregates(&mut self) -> Vec<Pair> {
        self.times(0, 3, |draws| {
            let kind = if draws.below(2) == 0 { Pair::new } else { Pair::total };
            kind(draws.path(0), draws.path(1))
        })
    }

    fn stage(&mut self) -> Stage {
        match self.below(5) {
            0 => Stage::group(self.aggregates(), self.pairs()),
            _ => self.stage_but_group(),
        }
    }

    fn stage_but_group(&mut self) -> Stage {
        match self.below(4) {
            0 => Stage::matching(self.criterion(3)),
            1 => Stage::unwind(self.path(0)),
            2 => Stage::project(self.times(1, 4, Draws::item)),
            _ => Stage::lookup(self.path(0), self.path(0), self.path(1)),
        }
    }
}

#[test]
fn trees_come_back_from_bytes_and_from_their_notation() {
    let mut draws = Draws(1);
    for _ in 0..3_000 {
        let array = draws.array(4);
        assert_eq!(array.to_string().parse(), Ok(array.clone()));
        let Ok(bytes) = array.encode() else { continue };
        assert_eq!(bytes.len(), array.size());
        assert_eq!(check_array(&bytes), Ok(()));
        assert_eq!(Array::decode(&bytes), Ok(array.clone()));
        for tree in &array {
            assert_eq!(tree.to_string().parse().as_ref(), Ok(tree));
            assert_eq!(Tree::decode(&tree.encode()).as_ref(), Ok(tree));
        }
    }
}

#[test]
fn decoding_takes_what_the_engine_accepts() {
    let mut draws = Draws(2);
    let mut accepted = 0;
    for _ in 0..20_000 {
        let Ok(mut bytes) = draws.array(3).encode() else {
            continue;
        };
        for _ in 0..=draws.below(2) {
            let at = draws.below(bytes.len());
            // mostly small changes: they keep a form that is nearly right
            bytes[at] = if draws.below(2) == 0 { draws.byte() } else { bytes[at].wrapping_add(1) };
        }
        let decoded = Array::decode(&bytes);
        assert_eq!(decoded.is_ok(), check_array(&bytes).is_ok(), "{bytes:02x?}: {decoded:?}");
        if let Ok(array) = decoded {
            accepted += 1;
            assert_eq!(array.encode(), Ok(bytes), "one array has one byte form");
        }
    }
    assert!(accepted > 1_000, "only {accepted} were accepted");
}

#[test]
fn what_is_built_is_a_query() {
    let mut draws = Draws(3);
    let mut built = 0;
    for _ in 0..5_000 {
        let query: Query = draws.times(0, 8, Draws::stage).into_iter().collect();
        if let Ok(bytes) = query.encode() {
            built += 1;
            assert_eq!(check_query(&bytes), Ok(()), "{query:?}");
        }
    }
    assert!(built > 1_000, "only {built} were built");
}

/// Document 01's cut: where both parts are accepted, the whole gives what they give.
#[test]
fn a_query_may_be_cut_anywhere() {
    let mut draws = Draws(4);
    let mut work = vec![0; limits::WORK];
    let mut engine = Engine::new(&mut work);
    let mut compared = 0;
    for _ in 0..3_000 {
        let stages = draws.times(1, 4, Draws::stage);
        let (first, second) = stages.split_at(draws.below(stages.len() + 1));
        let query = |stages: &[Stage]| stages.iter().cloned().collect::<Query>();
        let (input, joined) = (draws.array(6), draws.array(3));
        let Ok(between) = engine.run_trees(&query(first), &input, &joined) else {
            continue;
        };
        let Ok(last) = engine.run_trees(&query(second), &between, &joined) else {
            continue;
        };
        compared += usize::from(!last.is_empty());
        assert_eq!(engine.run_trees(&query(&stages), &input, &joined), Ok(last), "{stages:?}");
    }
    assert!(compared > 500, "only {compared} had a result to compare");
}

/// The integer roots of the trees that a path gives of a tree.
fn integers(tree: &Tree, path: &[u8]) -> Vec<i64> {
    match (path, tree.root()) {
        ([], Root::Integer(value)) => vec![*value],
        ([], _) => vec![],
        ([label, rest @ ..], _) => {
            let under = tree.get(*label).into_iter().flatten();
            under.flat_map(|tree| integers(tree, rest)).collect()
        }
    }
}

/// Document 02's totals: over an accepted grouping those of all classes add to the total over the array that entered.
#[test]
fn totals_of_all_classes_add_to_the_whole() {
    let mut draws = Draws(7);
    let mut work = vec![0; limits::WORK];
    let mut engine = Engine::new(&mut work);
    let apart = Path::new([200]).expect("a path");
    let (mut compared, mut refused) = (0, 0);
    for _ in 0..3_000 {
        let (source, input) = (draws.path(0), draws.array(8));
        let query = Query::new().group([Pair::total(source.clone(), apart.clone())], draws.pairs());
        let whole: Vec<i64> = input.iter().flat_map(|tree| integers(tree, source.labels())).collect();
        let sum = |values: &[i64]| values.iter().map(|value| i128::from(*value)).sum::<i128>();
        match engine.run_trees(&query, &input, &Array::new()) {
            Ok(classes) => {
                let totals: Vec<i64> =
                    classes.iter().flat_map(|tree| integers(tree, apart.labels())).collect();
                assert_eq!(sum(&totals), sum(&whole), "{query:?} over {input}");
                assert_eq!(totals.is_empty(), whole.is_empty(), "{query:?} over {input}");
                compared += usize::from(totals.len() > 1);
            }
            Err(error) => refused += usize::from(error == Error::Refused(Refusal::TotalLarge)),
        }
    }
    assert!(compared > 200 && refused > 20, "{compared} had totals to add, {refused} were refused with 12");
}

/// The lines that bear a position.
fn lines_of(lines: &[Line], position: usize) -> Vec<&Tree> {
    lines.iter().filter(|line| line.position == position).map(|line| &line.tree).collect()
}

/// Document 02's locality: a query without a group gives the same lines of a tree that stays, whatever becomes of the
/// others.
#[test]
fn a_job_that_stays_gives_the_same_lines() {
    let mut draws = Draws(6);
    let mut work = vec![0; limits::WORK];
    let mut engine = Engine::new(&mut work);
    let mut compared = 0;
    for _ in 0..3_000 {
        let query: Query = draws.times(1, 4, Draws::stage_but_group).into_iter().collect();
        let (input, joined) = (draws.times(1, 6, |draws| draws.tree(3)), draws.array(3));
        let kept = draws.below(input.len());
        let other = |(at, tree): (usize, &Tree)| if at == kept { tree.clone() } else { draws.tree(3) };
        let others: Array = input.iter().enumerate().map(other).collect();
        let Ok(lines) = engine.run_lines(&query, &input.into(), &joined) else { continue };
        let Ok(of_others) = engine.run_lines(&query, &others, &joined) else { continue };
        let expected = lines_of(&lines, kept + 1);
        compared += usize::from(!expected.is_empty() && lines.len() > expected.len());
        assert_eq!(lines_of(&of_others, kept + 1), expected, "{query:?}");
    }
    assert!(compared > 500, "only {compared} had a line to compare, and others");
}

/// Any bytes may be lent; a run answers by a number of the table.
#[test]
fn random_bytes_are_answered() {
    let mut draws = Draws(5);
    let (mut work, mut result) = (vec![0; limits::WORK], vec![0; limits::ARRAY]);
    let mut positions = vec![0; limits::POSITIONS];
    let mut engine = Engine::new(&mut work);
    for _ in 0..2_000 {
        let mut query = draws.times(0, 40, Draws::byte);
        if draws.below(2) == 0 {
            query = draws.times(0, 3, Draws::stage).into_iter().collect::<Query>().encode().unwrap_or(query);
        }
        let (input, joined) = (draws.times(0, 40, Draws::byte), draws.times(0, 40, Draws::byte));
        if let Err(refusal) = engine.run(&query, &input, &joined, &mut result, &mut positions) {
            assert!(Refusal::ALL.contains(&refusal));
        }
    }
}

/// The convenient call says the same as the bytes do.
#[test]
fn a_query_with_a_mistake_does_not_run() {
    let mut work = vec![0; limits::WORK];
    let wrong = Query::new().project([]);
    let outcome = Engine::new(&mut work).run_trees(&wrong, &Array::new(), &Array::new());
    assert_eq!(outcome.map_err(|error| matches!(error, Error::Build(_))), Err(true));
}
