//! Queries, built from typed parts.

use crate::error::BuildError;
use crate::field::Field;
use crate::path::Path;
use crate::tree::Array;
use crate::{limits, tags};

/// The names of those that have a destination, for the mistake's words.
const PLACE: &str = "place";
const PAIR: &str = "pair";
const TOTAL: &str = "total";
const LOOKUP: &str = "lookup";

/// A test that a tree meets or does not meet.
///
/// A criterion nests at most 8 deep; a deeper one is a mistake, which
/// [`Query::encode`] reports.
#[derive(Clone, Debug, PartialEq, Eq)]
pub struct Criterion(Field);

impl Criterion {
    /// Every tree meets it.
    pub fn always() -> Criterion {
        Criterion(Field::nested(tags::TRUE, &[]))
    }

    /// The path isn't absent. An empty array is not absent.
    pub fn exists(path: Path) -> Criterion {
        Criterion(Field::nested(tags::EXISTS, &[path.into()]))
    }

    /// The path gives exactly this array: roots, labels, order and length.
    pub fn equal(path: Path, array: impl Into<Array>) -> Criterion {
        Criterion(Field::nested(tags::EQUAL, &[path.into(), array.into().into()]))
    }

    /// Both paths give the same array, or both are absent.
    pub fn same(left: Path, right: Path) -> Criterion {
        Criterion(Field::nested(tags::SAME, &[left.into(), right.into()]))
    }

    /// The other criterion is not met.
    #[allow(clippy::should_implement_trait)]
    pub fn not(self) -> Criterion {
        Criterion(Field::nested(tags::NOT, &[self.0]))
    }

    /// Both criteria are met.
    pub fn and(self, other: Criterion) -> Criterion {
        Criterion(Field::nested(tags::AND, &[self.0, other.0]))
    }

    /// One of the criteria is met, or both are.
    pub fn or(self, other: Criterion) -> Criterion {
        Criterion(Field::nested(tags::OR, &[self.0, other.0]))
    }
}

/// What a place puts at its destination: an array, or nothing if it is absent.
///
/// Paths, arrays and criteria are data by `into`. Data nest at most 8 deep,
/// their criteria counted too.
#[derive(Clone, Debug, PartialEq, Eq)]
pub struct Data(Field);

impl Data {
    /// This array, for every tree.
    pub fn literal(array: impl Into<Array>) -> Data {
        Data(Field::nested(tags::LITERAL, &[array.into().into()]))
    }

    /// What the path gives of the tree.
    pub fn path(path: Path) -> Data {
        Data(Field::nested(tags::DATA_PATH, &[path.into()]))
    }

    /// The members' arrays joined, 1 to 8 members.
    pub fn list(members: impl IntoIterator<Item = Data>) -> Data {
        let members: Vec<Field> = members.into_iter().map(|member| member.0).collect();
        let field = Field::nested(tags::LIST, &members);
        Data(field.counted("members of a list", members.len(), 1, limits::LIST))
    }

    /// One boolean tree: whether the tree meets the criterion.
    pub fn criterion(criterion: Criterion) -> Data {
        Data(Field::nested(tags::DATA_CRITERION, &[criterion.0]))
    }

    /// The first data if the tree meets the criterion, else the second.
    pub fn choice(criterion: Criterion, then: impl Into<Data>, otherwise: impl Into<Data>) -> Data {
        Data(Field::nested(tags::CHOICE, &[criterion.0, then.into().0, otherwise.into().0]))
    }

    /// What the path gives, each integer root divided by a divisor of 1 to
    /// 10,000 and rounded to nearest, halves away from zero.
    pub fn reduced(path: Path, divisor: u16) -> Data {
        let wrong = divisor == 0 || limits::DIVISOR < divisor;
        let divided = Field::new(tags::DIVISOR, &divisor.to_be_bytes());
        let divided = divided.unless(wrong, BuildError::Divisor(divisor));
        Data(Field::nested(tags::REDUCED, &[path.into(), divided]))
    }
}

impl From<Path> for Data {
    fn from(path: Path) -> Data {
        Data::path(path)
    }
}

impl From<Array> for Data {
    fn from(array: Array) -> Data {
        Data::literal(array)
    }
}

impl From<Criterion> for Data {
    fn from(criterion: Criterion) -> Data {
        Data::criterion(criterion)
    }
}

/// One of the parts that a project merges.
#[derive(Clone, Debug, PartialEq, Eq)]
pub struct Item(Field);

impl Item {
    /// What stands along the path, at the same labels, with void roots above it.
    pub fn keep(path: Path) -> Item {
        Item(Field::of(tags::KEEP, &[path.into()]))
    }

    /// The data, at a destination that is not the empty path.
    pub fn place(data: impl Into<Data>, destination: Path) -> Item {
        Item(Field::of(tags::PLACE, &[data.into().0, target(destination, PLACE)]))
    }
}

/// A source in the trees that enter a group, and a destination in those that leave it.
///
/// As an aggregate it places all that the source gives of the members of a
/// class, or, if it is a total, their sum; as a grouping pair, which no total
/// is, the value that the members share.
#[derive(Clone, Debug, PartialEq, Eq)]
pub struct Pair {
    field: Field,
    total: bool,
}

impl Pair {
    /// From a source to a destination that is not the empty path.
    pub fn new(source: Path, destination: Path) -> Pair {
        let field = Field::of(tags::PAIR, &[source.into(), target(destination, PAIR)]);
        Pair { field, total: false }
    }

    /// From a path to the same path, which is not the empty one.
    pub fn same(path: Path) -> Pair {
        Pair::new(path.clone(), path)
    }

    /// A total, for the aggregates of a group: at a destination that is not the
    /// empty path, one integer, the sum of the integer roots of the trees that
    /// the source gives of the members of a class.
    ///
    /// Other roots add nothing, and nor do the roots of trees below these.
    /// Without an integer root nothing is placed; a sum of 0 is. The sum is
    /// exact, and may leave 64 bits on the way: a run is refused with
    /// [`Refusal::TotalLarge`](crate::Refusal::TotalLarge) only if the total of
    /// some class does not fit at the end.
    ///
    /// ```
    /// use tquery::{limits, Array, Engine, Pair, Path, Query};
    ///
    /// # fn main() -> Result<(), Box<dyn std::error::Error>> {
    /// let (job, edge) = (Path::new([1])?, Path::new([2])?);
    /// let per_job = Query::new().group([Pair::total(edge.clone(), edge)], [Pair::same(job)]);
    /// let edges: Array = "[v{1:[7], 2:[5210, 5198]}, v{1:[8]}, v{1:[7], 2:[4730]}]".parse()?;
    ///
    /// let mut work = vec![0; limits::WORK];
    /// let list = Engine::new(&mut work).run_trees(&per_job, &edges, &Array::new())?;
    /// assert_eq!(list.to_string(), "[v{1:[7], 2:[15138]}, v{1:[8]}]");
    /// # Ok(())
    /// # }
    /// ```
    pub fn total(source: Path, destination: Path) -> Pair {
        let field = Field::of(tags::TOTAL, &[source.into(), target(destination, TOTAL)]);
        Pair { field, total: true }
    }
}

/// One stage of a query.
#[derive(Clone, Debug, PartialEq, Eq)]
pub struct Stage(Field);

impl Stage {
    /// Keeps the trees that meet the criterion.
    pub fn matching(criterion: Criterion) -> Stage {
        Stage(Field::of(tags::MATCH, &[criterion.0]))
    }

    /// Gives one copy of a tree for each tree that stands at the path.
    pub fn unwind(path: Path) -> Stage {
        Stage(Field::of(tags::UNWIND, &[path.into()]))
    }

    /// Makes each tree anew from 1 to 16 items.
    pub fn project(items: impl IntoIterator<Item = Item>) -> Stage {
        let items: Vec<Field> = items.into_iter().map(|item| item.0).collect();
        let field = Field::of(tags::PROJECT, &items);
        Stage(field.counted("items of a project", items.len(), 1, limits::ITEMS))
    }

    /// Makes one tree of those whose grouping sources (0 to 4) are equal, with
    /// the aggregates (0 to 8) of all of them, totals among these.
    pub fn group(
        aggregates: impl IntoIterator<Item = Pair>,
        grouping: impl IntoIterator<Item = Pair>,
    ) -> Stage {
        let grouping: Vec<Pair> = grouping.into_iter().collect();
        let total = grouping.iter().any(|pair| pair.total);
        let aggregates = pairs(tags::AGGREGATES, aggregates, "aggregates", limits::AGGREGATES);
        let grouping = pairs(tags::GROUPING, grouping, "grouping pairs", limits::GROUPING);
        let grouping = grouping.unless(total, BuildError::TotalInGrouping);
        Stage(Field::of(tags::GROUP, &[aggregates, grouping]))
    }

    /// Places, at a destination that is not the empty path, the joined trees
    /// whose `right` equals the tree's `left`.
    pub fn lookup(left: Path, right: Path, destination: Path) -> Stage {
        let destination = target(destination, LOOKUP);
        Stage(Field::of(tags::LOOKUP, &[left.into(), right.into(), destination]))
    }
}

/// A query of 0 to 8 stages, written stage behind stage.
///
/// ```
/// use tquery::{Criterion, Pair, Path, Query};
///
/// let (job, edge) = (Path::new([1])?, Path::new([2])?);
/// let query = Query::new()
///     .matching(Criterion::exists(job.clone()))
///     .group([Pair::same(edge)], [Pair::same(job)]);
/// assert!(tquery::check_query(&query.encode()?).is_ok());
/// # Ok::<(), tquery::BuildError>(())
/// ```
///
/// A mistake in a part is carried along, and [`Query::encode`] reports the
/// first one:
///
/// ```
/// use tquery::{BuildError, Criterion, Path, Query};
///
/// let query = Query::new().matching(Criterion::always()).lookup(Path::empty(), Path::empty(), Path::empty());
/// assert_eq!(query.encode(), Err(BuildError::DestinationEmpty("lookup")));
/// ```
#[derive(Clone, Debug, Default, PartialEq, Eq)]
pub struct Query(Vec<Stage>);

impl Query {
    /// The query of no stage, whose result is its input.
    pub fn new() -> Query {
        Query::default()
    }

    /// This query with one more stage.
    pub fn stage(mut self, stage: Stage) -> Query {
        self.0.push(stage);
        self
    }

    /// This query and then [`Stage::matching`].
    pub fn matching(self, criterion: Criterion) -> Query {
        self.stage(Stage::matching(criterion))
    }

    /// This query and then [`Stage::unwind`].
    pub fn unwind(self, path: Path) -> Query {
        self.stage(Stage::unwind(path))
    }

    /// This query and then [`Stage::project`].
    pub fn project(self, items: impl IntoIterator<Item = Item>) -> Query {
        self.stage(Stage::project(items))
    }

    /// This query and then [`Stage::group`].
    pub fn group(
        self,
        aggregates: impl IntoIterator<Item = Pair>,
        grouping: impl IntoIterator<Item = Pair>,
    ) -> Query {
        self.stage(Stage::group(aggregates, grouping))
    }

    /// This query and then [`Stage::lookup`].
    pub fn lookup(self, left: Path, right: Path, destination: Path) -> Query {
        self.stage(Stage::lookup(left, right, destination))
    }

    /// The stages, first to last.
    pub fn stages(&self) -> &[Stage] {
        &self.0
    }

    /// The byte form, which [`check_query`](crate::check_query) accepts, or
    /// the first mistake that was made in building it.
    pub fn encode(&self) -> Result<Vec<u8>, BuildError> {
        let stages: Vec<Field> = self.0.iter().map(|stage| stage.0.clone()).collect();
        let field = Field::of(tags::QUERY, &stages);
        let field = field.counted("stages of a query", stages.len(), 0, limits::STAGES);
        field.bytes().map(<[u8]>::to_vec)
    }
}

impl FromIterator<Stage> for Query {
    fn from_iter<I: IntoIterator<Item = Stage>>(stages: I) -> Query {
        Query(stages.into_iter().collect())
    }
}

/// A path that must not be empty, since something is placed there.
fn target(path: Path, of: &'static str) -> Field {
    let empty = path.is_empty();
    Field::from(path).unless(empty, BuildError::DestinationEmpty(of))
}

/// The pairs of a group, in one field.
fn pairs(tag: u8, pairs: impl IntoIterator<Item = Pair>, what: &'static str, most: usize) -> Field {
    let pairs: Vec<Field> = pairs.into_iter().map(|pair| pair.field).collect();
    Field::of(tag, &pairs).counted(what, pairs.len(), 0, most)
}
