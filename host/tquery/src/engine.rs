//! Runs and checks.

use crate::error::Error;
use crate::query::Query;
use crate::refusal::{length_of, Refusal};
use crate::tree::{Array, Tree};
use crate::{ffi, limits};

/// A tree of a result, and where it came from.
#[derive(Clone, Debug, PartialEq, Eq)]
pub struct Line {
    /// The position, from 1, of the input tree that the tree stems from; for a
    /// group's tree, of that of the first member of its class.
    pub position: usize,
    /// The tree.
    pub tree: Tree,
}

/// The engine, over a work area that it is lent.
///
/// It keeps nothing between runs: what a run answers follows from its
/// arguments alone, and the work area is zero after it.
#[derive(Debug)]
pub struct Engine<'a> {
    work: &'a mut [u8],
}

impl<'a> Engine<'a> {
    /// An engine over a work area of at least [`limits::WORK`] bytes, of any
    /// content. With less, every run is refused with [`Refusal::WorkShort`].
    pub fn new(work: &'a mut [u8]) -> Engine<'a> {
        Engine { work }
    }

    /// Runs the byte form of a query over the byte forms of an input and a
    /// joined array, and gives the length of the result, which then stands at
    /// the start of the result area; the bytes behind it are as they were.
    ///
    /// The position area begins with one entry for each tree of the result: the
    /// position, from 1, of the input tree that it stems from. Match, unwind,
    /// project and lookup hand a tree's position on to all that they make of
    /// it; a group's tree bears that of the first member of its class, which
    /// behind another group need not be the smallest. The entries behind them
    /// are as they were.
    ///
    /// A result area of [`limits::ARRAY`] bytes holds every result. The
    /// position area has [`limits::POSITIONS`] entries or more; with fewer, the
    /// run is refused with [`Refusal::PositionsShort`]. What a refusal leaves in
    /// the two is said at each [`Refusal`]. The work area is all zero
    /// afterwards, unless it or the position area was too short.
    ///
    /// ```
    /// use tquery::{limits, Array, Engine, Path, Query};
    ///
    /// # fn main() -> Result<(), Box<dyn std::error::Error>> {
    /// let eyes = Query::new().unwind(Path::new([3])?).encode()?;
    /// let jobs = "[v{1:[4711]}, v{1:[4712], 3:[1, 2]}]".parse::<Array>()?.encode()?;
    ///
    /// let (mut work, mut result) = (vec![0; limits::WORK], vec![0; limits::ARRAY]);
    /// let mut positions = [9; limits::POSITIONS];
    /// Engine::new(&mut work).run(&eyes, &jobs, &[1, 0, 0], &mut result, &mut positions)?;
    /// assert_eq!(positions[..3], [2, 2, 9]);
    /// # Ok(())
    /// # }
    /// ```
    ///
    /// A run ends, but nothing bounds its time in practice: each unwind
    /// multiplies the trees that pass, and only an array that enters a group
    /// or leaves the run has a limit.
    pub fn run(
        &mut self,
        query: &[u8],
        input: &[u8],
        joined: &[u8],
        result: &mut [u8],
        positions: &mut [u16],
    ) -> Result<usize, Refusal> {
        length_of(ffi::run(query, input, joined, self.work, result, positions))
    }

    /// Runs a query over trees and gives the trees of the result, each with the
    /// position of the input tree that it stems from. It takes its areas from
    /// the heap; where there is none to spare, encode once and use
    /// [`Engine::run`].
    ///
    /// ```
    /// use tquery::{limits, Array, Engine, Path, Query};
    ///
    /// # fn main() -> Result<(), Box<dyn std::error::Error>> {
    /// let jobs: Array = "[v{1:[4711]}, v{1:[4712], 3:[1, 2]}]".parse()?;
    /// let eyes = Query::new().unwind(Path::new([3])?);
    ///
    /// let mut work = vec![0; limits::WORK];
    /// for line in Engine::new(&mut work).run_lines(&eyes, &jobs, &Array::new())? {
    ///     println!("{}: {}, of {}", line.position, line.tree, jobs[line.position - 1]);
    /// }
    /// # Ok(())
    /// # }
    /// ```
    pub fn run_lines(&mut self, query: &Query, input: &Array, joined: &Array) -> Result<Vec<Line>, Error> {
        let (query, input, joined) = (query.encode()?, input.encode()?, joined.encode()?);
        let (mut result, mut positions) = (vec![0; limits::ARRAY], vec![0; limits::POSITIONS]);
        let length = self.run(&query, &input, &joined, &mut result, &mut positions)?;
        result.truncate(length);
        let trees = Array::decode(&result)?.into_iter();
        let positions = positions.into_iter().map(usize::from);
        Ok(trees.zip(positions).map(|(tree, position)| Line { position, tree }).collect())
    }

    /// Runs a query over trees and gives trees, as [`Engine::run_lines`] does,
    /// without their positions.
    pub fn run_trees(&mut self, query: &Query, input: &Array, joined: &Array) -> Result<Array, Error> {
        let lines = self.run_lines(query, input, joined)?;
        Ok(lines.into_iter().map(|line| line.tree).collect())
    }

    /// Groups two arrays again as one: the trees of the first and then those
    /// of the second, by a query that is one group alone without a total, each
    /// destination of which, now also the source, is a single label that no
    /// other has. It gives the length of the result, which then stands at the
    /// start of the result area; the bytes behind it are as they were.
    ///
    /// Of the results of two trays it makes that of both; see
    /// [`Trays`](crate::Trays), which does it for a day. The arrays may be any.
    ///
    /// The refusals are those of a run, in another order where they differ:
    /// [`Refusal::QueryMalformed`] is also a query that is not one such group
    /// alone, [`Refusal::InputLong`] and [`Refusal::InputMalformed`] are of the
    /// first array and then of the second, none is of a joined array or of a
    /// total, and [`Refusal::GroupLong`], of the two joined, goes before
    /// [`Refusal::TreeLarge`]. [`Refusal::regroup_words`] has the words.
    ///
    /// ```
    /// use tquery::{limits, Array, Engine, Pair, Path, Query};
    ///
    /// # fn main() -> Result<(), Box<dyn std::error::Error>> {
    /// let (job, lens) = (Path::new([1])?, Path::new([2])?);
    /// let group = Query::new().group([Pair::same(job)], [Pair::same(lens)]).encode()?;
    /// let array = |text: &str| text.parse::<Array>().map(|array| array.encode());
    /// let first = array("[v{1:[4711], 2:[16]}]")??;
    /// let second = array("[v{1:[4712], 2:[15]}, v{1:[4713], 2:[16]}]")??;
    ///
    /// let (mut work, mut result) = (vec![0; limits::WORK], vec![0; limits::ARRAY]);
    /// let length = Engine::new(&mut work).regroup(&group, &first, &second, &mut result)?;
    /// let list = Array::decode(&result[..length])?;
    /// assert_eq!(list.to_string(), "[v{1:[4711, 4713], 2:[16]}, v{1:[4712], 2:[15]}]");
    /// # Ok(())
    /// # }
    /// ```
    pub fn regroup(
        &mut self,
        query: &[u8],
        first: &[u8],
        second: &[u8],
        result: &mut [u8],
    ) -> Result<usize, Refusal> {
        length_of(ffi::regroup(query, first, second, self.work, result))
    }

    /// Groups the trees of two arrays again as one, as [`Engine::regroup`]
    /// does, and gives trees. It takes its areas from the heap.
    pub fn regroup_trees(&mut self, query: &Query, first: &Array, second: &Array) -> Result<Array, Error> {
        let (query, first, second) = (query.encode()?, first.encode()?, second.encode()?);
        let mut result = vec![0; limits::ARRAY];
        let length = self.regroup(&query, &first, &second, &mut result).map_err(Error::Regroup)?;
        result.truncate(length);
        Ok(Array::decode(&result)?)
    }
}

/// Checks that bytes are the byte form of an array within the limits, by the
/// tests that a run makes of its input: the refusals are
/// [`Refusal::InputLong`] and [`Refusal::InputMalformed`].
pub fn check_array(bytes: &[u8]) -> Result<(), Refusal> {
    length_of(ffi::check_array(bytes)).map(|_| ())
}

/// Checks that bytes are the byte form of a query, by the tests that a run
/// makes of it: the refusals are [`Refusal::QueryLong`] and
/// [`Refusal::QueryMalformed`].
pub fn check_query(bytes: &[u8]) -> Result<(), Refusal> {
    length_of(ffi::check_query(bytes)).map(|_| ())
}
