//! A day in trays: the list that the trays' results make.

mod error;
mod fit;
mod list;

use crate::engine::{check_array, Engine};
use crate::error::DecodeError;
use crate::limits;
use crate::query::Query;
use crate::refusal::Refusal;
use crate::tree::Array;
pub use error::{TrayCause, TrayError, Unfit};
use list::{packed, trees_of, EMPTY};

/// A day's list, from records that come in trays.
///
/// A day has more records than one array holds. It comes in trays, each an
/// array within the limits; the query runs over each of them, with one joined
/// array, and the results, in the order of their trays, make the day's list:
/// what the stages give of all the trays together. A query is good for that in
/// two cases.
///
/// - It has no group. The results stand one behind another in the list, which
///   may be of any length:
///
///   ```
///   use tquery::{limits, Array, Engine, Path, Query, Trays};
///
///   # fn main() -> Result<(), Box<dyn std::error::Error>> {
///   let mut work = vec![0; limits::WORK];
///   let mut engine = Engine::new(&mut work);
///   let mut day = Trays::new(&Query::new().unwind(Path::new([2])?))?;
///   for tray in ["[v{1:[1], 2:[5, 6]}]", "[]", "[v{1:[2], 2:[7]}]"] {
///       let tray = tray.parse::<Array>()?.encode()?;
///       day.run(&mut engine, &tray, &[1, 0, 0])?;
///   }
///   let list = day.trees()?;
///   assert_eq!(list.to_string(), "[v{1:[1], 2:[5]}, v{1:[1], 2:[6]}, v{1:[2], 2:[7]}]");
///   # Ok(())
///   # }
///   ```
///
/// - It ends in its only group, which has no total and whose destinations, of
///   aggregates and grouping pairs together, are single labels, no two equal.
///   Each result is grouped again with the list so far, by [`Engine::regroup`].
///   So the list is one array, and a result that does not fit into one with it
///   is refused:
///
///   ```
///   use tquery::{limits, Array, Engine, Pair, Path, Query, Trays};
///
///   # fn main() -> Result<(), Box<dyn std::error::Error>> {
///   let mut work = vec![0; limits::WORK];
///   let mut engine = Engine::new(&mut work);
///   let (job, lens) = (Path::new([1])?, Path::new([2])?);
///   let mut day = Trays::new(&Query::new().group([Pair::same(job)], [Pair::same(lens)]))?;
///   for tray in ["[v{1:[1], 2:[5]}, v{1:[2], 2:[6]}]", "[v{1:[3], 2:[5]}]"] {
///       let tray = tray.parse::<Array>()?.encode()?;
///       day.run(&mut engine, &tray, &[1, 0, 0])?;
///   }
///   assert_eq!(day.trees()?.to_string(), "[v{1:[1, 3], 2:[5]}, v{1:[2], 2:[6]}]");
///   # Ok(())
///   # }
///   ```
///
/// Other queries are [`Unfit`]. Where the engine refuses a tray, the list so
/// far is as it was.
#[derive(Clone, Debug, PartialEq, Eq)]
pub struct Trays {
    query: Vec<u8>,
    list: List,
    /// How many trays have come, refused ones too.
    come: usize,
}

#[derive(Clone, Debug, PartialEq, Eq)]
enum List {
    /// The trees of all results, without a head: they may pass what an array holds.
    Appended(Vec<u8>),
    /// The query's last stage as a query of its own, and the array so far.
    Grouped { group: Vec<u8>, array: Vec<u8> },
}

impl Trays {
    /// The empty day of a query, or why the query is not good for trays.
    pub fn new(query: &Query) -> Result<Trays, Unfit> {
        Trays::of_bytes(&query.encode()?)
    }

    /// The empty day of the byte form of a query, which the engine checks.
    pub fn of_bytes(query: &[u8]) -> Result<Trays, Unfit> {
        let list = match fit::last_group(query)? {
            None => List::Appended(Vec::new()),
            Some(group) => List::Grouped { group, array: EMPTY.to_vec() },
        };
        Ok(Trays { query: query.to_vec(), list, come: 0 })
    }

    /// Runs the query over the byte form of the next tray, with the day's
    /// joined array, and takes the result into the list.
    pub fn run(&mut self, engine: &mut Engine<'_>, tray: &[u8], joined: &[u8]) -> Result<(), TrayError> {
        let (mut result, mut positions) = (vec![0; limits::ARRAY], vec![0; limits::POSITIONS]);
        match engine.run(&self.query, tray, joined, &mut result, &mut positions) {
            Ok(length) => self.take(engine, &result[..length]),
            Err(refusal) => {
                self.come += 1;
                Err(self.refused(TrayCause::Run(refusal)))
            }
        }
    }

    /// Takes the result of the next tray into the list: the byte form of an
    /// array, from a run of the query somewhere else. The list of some trays
    /// that follow each other is taken as the result of one.
    pub fn take(&mut self, engine: &mut Engine<'_>, result: &[u8]) -> Result<(), TrayError> {
        self.come += 1;
        self.list.take(engine, result).map_err(|refusal| self.refused(TrayCause::Join(refusal)))
    }

    fn refused(&self, cause: TrayCause) -> TrayError {
        TrayError { tray: self.come, cause }
    }

    /// How many trays have come, refused ones too.
    pub fn come(&self) -> usize {
        self.come
    }

    /// The list so far as arrays, each within 16,384 bytes. As many trees as
    /// fit stand in each before the next begins, so that the bytes follow from
    /// the list alone, and not from how the day was parted. There is at least
    /// one array, and of a grouped list there is one.
    pub fn arrays(&self) -> Vec<Vec<u8>> {
        packed(self.list.trees())
    }

    /// The list so far as trees.
    pub fn trees(&self) -> Result<Array, DecodeError> {
        let arrays = self.arrays().into_iter().map(|bytes| Array::decode(&bytes));
        let arrays: Vec<Array> = arrays.collect::<Result<_, _>>()?;
        Ok(arrays.into_iter().flatten().collect())
    }
}

impl List {
    fn take(&mut self, engine: &mut Engine<'_>, result: &[u8]) -> Result<(), Refusal> {
        match self {
            List::Appended(trees) => {
                check_array(result)?;
                trees.extend_from_slice(trees_of(result));
            }
            List::Grouped { group, array } => {
                let mut both = vec![0; limits::ARRAY];
                let length = engine.regroup(group, array, result, &mut both)?;
                both.truncate(length);
                *array = both;
            }
        }
        Ok(())
    }

    /// The trees of the list, one behind another.
    fn trees(&self) -> &[u8] {
        match self {
            List::Appended(trees) => trees,
            List::Grouped { array, .. } => trees_of(array),
        }
    }
}
