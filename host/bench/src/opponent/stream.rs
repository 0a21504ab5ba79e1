//! Trees through the stages of a stretch, one at a time, and the groups between stretches.

use super::bytes::{trees, ARRAY, VOID};
use super::index::{Index, Lists};
use super::query::{Node, Pair, Path, Query, Stage};
use super::read::{append, apply, holds};
use super::write::{place, unwind, write_item, write_total, Build};
use super::{Refused, POSITIONS};

/// What leaves a stretch, one tree behind another, and where each came from. That it is too long is only noted:
/// a later tree may be too large.
struct Sink<'a> {
    out: &'a mut [u8],
    used: usize,
    /// An entry for each tree: as many as an array can have.
    positions: &'a mut [u16],
    trees: usize,
    over: bool,
}

impl Sink<'_> {
    fn push(&mut self, tree: &[u8], position: u16) {
        match self.out.get_mut(self.used..self.used + tree.len()) {
            Some(room) => {
                room.copy_from_slice(tree);
                self.used += tree.len();
                self.positions[self.trees] = position;
                self.trees += 1;
            }
            None => self.over = true,
        }
    }
}

/// The joined trees by key, made when the first tree comes.
struct Partners<'a> {
    index: Index,
    lists: Lists<'a>,
}

impl<'a> Partners<'a> {
    fn new(path: &[u8], joined: &'a [u8]) -> Partners<'a> {
        let n = trees(joined).count();
        let (mut index, mut lists) = (Index::new(n), Lists::new(n));
        for t in trees(joined) {
            lists.push(index.number(std::iter::once(path), t).0, t);
        }
        Partners { index, lists }
    }

    /// Appends the joined trees that match.
    fn append(&mut self, path: &[u8], tree: &[u8], out: &mut Vec<u8>) {
        if let Some(number) = self.index.known(path, tree) {
            self.lists.list(number).for_each(|t| out.extend_from_slice(t));
        }
    }
}

/// What a stage works with.
struct Room<'a> {
    build: Build,
    partners: Option<Partners<'a>>,
}

/// What all stages read: the query's criteria and data, and the joined array's trees.
#[derive(Clone, Copy)]
struct Read<'s, 'a> {
    nodes: &'s [Node<'s>],
    joined: &'a [u8],
}

/// The stages of a stretch, behind its group.
struct Stretch<'s, 'a> {
    stages: &'s [Stage<'s>],
    rooms: Vec<Room<'a>>,
    read: Read<'s, 'a>,
}

impl<'s, 'a> Stretch<'s, 'a> {
    fn new(stages: &'s [Stage<'s>], read: Read<'s, 'a>) -> Stretch<'s, 'a> {
        let rooms = stages.iter().map(|_| Room { build: Build::new(), partners: None }).collect();
        Stretch { stages, rooms, read }
    }

    fn feed(&mut self, tree: &[u8], position: u16, sink: &mut Sink) -> Result<(), Refused> {
        feed(self.stages, &mut self.rooms, self.read, tree, position, sink)
    }
}

/// One tree through the stages: what leaves the last of them goes into the sink, with the tree's position.
fn feed<'a>(
    stages: &[Stage],
    rooms: &mut [Room<'a>],
    read: Read<'_, 'a>,
    tree: &[u8],
    position: u16,
    sink: &mut Sink,
) -> Result<(), Refused> {
    let ([stage, stages @ ..], [room, rooms @ ..]) = (stages, rooms) else {
        sink.push(tree, position);
        return Ok(());
    };
    match stage {
        Stage::Match(c) if holds(&read.nodes[*c..], tree) => feed(stages, rooms, read, tree, position, sink),
        Stage::Match(_) => Ok(()),
        Stage::Unwind(path) => {
            unwind(path, tree, room.build.scratch(), &mut |t| feed(stages, rooms, read, t, position, sink))
        }
        Stage::Project(items) => {
            room.build.start(&VOID);
            for item in items {
                room.build.add(|out| write_item(read.nodes, item, tree, out))?;
            }
            feed(stages, rooms, read, room.build.tree(), position, sink)
        }
        Stage::Lookup { tree: path, joined: other, target } => {
            let partners = room.partners.get_or_insert_with(|| Partners::new(other, read.joined));
            room.build.start(tree);
            room.build.add(|out| {
                place(target, out, |out| {
                    partners.append(path, tree, out);
                    true
                })
            })?;
            feed(stages, rooms, read, room.build.tree(), position, sink)
        }
        // a stretch ends before a group
        Stage::Group { .. } => Ok(()),
    }
}

/// The classes of a group in their order: of each its subset and the number of its list.
fn classes<'a>(grouping: &[Pair], array: &'a [u8]) -> (Vec<(usize, usize)>, Lists<'a>) {
    let n = trees(array).count();
    let (mut index, mut lists, mut found) = (Index::new(n), Lists::new(n), Vec::new());
    for t in trees(array) {
        let (number, subset) = index.number(grouping.iter().map(|pair| pair.source), t);
        if number == found.len() {
            found.push((subset, number));
        }
        lists.push(number, t);
    }
    // by subset, and then in order of first appearance
    found.sort_unstable();
    (found, lists)
}

/// The sum of the integer roots of the trees that a path gives of some trees, if there is one. Refusal 12 if it does
/// not fit.
fn total<'a>(path: &[u8], members: impl Iterator<Item = &'a [u8]>) -> Result<Option<i64>, Refused> {
    let (mut sum, mut any) = (0i128, false);
    for member in members {
        apply(path, member, &mut |piece| {
            for tree in trees(piece) {
                if tree[3] == 5 {
                    let mut bytes = [0; 8];
                    bytes.copy_from_slice(&tree[6..14]);
                    sum += i128::from(i64::from_be_bytes(bytes));
                    any = true;
                }
            }
        });
    }
    let sum = i64::try_from(sum).map_err(|_| 12u32)?;
    Ok(any.then_some(sum))
}

/// The totals of all classes, class by class and pair by pair.
fn all_totals(
    aggregates: &[Pair],
    found: &[(usize, usize)],
    lists: &Lists,
) -> Result<Vec<Option<i64>>, Refused> {
    let sources: Vec<Path> = aggregates.iter().filter(|pair| pair.total).map(|pair| pair.source).collect();
    let mut totals = Vec::with_capacity(sources.len() * found.len());
    for (_, number) in found {
        for source in &sources {
            totals.push(total(source, lists.list(*number))?);
        }
    }
    Ok(totals)
}

/// Groups the trees of an array and feeds what that gives to the stretch behind the group, each with the position
/// of the first member. The totals of all classes are taken first, since each is tested before any tree is.
fn group(
    aggregates: &[Pair],
    grouping: &[Pair],
    array: Entering,
    stretch: &mut Stretch,
    sink: &mut Sink,
) -> Result<(), Refused> {
    let (found, lists) = classes(grouping, array.trees);
    let mut totals = all_totals(aggregates, &found, &lists)?.into_iter();
    let mut build = Build::new();
    for (_, number) in found {
        build.start(&VOID);
        for pair in aggregates {
            if pair.total {
                let sum = totals.next().flatten();
                build.add(|out| place(pair.target, out, |out| write_total(sum, out)))?;
                continue;
            }
            let write = |out: &mut Vec<u8>| {
                lists.list(number).fold(false, |any, t| append(pair.source, t, out) | any)
            };
            build.add(|out| place(pair.target, out, write))?;
        }
        let Some(first) = lists.list(number).next() else { continue };
        for pair in grouping {
            // a source outside the subset is absent, and places nothing
            build.add(|out| place(pair.target, out, |out| append(pair.source, first, out)))?;
        }
        stretch.feed(build.tree(), array.position(lists.first(number)), sink)?;
    }
    Ok(())
}

/// The trees that enter a stretch, and the position of each; of the input's trees it is their own.
#[derive(Clone, Copy)]
struct Entering<'a> {
    trees: &'a [u8],
    positions: Option<&'a [u16]>,
}

impl Entering<'_> {
    fn position(&self, place: usize) -> u16 {
        self.positions.map_or(place as u16 + 1, |positions| positions[place])
    }
}

/// Performs a stretch over an array's trees, into the sink: how many bytes they take, if it holds them.
fn perform(stages: &[Stage], array: Entering, read: Read, mut sink: Sink) -> Result<Option<usize>, Refused> {
    if let [Stage::Group { aggregates, grouping }, stages @ ..] = stages {
        group(aggregates, grouping, array, &mut Stretch::new(stages, read), &mut sink)?;
    } else {
        let mut stretch = Stretch::new(stages, read);
        let mut each = trees(array.trees).enumerate();
        each.try_for_each(|(place, t)| stretch.feed(t, array.position(place), &mut sink))?;
    }
    Ok((!sink.over).then_some(sink.used))
}

/// Where the stretch ends that begins the stages.
fn stretch_end(stages: &[Stage]) -> usize {
    let group = stages.iter().skip(1).position(|s| matches!(s, Stage::Group { .. }));
    group.map_or(stages.len(), |at| at + 1)
}

/// An array between two stretches, and the positions of its trees.
#[derive(Default)]
struct Between {
    bytes: Vec<u8>,
    positions: Vec<u16>,
}

/// Runs the query over the input's trees and writes what it gives to `out`, and where its trees came from to
/// `positions`: how many bytes of `out` that takes.
pub fn run(
    query: &Query,
    input: &[u8],
    joined: &[u8],
    out: &mut [u8],
    positions: &mut [u16],
) -> Result<usize, Refused> {
    let read = Read { nodes: &query.nodes, joined };
    let mut stages = &query.stages[..];
    // the array that enters a group, and the one that leaves its stretch; the input enters from where it
    // stands
    let (mut array, mut next) = (Between::default(), Between::default());
    let mut entering = None;
    loop {
        let (stretch, later) = stages.split_at(stretch_end(stages));
        let trees = match entering {
            None => Entering { trees: input, positions: None },
            Some(n) => Entering { trees: &array.bytes[..n], positions: Some(&array.positions) },
        };
        if later.is_empty() {
            let sink = Sink { out, used: 0, positions, trees: 0, over: false };
            return perform(stretch, trees, read, sink)?.ok_or(10);
        }
        next.bytes.resize(ARRAY - 3, 0);
        next.positions.resize(POSITIONS, 0);
        let Between { bytes, positions } = &mut next;
        let sink = Sink { out: bytes, used: 0, positions, trees: 0, over: false };
        let used = perform(stretch, trees, read, sink)?.ok_or(9u32)?;
        std::mem::swap(&mut array, &mut next);
        entering = Some(used);
        stages = later;
    }
}
