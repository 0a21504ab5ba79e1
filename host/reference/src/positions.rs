//! Where a tree came from: carried through the stages, it bears the position of its input tree.

use crate::stages::{grouped_from, staged, Stage, TooLarge};
use crate::tree::Tree;

/// A tree on its way, and the position of the input tree that it stems from.
#[derive(Clone, Debug, PartialEq, Eq)]
pub struct Borne {
    pub position: usize,
    pub tree: Tree,
}

/// The trees of an input, each bearing its own position, from 1.
pub fn numbered(input: Vec<Tree>) -> Vec<Borne> {
    input.into_iter().zip(1..).map(|(tree, position)| Borne { position, tree }).collect()
}

/// One stage over a whole list; each tree that leaves it is tested.
///
/// A group's tree bears the position of the first member of its class. Every
/// other stage works on each tree alone, and all that it makes of one bears
/// the position of that one.
pub fn carried(stage: &Stage, list: &[Borne], joined: &[Tree]) -> Result<Vec<Borne>, TooLarge> {
    let mut all = Vec::new();
    if let Stage::Group { aggregates, grouping } = stage {
        let trees: Vec<&Tree> = list.iter().map(|borne| &borne.tree).collect();
        for (first, tree) in grouped_from(aggregates, grouping, &trees)? {
            all.push(Borne { position: list[first].position, tree });
        }
        return Ok(all);
    }
    for borne in list {
        let made = staged(stage, std::slice::from_ref(&borne.tree), joined)?;
        all.extend(made.into_iter().map(|tree| Borne { position: borne.position, tree }));
    }
    Ok(all)
}

#[cfg(test)]
mod tests {
    use super::*;
    use crate::stages::{Criterion, Data, Item, Pair};

    fn n(value: i64) -> Tree {
        Tree::integer(value)
    }

    fn pair(label: u8) -> Pair {
        Pair::new(&[label], &[label])
    }

    /// A tree with a value under each of some labels.
    fn keyed(values: &[(u8, i64)]) -> Tree {
        values.iter().fold(Tree::void(), |tree, (label, value)| tree.with(*label, vec![n(*value)]))
    }

    /// The positions that stages give of an input.
    fn positions(stages: &[Stage], input: &[Tree], joined: &[Tree]) -> Vec<usize> {
        let over = |list: Vec<Borne>, stage| carried(stage, &list, joined).unwrap();
        let list = stages.iter().fold(numbered(input.to_vec()), over);
        list.into_iter().map(|borne| borne.position).collect()
    }

    #[test]
    fn positions_begin_with_1() {
        assert_eq!(positions(&[], &[n(7), n(7), n(8)], &[]), [1, 2, 3]);
    }

    #[test]
    fn a_match_keeps_the_positions_of_what_it_keeps() {
        let match_1 = Stage::Match(Criterion::Exists(vec![1]));
        assert_eq!(positions(&[match_1], &[n(1), keyed(&[(1, 5)]), n(2), keyed(&[(1, 6)])], &[]), [2, 4]);
    }

    #[test]
    fn all_that_an_unwind_makes_of_a_tree_bears_its_position() {
        let input = [Tree::void(), Tree::void().with(1, vec![n(5), n(6)]), keyed(&[(1, 7)])];
        assert_eq!(positions(&[Stage::Unwind(vec![1])], &input, &[]), [2, 2, 3]);
    }

    #[test]
    fn project_and_lookup_hand_the_position_on() {
        let place = Stage::Project(vec![Item::Place(Data::Literal(vec![]), vec![1])]);
        let lookup = Stage::Lookup { q: vec![1], r: vec![1], p: vec![2] };
        let joined = [keyed(&[(1, 5)]), keyed(&[(1, 5)])];
        assert_eq!(positions(&[place, lookup], &[n(1), n(2)], &joined), [1, 2]);
    }

    #[test]
    fn a_groups_tree_bears_the_position_of_its_first_member() {
        let group = Stage::Group { aggregates: vec![], grouping: vec![pair(1)] };
        let input = [keyed(&[(1, 8)]), keyed(&[(1, 7)]), n(4), keyed(&[(1, 8)]), n(3), keyed(&[(1, 7)])];
        assert_eq!(positions(&[group], &input, &[]), [3, 1, 2]);
    }

    /// The first group gives v{1:[5]} of tree 2, and behind it v{1:[5], 2:[6]} of tree 1; the second puts both into
    /// one class, whose first member is that of tree 2.
    #[test]
    fn the_first_member_need_not_bear_the_smallest_position() {
        let by = |labels: &[u8]| Stage::Group {
            aggregates: vec![],
            grouping: labels.iter().map(|label| pair(*label)).collect(),
        };
        let input = [keyed(&[(1, 5), (2, 6)]), keyed(&[(1, 5)])];
        assert_eq!(positions(&[by(&[1, 2])], &input, &[]), [2, 1]);
        assert_eq!(positions(&[by(&[1, 2]), by(&[1])], &input, &[]), [2]);
    }

    #[test]
    fn the_trees_are_those_of_the_stage() {
        let group = Stage::Group { aggregates: vec![pair(2)], grouping: vec![pair(1)] };
        let input = vec![keyed(&[(1, 8), (2, 1)]), keyed(&[(2, 2)]), keyed(&[(1, 8), (2, 3)])];
        for stage in [group, Stage::Unwind(vec![2]), Stage::Match(Criterion::Exists(vec![1]))] {
            let list = carried(&stage, &numbered(input.clone()), &[]).unwrap();
            let trees: Vec<Tree> = list.into_iter().map(|borne| borne.tree).collect();
            assert_eq!(trees, staged(&stage, &input, &[]).unwrap());
        }
    }
}
