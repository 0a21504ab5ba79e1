//! Whether a query is good for trays.

use super::error::Unfit;
use super::list::fields;
use crate::engine::check_query;
use crate::tags;
use crate::tree::put_head;

/// The last stage of a query's bytes as a query of its own, if it is a group;
/// nothing if there is no group; or why the query is not good for trays.
pub fn last_group(query: &[u8]) -> Result<Option<Vec<u8>>, Unfit> {
    check_query(query)?;
    let stages: Vec<_> = fields(query).flat_map(|(_, stages)| fields(stages)).collect();
    let Some(at) = stages.iter().position(|(tag, _)| *tag == tags::GROUP) else {
        return Ok(None);
    };
    if at + 1 < stages.len() {
        return Err(Unfit::GroupInside(at + 1));
    }
    let (_, lists) = stages[at];
    if let Some(at) = pairs(lists).position(|(tag, _)| tag == tags::TOTAL) {
        return Err(Unfit::Total(at + 1));
    }
    distinct(lists)?;
    Ok(Some(alone(lists)))
}

/// The pairs of a group's two lists, the aggregates first.
fn pairs(lists: &[u8]) -> impl Iterator<Item = (u8, &[u8])> {
    fields(lists).flat_map(|(_, pairs)| fields(pairs))
}

/// Whether the destinations in a group's two lists of pairs are single labels,
/// no two equal.
fn distinct(lists: &[u8]) -> Result<(), Unfit> {
    let destinations = pairs(lists).filter_map(|(_, paths)| fields(paths).nth(1));
    let mut labels = Vec::new();
    for (_, path) in destinations {
        match path {
            [label] if labels.contains(label) => return Err(Unfit::DestinationTwice(*label)),
            [label] => labels.push(*label),
            _ => return Err(Unfit::DestinationLong(path.len())),
        }
    }
    Ok(())
}

/// The query of this group alone. Of a query that was checked, it is shorter
/// than the query or the query itself.
fn alone(lists: &[u8]) -> Vec<u8> {
    let mut group = Vec::new();
    put_head(tags::GROUP, lists.len(), &mut group);
    group.extend_from_slice(lists);
    let mut query = Vec::new();
    put_head(tags::QUERY, group.len(), &mut query);
    query.extend_from_slice(&group);
    query
}
