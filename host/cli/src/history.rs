//! How the subtables of a deduplicating build came about: the groups that the sets started in,
//! by shape (docs/RULES.md, sections 5 to 8), and what the log joined them to.

use crate::job::Job;
use ivs::{Packed, Tent};
use std::cmp::Ordering;
use std::collections::HashMap;

/// The most rows of a subtable.
const ROWS: usize = 65_535;

/// The regions of a shape, by index, with the bytes of their widths; rising, without those
/// that have none.
pub type Shape = Vec<(usize, u8)>;

pub struct Group {
    pub shape: Shape,
    /// How many different sets it has.
    pub sets: usize,
    /// The two groups that were joined to it, and the bytes that this saved.
    pub of: Option<(usize, usize, u32)>,
    /// What it was joined to.
    pub into: Option<usize>,
}

pub struct History {
    /// By number: first those that the sets started in, then the joined ones.
    pub groups: Vec<Group>,
    /// How many they started in.
    pub starting: usize,
    /// The group that each id started in.
    pub group_of: Vec<usize>,
    /// The number in the job of each region index.
    pub regions: Vec<usize>,
    /// The group of each subtable.
    pub subtables: Vec<usize>,
}

impl History {
    /// Of a job, and what it was packed to in mode 0.
    pub fn of(job: &Job, packed: &Packed) -> History {
        let (index_of, regions) = indexes(job);
        let mut shapes: Vec<Shape> = vec![Shape::new(); packed.map.len()];
        for (set, &id) in job.sets.iter().zip(&packed.ids) {
            shapes[id as usize] = shape(set, &index_of);
        }
        let (mut groups, group_of) = started(shapes);
        let starting = groups.len();
        for merge in packed.log.chunks_exact(3) {
            join(&mut groups, merge[0] as usize, merge[1] as usize, merge[2]);
        }
        let subtables = subtables(&groups);
        History {
            groups,
            starting,
            group_of,
            regions,
            subtables,
        }
    }

    /// The merges that led from a group to its subtable, by the numbers of the joined groups.
    pub fn merges(&self, group: usize) -> Vec<usize> {
        let next = |&group: &usize| self.groups[group].into;
        std::iter::successors(self.groups[group].into, next).collect()
    }
}

/// The index of each region, by first use, and the region of each index. Regions of the same
/// coordinates have one.
fn indexes(job: &Job) -> (Vec<usize>, Vec<usize>) {
    let mut known: HashMap<&[Tent], usize> = HashMap::new();
    let (mut index_of, mut regions) = (vec![usize::MAX; job.regions.len()], Vec::new());
    for &(region, _) in job.sets.iter().flatten() {
        let region = usize::from(region);
        if index_of[region] == usize::MAX {
            index_of[region] = *known.entry(&job.regions[region]).or_insert_with(|| {
                regions.push(region);
                regions.len() - 1
            });
        }
    }
    (index_of, regions)
}

/// W1, W3.
fn shape(set: &[(u16, i32)], index_of: &[usize]) -> Shape {
    let valued = set.iter().filter(|(_, value)| *value != 0);
    let mut shape: Shape = valued
        .map(|&(region, value)| (index_of[usize::from(region)], width(value)))
        .collect();
    shape.sort_unstable();
    shape
}

pub fn width(value: i32) -> u8 {
    match value {
        0 => 0,
        -128..=127 => 1,
        -32_768..=32_767 => 2,
        _ => 4,
    }
}

/// M1: a group a shape, in order; and the group of each id.
fn started(shapes: Vec<Shape>) -> (Vec<Group>, Vec<usize>) {
    let mut order: Vec<&Shape> = shapes.iter().collect();
    order.sort_by(|a, b| compare(a, b));
    order.dedup();
    let number_of: HashMap<&Shape, usize> = order.iter().copied().zip(0..).collect();
    let group_of: Vec<usize> = shapes.iter().map(|shape| number_of[shape]).collect();
    let group = |&shape: &&Shape| Group {
        shape: shape.clone(),
        sets: 0,
        of: None,
        into: None,
    };
    let mut groups: Vec<Group> = order.iter().map(group).collect();
    for &number in &group_of {
        groups[number].sets += 1;
    }
    (groups, group_of)
}

/// W4.
pub fn row_cost(shape: &Shape) -> usize {
    shape.iter().map(|&(_, bytes)| usize::from(bytes)).sum()
}

/// W9: by the row's cost, then from the last region down, the narrower first.
fn compare(a: &Shape, b: &Shape) -> Ordering {
    let widths = || a.iter().rev().cmp(b.iter().rev());
    row_cost(a).cmp(&row_cost(b)).then_with(widths)
}

/// M4, W7.
fn join(groups: &mut Vec<Group>, first: usize, second: usize, gain: u32) {
    let joined = groups.len();
    let mut shape = [&groups[first].shape[..], &groups[second].shape[..]].concat();
    // The wider of two stands behind, and stays.
    shape.sort_unstable();
    shape.reverse();
    shape.dedup_by_key(|&mut (index, _)| index);
    shape.reverse();
    let sets = groups[first].sets + groups[second].sets;
    for number in [first, second] {
        groups[number].into = Some(joined);
    }
    groups.push(Group {
        shape,
        sets,
        of: Some((first, second, gain)),
        into: None,
    });
}

/// F2, F3: the group of each subtable.
fn subtables(groups: &[Group]) -> Vec<usize> {
    let mut living: Vec<usize> = (0..groups.len())
        .filter(|&g| groups[g].into.is_none())
        .collect();
    living.sort_by(|&a, &b| compare(&groups[a].shape, &groups[b].shape));
    let runs = |&group: &usize| vec![group; groups[group].sets.div_ceil(ROWS)];
    living.iter().flat_map(runs).collect()
}

#[cfg(test)]
mod tests {
    use super::*;
    use ivs::Store;

    /// Every set's group leads to the subtable that the map names, whose columns are the
    /// group's; and what merges save is what the numbers say.
    #[test]
    fn groups_lead_to_the_subtables() {
        for seed in 0..100 {
            let job = jobs::random::job(seed);
            let (axes, bytes) = (job.axes as u32, job.to_bytes());
            let packed = ivs::pack(axes, 0, &bytes).unwrap();
            let job = Job::decode(axes, &bytes).unwrap();
            let history = History::of(&job, &packed);
            assert_eq!(history.starting as u64, packed.done.shapes, "{seed}");
            assert_eq!(
                history.subtables.len() as u64,
                packed.done.subtables,
                "{seed}"
            );
            for (id, &word) in packed.map.iter().enumerate() {
                let group = history.group_of[id];
                let last = history.merges(group).last().copied().unwrap_or(group);
                assert_eq!(history.subtables[(word >> 16) as usize], last, "{seed}");
            }
            let store = Store::decode(&packed.store).unwrap();
            for (outer, &group) in history.subtables.iter().enumerate() {
                let subtable = store.subtable(outer).unwrap().unwrap();
                let mut columns: Vec<&Vec<Tent>> = subtable
                    .columns
                    .iter()
                    .map(|column| &store.regions[column.region])
                    .collect();
                let shape = &history.groups[group].shape;
                let mut regions: Vec<&Vec<Tent>> = shape
                    .iter()
                    .map(|&(index, _)| &job.regions[history.regions[index]])
                    .collect();
                columns.sort();
                regions.sort();
                assert_eq!(columns, regions, "{seed}");
            }
            let saved: u64 = packed.log.chunks(3).map(|merge| u64::from(merge[2])).sum();
            assert_eq!(saved, packed.done.size_before - packed.done.size_after);
        }
    }

    #[test]
    fn shapes_in_their_order() {
        let mut shapes = [
            vec![(0, 2)],
            vec![(1, 1), (2, 1)],
            vec![(1, 2)],
            vec![(2, 1)],
            vec![],
        ];
        shapes.sort_by(compare);
        let order = [
            vec![],
            vec![(2, 1)],
            vec![(0, 2)],
            vec![(1, 2)],
            vec![(1, 1), (2, 1)],
        ];
        assert_eq!(shapes, order);
    }
}
