//! What the rules say of every done build, whoever did it.

use crate::check::same;
use jobs::{Job, Region};
use plain::{Done, Reading};
use std::collections::{BTreeMap, BTreeSet};

/// All laws that are cheap.
pub fn done(job: &Job, mode: u32, done: &Done) -> Result<(), String> {
    counts(job, done)?;
    if mode == 0 {
        merging(done)?;
        origins(job, done)
    } else {
        implicit(job, done)
    }?;
    // A3: exactly, in both modes.
    let c = &done.counts;
    same("forecast", &c.forecast, &c.store_bytes)
}

/// The counts are those of what was written.
fn counts(job: &Job, done: &Done) -> Result<(), String> {
    let c = &done.counts;
    same("store bytes", &c.store_bytes, &(done.store.len() as u64))?;
    same("ids", &done.ids.len(), &job.sets.len())?;
    same("distinct ids", &c.distinct_ids, &(done.map.len() as u64))?;
    let last = done.ids.iter().max().map_or(0, |&id| u64::from(id) + 1);
    same("ids from 0 on", &c.distinct_ids, &last)?;
    same("log", &done.log.len(), &(3 * c.merges as usize))
}

/// Demand 3, as far as the answer shows it.
fn merging(done: &Done) -> Result<(), String> {
    let c = &done.counts;
    let (n, m) = (c.shapes, c.merges);
    if m >= n.max(1) {
        return Err(format!("{m} merges of {n} groups"));
    }
    let gains: u64 = done.log.chunks(3).map(|entry| u64::from(entry[2])).sum();
    same("size after", &(c.size_before - gains), &c.size_after)?;
    // N(N-1)/2 + M(N-1) - M(M+1)/2
    let pairs = n * n.saturating_sub(1) / 2 + m * n.saturating_sub(1) - m * (m + 1) / 2;
    same("pairs", &c.pairs, &pairs)?;
    let mut living: Vec<u32> = (0..n as u32).collect();
    // The starting groups of each number, as the log says it.
    let mut of: Vec<Vec<u32>> = living.iter().map(|&number| vec![number]).collect();
    for (k, entry) in done.log.chunks(3).enumerate() {
        let [first, second, gain] = entry else {
            return Err("the log has no whole entries".into());
        };
        let alive = living.contains(first) && living.contains(second);
        if first >= second || *gain == 0 || !alive {
            return Err(format!("log entry {k}: {entry:?}"));
        }
        living.retain(|g| g != first && g != second);
        living.push(n as u32 + k as u32);
        of.push([&of[*first as usize][..], &of[*second as usize][..]].concat());
    }
    let groups: BTreeSet<Vec<u32>> = living.iter().map(|&g| sorted(&of[g as usize])).collect();
    same("groups by log and by origins", &groups, &told(done)?)
}

/// The starting groups of each final group, as the origins tell it; they tell of each
/// starting group once, in order (F6).
fn told(done: &Done) -> Result<BTreeSet<Vec<u32>>, String> {
    let n = done.counts.shapes as usize;
    same("origins", &done.origins.len(), &(2 * n))?;
    let mut groups = vec![Vec::new(); n - done.counts.merges as usize];
    for (number, origin) in done.origins.chunks(2).enumerate() {
        same("origin", &origin[0], &(number as u32))?;
        let group = groups.get_mut(origin[1] as usize);
        group.ok_or("an origin of no group")?.push(origin[0]);
    }
    Ok(groups.into_iter().collect())
}

fn sorted(numbers: &[u32]) -> Vec<u32> {
    let mut numbers = numbers.to_vec();
    numbers.sort_unstable();
    numbers
}

/// Each set's row is in a subtable of the final group that the set's shape went into, by the
/// origins, where groups are cut at 65,535 rows. (The source's map is the same.)
fn origins(job: &Job, done: &Done) -> Result<(), String> {
    let shapes = shapes(job);
    let starting: BTreeSet<&Shape> = shapes.iter().collect();
    same("N", &done.counts.shapes, &(starting.len() as u64))?;
    let place: BTreeMap<&Shape, usize> = starting
        .into_iter()
        .zip(done.origins.chunks(2).map(|origin| origin[1] as usize))
        .collect();
    let mut rows = vec![0_u32; place.len()];
    let mut seen = vec![false; done.map.len()];
    for (shape, id) in shapes.iter().zip(&done.ids) {
        if !std::mem::replace(&mut seen[*id as usize], true) {
            rows[place[shape]] += 1;
        }
    }
    let mut subtables = vec![0];
    for group in &rows {
        let before = subtables[subtables.len() - 1];
        subtables.push(before + group.div_ceil(65_535));
    }
    for (shape, id) in shapes.iter().zip(&done.ids) {
        let (at, outer) = (place[shape], done.map[*id as usize] >> 16);
        let within = (subtables[at]..subtables[at + 1]).contains(&outer);
        same("a row of its shape's group", &within, &true)?;
    }
    Ok(())
}

/// The row cost, and the bytes of each region's value from the last region in use on: in the
/// order W9.
type Shape = (u32, Vec<u8>);

/// The shape of each set.
fn shapes(job: &Job) -> Vec<Shape> {
    let mut index: BTreeMap<&Region, usize> = BTreeMap::new();
    for (region, _) in job.sets.iter().flatten() {
        let next = index.len();
        index.entry(&job.regions[*region as usize]).or_insert(next);
    }
    let bytes = |value: i32| match value {
        0 => 0,
        _ if i8::try_from(value).is_ok() => 1,
        _ if i16::try_from(value).is_ok() => 2,
        _ => 4,
    };
    let shape = |set: &Vec<(u16, i32)>| {
        let mut widths = vec![0; index.len()];
        for (region, value) in set {
            let at = index[&job.regions[*region as usize]];
            widths[index.len() - 1 - at] = bytes(*value);
        }
        (widths.iter().map(|&width| u32::from(width)).sum(), widths)
    };
    job.sets.iter().map(shape).collect()
}

/// Mode 1: an id for each set, its row in order of adding; no merging.
fn implicit(job: &Job, done: &Done) -> Result<(), String> {
    let rows: Vec<u32> = (0..job.sets.len() as u32).collect();
    same("ids", &done.ids, &rows)?;
    same("map", &done.map, &rows)?;
    let c = &done.counts;
    let nothing = (c.shapes, c.merges, c.pairs, c.subtables);
    same("N, merges, pairs, subtables", &nothing, &(0, 0, 0, 1))?;
    same("origins", &done.origins.len(), &0)?;
    same("sizes", &c.size_before, &c.size_after)
}

/// Demand 2: every set's row, read back, has the set's value for every region of
/// the store's list, by coordinates, and the list has every region that a set
/// names with a value other than 0. The reader is told store, outer, inner, region.
pub fn rows_read_back(
    job: &Job,
    done: &Done,
    read: impl Fn(&[u8], u32, u32, u32) -> Result<Reading, u32>,
) -> Result<(), String> {
    let list = region_list(&done.store, job.axes);
    same(
        "regions kept",
        &done.counts.regions_kept,
        &(list.len() as u64),
    )?;
    for (set, id) in job.sets.iter().zip(&done.ids) {
        let word = done.map[*id as usize];
        let mut wanted: BTreeMap<&Region, i32> = set
            .iter()
            .map(|&(region, value)| (&job.regions[region as usize], value))
            .collect();
        for (number, region) in list.iter().enumerate() {
            let value = match read(&done.store, word >> 16, word & 0xFFFF, number as u32) {
                Ok(Reading::Written(value)) => value,
                Ok(Reading::NoColumn) => 0,
                Err(refused) => return Err(format!("reading is refused: {refused}")),
            };
            let named = wanted.remove(region).unwrap_or(0);
            same("value read", &value, &named)?;
        }
        if wanted.values().any(|&value| value != 0) {
            return Err(format!("regions not in the list: {wanted:?}"));
        }
    }
    Ok(())
}

/// The regions of a store placed as B4 says.
fn region_list(store: &[u8], axes: usize) -> Vec<Region> {
    let at = u32::from_be_bytes([store[2], store[3], store[4], store[5]]) as usize;
    let count = u16::from_be_bytes([store[at + 2], store[at + 3]]) as usize;
    let numbers: Vec<i16> = store[at + 4..at + 4 + 6 * axes * count]
        .chunks(2)
        .map(|b| i16::from_be_bytes([b[0], b[1]]))
        .collect();
    let axis = |c: &[i16]| [c[0], c[1], c[2]];
    numbers
        .chunks(3 * axes)
        .map(|region| region.chunks(3).map(axis).collect())
        .collect()
}
