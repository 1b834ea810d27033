//! The forecast (A3): the bytes that a store takes, added up from its groups. Nothing here is
//! shared with what writes the store, so that the one can judge the other.

use crate::groups::Group;
use crate::widths::{Shape, Width};

/// The most rows of a subtable (F3).
const ROWS: u64 = 65_535;

/// The bytes of the store of these groups, in mode 1 if `implicit`.
pub fn bytes(axes: u64, groups: &[Group], implicit: bool) -> u64 {
    let header = 8;
    let regions = groups.iter().map(|group| group.shape.clone());
    let kept = regions
        .reduce(|a, b| a.join(&b))
        .map_or(0, |all| columns(&all));
    let list = 4 + 6 * axes * kept;
    // Mode 1 without sets has an offset, and nothing at it (F5, B5).
    let null = if implicit && groups.is_empty() { 4 } else { 0 };
    header + list + null + groups.iter().map(of_group).sum::<u64>()
}

/// What a group adds: for each of its runs an offset and a subtable's head, and all its rows.
fn of_group(group: &Group) -> u64 {
    let sets = group.sets.len() as u64;
    let runs = sets.div_ceil(ROWS);
    let head = 6 + 2 * columns(&group.shape);
    runs * (4 + head) + sets * row(&group.shape)
}

/// How many regions have a column.
fn columns(shape: &Shape) -> u64 {
    count(shape, Width::One) + count(shape, Width::Two) + count(shape, Width::Four)
}

/// The bytes of a row (C2): what is not Four takes 2 beside a Four, else 2 or 1.
fn row(shape: &Shape) -> u64 {
    let [one, two, four] = [Width::One, Width::Two, Width::Four].map(|w| count(shape, w));
    if four > 0 {
        4 * four + 2 * (two + one)
    } else {
        2 * two + one
    }
}

fn count(shape: &Shape, width: Width) -> u64 {
    shape.0.iter().filter(|&&other| other == width).count() as u64
}
