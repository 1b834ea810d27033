//! Columns, rows, regions kept (C), and the bytes of a store (B).

use crate::groups::Group;
use crate::sets::{dense, Numbered};
use crate::widths::{Shape, Width};

/// The most sets of a run (F3).
pub const RUN: usize = 65_535;

/// The store and what came with it.
pub struct Laid {
    pub bytes: Vec<u8>,
    /// The map word of each id.
    pub map: Vec<u32>,
    pub subtables: u64,
    pub regions_kept: u64,
}

/// Lays out the final groups, whose sets are in row order. `implicit` is mode 1.
pub fn lay(axes: usize, numbered: &Numbered, groups: &[Group], implicit: bool) -> Laid {
    // Regions kept (C5).
    let named = |index: &usize| groups.iter().any(|g| g.shape.0[*index] != Width::None);
    let kept: Vec<usize> = (0..numbered.regions.len()).filter(named).collect();

    // Runs, and the map's words (F3, F4).
    let mut map = vec![0; numbered.sets.len()];
    let mut subtables: Vec<Vec<u8>> = Vec::new();
    for group in groups {
        for run in group.sets.chunks(RUN) {
            for (inner, &id) in run.iter().enumerate() {
                map[id] = (subtables.len() * 65_536 + inner) as u32;
            }
            subtables.push(subtable(&group.shape, run, numbered, &kept));
        }
    }
    // F5: mode 1 without sets.
    let null_subtables = u64::from(implicit && subtables.is_empty());

    let list = region_list(axes, numbered, &kept);
    Laid {
        bytes: place(&list, &subtables, null_subtables),
        map,
        subtables: subtables.len() as u64 + null_subtables,
        regions_kept: kept.len() as u64,
    }
}

/// Header, region list, subtables (B1, B4, B5).
fn place(list: &[u8], subtables: &[Vec<u8>], null_subtables: u64) -> Vec<u8> {
    let count = subtables.len() + null_subtables as usize;
    let header = 8 + 4 * count;
    let mut bytes = Vec::new();
    put_u16(&mut bytes, 1);
    put_u32(&mut bytes, header);
    put_u16(&mut bytes, count);
    let mut offset = header + list.len();
    for subtable in subtables {
        put_u32(&mut bytes, offset);
        offset += subtable.len();
    }
    for _ in 0..null_subtables {
        put_u32(&mut bytes, 0);
    }
    bytes.extend(list);
    bytes.extend(subtables.iter().flatten());
    bytes
}

/// The region list (B2).
fn region_list(axes: usize, numbered: &Numbered, kept: &[usize]) -> Vec<u8> {
    let mut bytes = Vec::new();
    put_u16(&mut bytes, axes);
    put_u16(&mut bytes, kept.len());
    for &index in kept {
        for coordinate in numbered.regions[index].iter().flatten() {
            bytes.extend(coordinate.to_be_bytes());
        }
    }
    bytes
}

/// One subtable (B3), with its rows (C4).
fn subtable(shape: &Shape, run: &[usize], numbered: &Numbered, kept: &[usize]) -> Vec<u8> {
    let columns = columns(shape);
    let (word_count, bytes_of) = row_format(shape);
    let mut bytes = Vec::new();
    put_u16(&mut bytes, run.len());
    put_u16(&mut bytes, word_count);
    put_u16(&mut bytes, columns.len());
    for index in &columns {
        let place = kept.iter().position(|k| k == index);
        put_u16(&mut bytes, place.expect("a column's region is kept"));
    }
    for &id in run {
        let values = dense(&numbered.sets[id], numbered.regions.len());
        for &index in &columns {
            let all = values[index].to_be_bytes();
            bytes.extend(&all[4 - bytes_of(shape.0[index])..]);
        }
    }
    bytes
}

/// The regions of the columns, in their order (C1).
fn columns(shape: &Shape) -> Vec<usize> {
    let of = |width: Width| (0..shape.0.len()).filter(move |&i| shape.0[i] == width);
    of(Width::Four)
        .chain(of(Width::Two))
        .chain(of(Width::One))
        .collect()
}

/// The word count (C3), and the bytes that a column of each width takes in a row (C2).
fn row_format(shape: &Shape) -> (usize, fn(Width) -> usize) {
    let count = |width: Width| shape.0.iter().filter(|&&w| w == width).count();
    if count(Width::Four) > 0 {
        let long = |w| if w == Width::Four { 4 } else { 2 };
        (count(Width::Four) + 0x8000, long)
    } else {
        let short = |w| if w == Width::Two { 2 } else { 1 };
        (count(Width::Two), short)
    }
}

fn put_u16(bytes: &mut Vec<u8>, number: usize) {
    let number = u16::try_from(number).expect("the rules keep this below 65,536");
    bytes.extend(number.to_be_bytes());
}

fn put_u32(bytes: &mut Vec<u8>, number: usize) {
    let number = u32::try_from(number).expect("R60 keeps a store below 4 GiB");
    bytes.extend(number.to_be_bytes());
}
