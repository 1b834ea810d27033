//! Stores as other programs may write them, of a seed: regions, list and subtables in any order,
//! with room between the parts, outer numbers that share a subtable or have none, columns of
//! any width and of zeros, regions that nobody uses.

use crate::{Region, Rng};

/// A store with what was put into it.
#[derive(Clone, Debug)]
pub struct Store {
    /// The axis count.
    pub axes: usize,
    /// The regions of the list; no two are equal.
    pub regions: Vec<Region>,
    /// The subtables by outer number; none where there is none.
    pub subtables: Vec<Option<Subtable>>,
    /// Its bytes.
    pub bytes: Vec<u8>,
}

/// A subtable.
#[derive(Clone, Debug, PartialEq, Eq)]
pub struct Subtable {
    /// The region of each column.
    pub columns: Vec<usize>,
    /// How many of them, the first ones, have full width.
    pub words: usize,
    /// Full width is 4 bytes and the other 2, not 2 and 1.
    pub long: bool,
    /// The values of each row.
    pub rows: Vec<Vec<i32>>,
}

impl Store {
    /// Every row: outer number, inner number, and its values by regions of the list.
    pub fn rows(&self) -> impl Iterator<Item = (usize, usize, Vec<(usize, i32)>)> + '_ {
        let tables = self.subtables.iter().enumerate();
        let tables = tables.filter_map(|(outer, table)| Some((outer, table.as_ref()?)));
        tables.flat_map(|(outer, table)| {
            let row = move |(inner, row): (usize, &Vec<i32>)| {
                let values = table.columns.iter().copied().zip(row.iter().copied());
                (outer, inner, values.collect())
            };
            table.rows.iter().enumerate().map(row)
        })
    }
}

/// The store of `seed`.
pub fn random(seed: u64) -> Store {
    let rng = &mut Rng::new(seed ^ 0x105);
    let axes = rng.between(1, 3);
    let regions = regions(rng, axes);
    let some = rng.between(0, 4);
    let tables: Vec<Subtable> = (0..some).map(|_| subtable(rng, regions.len())).collect();
    // Which subtable each outer number has; past the last is none.
    let outer = (0..rng.between(0, 6)).map(|_| rng.below(some + 1));
    let outer: Vec<usize> = outer.collect();
    let bytes = placed(rng, axes, &regions, &tables, &outer);
    Store {
        axes,
        regions,
        subtables: outer.iter().map(|&one| tables.get(one).cloned()).collect(),
        bytes,
    }
}

/// Different regions, by luck in any order.
fn regions(rng: &mut Rng, axes: usize) -> Vec<Region> {
    let mut regions: Vec<Region> = Vec::new();
    for _ in 0..rng.between(0, 9) {
        let tent =
            |rng: &mut Rng| [0; 3].map(|_: i16| rng.pick(&[-0x4000, -1, 0, 1, 0x2000, 0x4000]));
        let region: Region = (0..axes).map(|_| tent(rng)).collect();
        if !regions.contains(&region) {
            regions.push(region);
        }
    }
    regions
}

fn subtable(rng: &mut Rng, regions: usize) -> Subtable {
    let mut columns: Vec<usize> = (0..regions).collect();
    rng.shuffle(&mut columns);
    columns.truncate(rng.below(regions + 1));
    let (words, long) = (rng.below(columns.len() + 1), rng.one_in(2));
    let rows = if rng.one_in(8) { 0 } else { rng.between(1, 9) };
    let zeros: Vec<bool> = columns.iter().map(|_| rng.one_in(5)).collect();
    let value =
        |rng: &mut Rng, column: usize| match (zeros[column] || rng.one_in(4), column < words, long)
        {
            (true, _, _) => 0,
            (_, true, true) => rng.bits() as i32,
            (_, false, false) => i32::from(rng.bits() as i8),
            _ => i32::from(rng.bits() as i16),
        };
    let row = |_| {
        (0..columns.len())
            .map(|column| value(rng, column))
            .collect()
    };
    let mut rows: Vec<Vec<i32>> = (0..rows).map(row).collect();
    // Rows that come again.
    if rows.len() > 2 && rng.one_in(2) {
        rows[2] = rows[0].clone();
    }
    Subtable {
        columns,
        words,
        long,
        rows,
    }
}

/// The bytes: the header, then the list and the subtables in any order, now and then with noise
/// between them and behind.
fn placed(
    rng: &mut Rng,
    axes: usize,
    regions: &[Region],
    tables: &[Subtable],
    outer: &[usize],
) -> Vec<u8> {
    let mut parts: Vec<Vec<u8>> = tables.iter().map(table_bytes).collect();
    parts.push(list_bytes(axes, regions));
    let mut order: Vec<usize> = (0..parts.len()).collect();
    rng.shuffle(&mut order);
    let mut bytes = vec![0; 8 + 4 * outer.len()];
    let mut at = vec![0; parts.len()];
    for part in order {
        gap(rng, &mut bytes);
        at[part] = bytes.len();
        bytes.extend(&parts[part]);
    }
    gap(rng, &mut bytes);
    bytes[..2].copy_from_slice(&[0, 1]);
    bytes[2..6].copy_from_slice(&(at[tables.len()] as u32).to_be_bytes());
    bytes[6..8].copy_from_slice(&(outer.len() as u16).to_be_bytes());
    for (number, &table) in outer.iter().enumerate() {
        let offset = if table < tables.len() { at[table] } else { 0 };
        bytes[8 + 4 * number..][..4].copy_from_slice(&(offset as u32).to_be_bytes());
    }
    bytes
}

fn gap(rng: &mut Rng, bytes: &mut Vec<u8>) {
    let noise = if rng.one_in(2) { 0 } else { rng.between(1, 5) };
    bytes.extend((0..noise).map(|_| rng.bits() as u8));
}

fn list_bytes(axes: usize, regions: &[Region]) -> Vec<u8> {
    let mut bytes = [axes, regions.len()].map(two).concat();
    let numbers = regions.iter().flatten().flatten();
    bytes.extend(numbers.flat_map(|number| number.to_be_bytes()));
    bytes
}

fn table_bytes(table: &Subtable) -> Vec<u8> {
    let word = table.words | if table.long { 0x8000 } else { 0 };
    let mut bytes = [table.rows.len(), word, table.columns.len()]
        .map(two)
        .concat();
    bytes.extend(table.columns.iter().flat_map(|&column| two(column)));
    for row in &table.rows {
        for (column, value) in row.iter().enumerate() {
            let full = column < table.words;
            let width = [[1, 2], [2, 4]][usize::from(table.long)][usize::from(full)];
            bytes.extend(&value.to_be_bytes()[4 - width..]);
        }
    }
    bytes
}

fn two(number: usize) -> [u8; 2] {
    (number as u16).to_be_bytes()
}
