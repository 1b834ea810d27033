//! Regions by first use, sets without zeros, ids.

use crate::records::{Region, Said};
use std::collections::BTreeMap;

/// A set: (region index, value), no zeros, sorted by region index.
pub type Set = Vec<(usize, i32)>;

/// The sets of a job as the rules number them.
pub struct Numbered {
    /// The coordinates of each region index.
    pub regions: Vec<Region>,
    /// The set of each id.
    pub sets: Vec<Set>,
    /// The id of each set of the job.
    pub ids: Vec<u32>,
}

/// Numbers regions and sets.
pub fn number(mode: u32, said: &Said) -> Numbered {
    let mut numbered = Numbered {
        regions: Vec::new(),
        sets: Vec::new(),
        ids: Vec::new(),
    };
    let mut index_of = BTreeMap::new();
    let mut id_of = BTreeMap::new();
    for values in &said.sets {
        let mut set = Set::new();
        for &(region, value) in values {
            // S1, S2: a value of 0 counts as a use.
            let coordinates = &said.regions[region];
            let index = *index_of.entry(coordinates).or_insert_with(|| {
                numbered.regions.push(coordinates.clone());
                numbered.regions.len() - 1
            });
            // S3: zeros are left out,
            if value != 0 {
                set.push((index, value));
            }
        }
        // and the rest is in rising order of region index.
        set.sort();
        // Ids (S4, S5).
        let next = numbered.sets.len() as u32;
        let id = match id_of.get(&set) {
            Some(&earlier) if mode == 0 => earlier,
            _ => {
                id_of.insert(set.clone(), next);
                numbered.sets.push(set);
                next
            }
        };
        numbered.ids.push(id);
    }
    numbered
}

/// The set's value for every region index below `regions`, zeros included.
pub fn dense(set: &Set, regions: usize) -> Vec<i32> {
    let mut values = vec![0; regions];
    for &(index, value) in set {
        values[index] = value;
    }
    values
}
