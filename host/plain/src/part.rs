//! Where two sets of a job part (Q1 to Q4).

use crate::records::{self, Region};
use crate::refusals::{number, Refused};
use std::collections::BTreeSet;

/// How the first of two sets stands to the second.
#[derive(Clone, Copy, Debug, PartialEq, Eq)]
pub enum Parted {
    /// Both have the same values.
    Equal,
    /// The first has the smaller value where they part.
    Smaller(Parting),
    /// The first has the larger value where they part.
    Larger(Parting),
}

/// Where two sets part.
#[derive(Clone, Copy, Debug, PartialEq, Eq)]
pub struct Parting {
    /// The region's index (S2).
    pub index: usize,
    /// The number in the job of the region that first used that index.
    pub region: usize,
    /// The values of the first set and of the second.
    pub values: [i32; 2],
}

/// One call, lent so many words of work: what it answers.
pub fn part(
    axes: u32,
    job: &[u8],
    first: u32,
    second: u32,
    work: usize,
) -> Result<Parted, Refused> {
    // As a build of mode 0 that is lent pair records; so R2 and R9 are never given.
    crate::early(axes, 0, job, work, crate::PAIRS)?;
    let said = records::check(crate::Profile::Plain, axes as usize, 0, job)?;
    let set = |number: u32| said.sets.get(number as usize);
    let (Some(first), Some(second)) = (set(first), set(second)) else {
        return Err(Refused::at(number::NO_SET, 0));
    };
    let value = |set: &[(usize, i32)], coordinates: &Region| {
        let named = set.iter().find(|v| said.regions[v.0] == *coordinates);
        named.map_or(0, |v| v.1)
    };
    // The regions in use, in the order in which values first name them.
    let (mut used, mut index) = (BTreeSet::new(), 0);
    for &(region, _) in said.sets.iter().flatten() {
        let coordinates = &said.regions[region];
        if !used.insert(coordinates) {
            continue;
        }
        let values = [value(first, coordinates), value(second, coordinates)];
        let parting = Parting {
            index,
            region,
            values,
        };
        if values[0] < values[1] {
            return Ok(Parted::Smaller(parting));
        }
        if values[0] > values[1] {
            return Ok(Parted::Larger(parting));
        }
        index += 1;
    }
    Ok(Parted::Equal)
}
