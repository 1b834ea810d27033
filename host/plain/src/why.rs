//! Why two ids of a job are where they are, and the bytes that show one (Z1 to Z7).

use crate::groups::{self, Group};
use crate::records::{self, RECORD};
use crate::refusals::{number, Refused};
use crate::store::RUN;
use crate::{build, sets, Done, Plan, Profile, Sizes};
use std::ops::Range;

/// Why two ids are where they are.
#[derive(Clone, Copy, Debug, PartialEq, Eq)]
pub enum Why {
    /// One subtable (Z2).
    SameSubtable,
    /// One group, two runs (Z3).
    CutApart,
    /// Two groups (Z4).
    NeverJoined {
        /// What each group costs.
        costs: [u64; 2],
        /// What they would cost as one.
        joined: u64,
        /// What they cost apart less that.
        gain: i64,
    },
}

/// Of a job, its store and two ids.
pub fn why(axes: u32, job: &[u8], store: &[u8], ids: [u32; 2]) -> Result<Why, Refused> {
    asked(axes, job, store, &ids)?;
    let said = records::check(Profile::Plain, axes as usize, 0, job)?;
    let numbered = sets::number(0, &said);
    let regions = numbered.regions.len();
    let start = groups::by_shape(&numbered.sets, regions);
    let groups = Plan::merged(start, &numbered.sets, regions).groups;
    let [(first, run), (second, other)] = ids.map(|id| home(&groups, id as usize));
    if first != second {
        let (first, second) = (&groups[first], &groups[second]);
        let (costs, joined) = ([first.cost(), second.cost()], first.join(second).cost());
        let gain = (costs[0] + costs[1]) as i64 - joined as i64;
        return Ok(Why::NeverJoined {
            costs,
            joined,
            gain,
        });
    }
    Ok(if run == other {
        Why::SameSubtable
    } else {
        Why::CutApart
    })
}

/// The end record in the job that shows an id (Z5).
pub fn end_record(axes: u32, job: &[u8], store: &[u8], id: u32) -> Result<Range<usize>, Refused> {
    let done = asked(axes, job, store, &[id])?;
    let set = done.ids.iter().take_while(|&&other| other != id).count();
    let records = job.chunks_exact(RECORD).enumerate();
    let mut ends = records.filter(|(_, record)| record[0] == 3);
    let (at, _) = ends.nth(set).expect("an end record for each set");
    Ok(RECORD * at..RECORD * (at + 1))
}

/// The row in the store that shows an id (Z6); an empty one starts at 0 (Z7).
pub fn row(axes: u32, job: &[u8], store: &[u8], id: u32) -> Result<Range<usize>, Refused> {
    let done = asked(axes, job, store, &[id])?;
    let word = done.map[id as usize] as usize;
    let u16_at = |at: usize| usize::from(store[at]) << 8 | usize::from(store[at + 1]);
    let u32_at = |at: usize| u16_at(at) << 16 | u16_at(at + 2);
    let subtable = u32_at(8 + 4 * (word >> 16));
    let (words, columns) = (u16_at(subtable + 2), u16_at(subtable + 4));
    let (long, short) = if words & 0x8000 == 0 { (2, 1) } else { (4, 2) };
    let words = words & 0x7FFF;
    let bytes = words * long + (columns - words) * short;
    let start = subtable + 6 + 2 * columns + (word & 0xFFFF) * bytes;
    Ok(if bytes == 0 {
        0..0
    } else {
        start..start + bytes
    })
}

/// The build of the job, for which these ids and this store may be asked (Z1).
fn asked(axes: u32, job: &[u8], store: &[u8], ids: &[u32]) -> Result<Done, Refused> {
    let done = build(axes, 0, job, &Sizes::PLENTY)?;
    if ids.iter().any(|&id| id as usize >= done.map.len()) {
        return Err(Refused::at(number::NO_ID, 0));
    }
    if store != done.store {
        return Err(Refused::at(number::OTHER_STORE, 0));
    }
    Ok(done)
}

/// The final group that has an id's row, and the run of it (F3).
fn home(groups: &[Group], id: usize) -> (usize, usize) {
    let row = |group: &Group| group.sets.iter().position(|&other| other == id);
    let mut homes = groups.iter().enumerate();
    let found = homes.find_map(|(place, group)| row(group).map(|row| (place, row / RUN)));
    found.expect("every id has a row")
}
