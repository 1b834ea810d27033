//! A job taken apart.

use crate::names;
use ivs::{Refused, Tent};

const RECORD: usize = 12;
/// The one refusal of a forecast that is about building, and not about the job.
const SHAPES_FULL: u32 = 10;

pub struct Job {
    pub axes: usize,
    /// What the regions are called, by number.
    pub names: Vec<String>,
    pub regions: Vec<Vec<Tent>>,
    /// Region numbers with values, in the order of their records.
    pub sets: Vec<Vec<(u16, i32)>>,
}

impl Job {
    /// The job of these bytes, or the library's refusal.
    pub fn decode(axes: u32, bytes: &[u8]) -> Result<Job, Refused> {
        check(axes, bytes)?;
        let axes = axes as usize;
        let (mut tents, mut sets, mut set) = (Vec::new(), Vec::new(), Vec::new());
        for record in bytes.chunks_exact(RECORD) {
            let coordinate = |at: usize| i16::from_be_bytes([record[at], record[at + 1]]);
            match record[0] {
                1 => tents.push((coordinate(4), coordinate(6), coordinate(8))),
                2 => {
                    let value = [record[4], record[5], record[6], record[7]];
                    let region = u16::from_be_bytes([record[3], record[1]]);
                    set.push((region, i32::from_be_bytes(value)));
                }
                _ => sets.push(std::mem::take(&mut set)),
            }
        }
        let regions: Vec<Vec<Tent>> = tents.chunks(axes).map(<[_]>::to_vec).collect();
        Ok(Job {
            axes,
            names: names::of_job(regions.len()),
            regions,
            sets,
        })
    }
}

/// Has the library look at the job, so that there is one judge of jobs.
fn check(axes: u32, bytes: &[u8]) -> Result<(), Refused> {
    match ivs::forecast(axes, 0, bytes) {
        Err(refused) if refused.number != SHAPES_FULL => Err(refused),
        _ => Ok(()),
    }
}
