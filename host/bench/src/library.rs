//! The proved merging (`crates/merging`), called through `crates/merging_bench`.
//!
//! The contract asks for tables in lent words (`Ready` in `crates/merging/specs`,
//! with `Laid` in `crates/slots/specs`) and for pair records; [`optimize`] lays the tables
//! out anew before each call and lends as many records as a build does, so that it is met.

// It calls what is not Rust.
#![allow(unsafe_code)]

use std::time::Duration;

use ivs::{Pair, PAIRS};

use crate::clock::cpu_time;

/// A starting group: its shape, a width for each region, and its number of sets.
pub struct Group {
    /// 0, 1, 2 or 4 for each region.
    pub shape: Vec<u32>,
    /// How many sets it has.
    pub sets: u32,
}

/// What one call did.
pub struct Outcome {
    /// Each join: first number, second number, gain.
    pub log: Vec<u32>,
    /// The pairs that were weighed.
    pub weighed: u64,
    /// The modelled size before and after.
    pub sizes: [u64; 2],
    /// How long the call took, by [`cpu_time`]; laying out is not in it.
    pub took: Duration,
}

extern "C" {
    /// `crates/merging_bench/src/lib.rt`; a slice is a pointer and a length.
    fn fenikezo_optimize(
        pairs: *mut Pair,
        pairs_len: usize,
        work: *mut u32,
        work_len: usize,
        regions: usize,
        groups: usize,
        slots: usize,
        order: usize,
        counts: usize,
        place: usize,
        rows: usize,
        columns: usize,
        into: usize,
        log: usize,
        planes: usize,
        told: *mut u64,
        told_len: usize,
    ) -> usize;
}

/// What the words hold that the call is to write before it reads.
const NOISE: u32 = 0xA5A5_A5A5;

/// Where the tables lie, one behind the other, as `Laid` says.
struct Tables {
    order: usize,
    counts: usize,
    place: usize,
    rows: usize,
    columns: usize,
    into: usize,
    log: usize,
    planes: usize,
    end: usize,
}

impl Tables {
    /// For so many groups and regions; the slots lie at 0.
    fn new(groups: usize, regions: usize) -> Tables {
        let order = groups * regions;
        let counts = order + groups;
        let place = counts + groups;
        let rows = place + 2 * groups;
        let columns = rows + groups;
        let into = columns + groups;
        let log = into + 2 * groups;
        let planes = log + 3 * groups;
        Tables {
            order,
            counts,
            place,
            rows,
            columns,
            into,
            log,
            planes,
            end: planes + groups * 3 * regions.div_ceil(32),
        }
    }
}

/// What is lent, used again from call to call.
#[derive(Default)]
pub struct Memory {
    pairs: Vec<Pair>,
    work: Vec<u32>,
}

impl Memory {
    /// Noise in all pair records, and in so many words.
    fn noise(&mut self, words: usize) {
        let pair = Pair {
            gain: NOISE,
            first: NOISE,
            second: NOISE,
        };
        self.pairs.clear();
        self.pairs.resize(PAIRS, pair);
        self.work.clear();
        self.work.resize(words, NOISE);
    }
}

/// Merges the groups, which lie in slots as they are given and are numbered as
/// `order` says: number i is group `order[i]`. What is lent is filled with noise
/// before the tables are laid out in it.
///
/// # Panics
/// Where the groups are not as the contract asks.
pub fn optimize(groups: &[Group], order: &[usize], lent: &mut Memory) -> Outcome {
    let count = groups.len();
    let regions = groups.first().map_or(0, |g| g.shape.len());
    check(groups, order, regions);
    let t = Tables::new(count, regions);
    lent.noise(t.end);
    let Memory { pairs, work } = lent;
    for (s, group) in groups.iter().enumerate() {
        work[s * regions..(s + 1) * regions].copy_from_slice(&group.shape);
        work[t.counts + s] = group.sets;
    }
    for (i, &s) in order.iter().enumerate() {
        work[t.order + i] = s as u32;
    }
    let mut told = [0; 3];
    let began = cpu_time();
    // SAFETY: all pointers come with the lengths of what they point to, which
    // nothing else holds, and the contract's `requires` are met: `check` has seen
    // few groups and regions, widths by their costs, a slot of its own for each number and
    // few sets, `Tables::new` lays the tables one behind the other, there are as many
    // pair records as 1,024 groups ask for, and `told` has three words.
    let merges = unsafe {
        fenikezo_optimize(
            pairs.as_mut_ptr(),
            pairs.len(),
            work.as_mut_ptr(),
            work.len(),
            regions,
            count,
            0,
            t.order,
            t.counts,
            t.place,
            t.rows,
            t.columns,
            t.into,
            t.log,
            t.planes,
            told.as_mut_ptr(),
            told.len(),
        )
    };
    let took = cpu_time() - began;
    let [weighed, before, after] = told;
    Outcome {
        log: work[t.log..t.log + 3 * merges].to_vec(),
        weighed,
        sizes: [before, after],
        took,
    }
}

/// What the contract's `requires` ask of the groups.
fn check(groups: &[Group], order: &[usize], regions: usize) {
    assert!(groups.len() <= 1024 && regions <= 65_536, "too many");
    for group in groups {
        assert_eq!(group.shape.len(), regions, "shapes of one length");
        assert!(
            group.shape.iter().all(|&w| matches!(w, 0 | 1 | 2 | 4)),
            "costs of widths"
        );
    }
    let mut slots = order.to_vec();
    slots.sort_unstable();
    assert!(slots.iter().copied().eq(0..groups.len()), "a slot each");
    let sets: u64 = groups.iter().map(|g| u64::from(g.sets)).sum();
    assert!(sets < 1 << 32, "few sets");
}
