//! A plain reading of the rules, docs/RULES.md.
//!
//! Written from the rules alone, not from the source they are taken from and not
//! from the proved library, so that it can judge both. It is slow where slow is
//! simpler: the code is meant to be believed by reading it beside the rules. Each
//! part names the rules that it renders by their labels.
//!
//! [`build`] says what one build call must answer and write, [`part`] where two sets
//! of a job part, [`why`] why two ids of a build are where they are; [`read`] says what reading one value must answer, and [`stores`] what is made
//! of a whole store.

mod forecast;
pub mod glyphs;
mod groups;
mod merging;
mod part;
mod reading;
mod records;
mod refusals;
mod sets;
mod store;
pub mod stores;
pub mod table;
pub mod why;
mod widths;

pub use part::{part, Parted, Parting};
pub use reading::{read, Reading};
pub use refusals::{name, number, Refused};

use groups::Group;

/// The most records of a job (J3).
pub const RECORD_LIMIT: usize = 1_048_576;

/// The most regions of a job (J3).
pub const REGION_LIMIT: usize = 32_767;

/// The pair records that every job needs (J7).
pub const PAIRS: usize = 1_048_576;

/// How much memory the caller lends: words of work, pair records, bytes of output,
/// words of ids, map, log and origins.
#[derive(Clone, Copy, Debug, PartialEq, Eq)]
pub struct Sizes {
    /// Words of work.
    pub work: usize,
    /// Pair records.
    pub pairs: usize,
    /// Bytes of output.
    pub out: usize,
    /// Words of ids.
    pub ids: usize,
    /// Words of map.
    pub map: usize,
    /// Words of log.
    pub log: usize,
    /// Words of origins.
    pub origins: usize,
}

impl Sizes {
    /// As much of everything as any job could ask for.
    pub const PLENTY: Sizes = Sizes {
        work: usize::MAX,
        pairs: usize::MAX,
        out: usize::MAX,
        ids: usize::MAX,
        map: usize::MAX,
        log: usize::MAX,
        origins: usize::MAX,
    };
}

/// The numbers that a done build gives (A1).
#[derive(Clone, Copy, Debug, Default, PartialEq, Eq)]
pub struct Counts {
    /// Bytes of the store.
    pub store_bytes: u64,
    /// Subtables, a null one too.
    pub subtables: u64,
    /// Regions kept.
    pub regions_kept: u64,
    /// Distinct ids.
    pub distinct_ids: u64,
    /// N: the groups before merging.
    pub shapes: u64,
    /// Merges.
    pub merges: u64,
    /// Pairs weighed.
    pub pairs: u64,
    /// Modelled size before merging.
    pub size_before: u64,
    /// Modelled size after merging.
    pub size_after: u64,
    /// The forecast of the store's bytes (A3).
    pub forecast: u64,
}

/// What a done build gives and writes.
#[derive(Clone, Debug, PartialEq, Eq)]
pub struct Done {
    /// The ten numbers.
    pub counts: Counts,
    /// The store's bytes.
    pub store: Vec<u8>,
    /// The id of each set (S6).
    pub ids: Vec<u32>,
    /// For each id, outer x 65,536 + inner.
    pub map: Vec<u32>,
    /// For each merge: first number, second number, gain.
    pub log: Vec<u32>,
    /// For each starting group: its number, the place of its final group (F6).
    pub origins: Vec<u32>,
}

/// The published number of work words for a job of `records` records with `regions`
/// regions at its head (J7); 0 above the record limit (H1).
pub fn work_words(records: usize, regions: usize) -> usize {
    if records > RECORD_LIMIT {
        return 0;
    }
    let regions = regions.min(REGION_LIMIT);
    16 * records + records.min(1_024) * (regions + 16 + 3 * regions.div_ceil(32))
}

/// The regions at a job's head: the axis records that it begins with over the axis count,
/// rounded up, at most as many as there may be (J7).
pub fn head_regions(axes: u32, job: &[u8]) -> usize {
    let axis = |record: &&[u8]| record[0] == 1;
    let run = job.chunks_exact(records::RECORD).take_while(axis).count();
    match axes {
        0 => 0,
        axes => run.div_ceil(axes as usize).min(REGION_LIMIT),
    }
}

/// The published number of a job.
pub fn job_words(axes: u32, job: &[u8]) -> usize {
    work_words(job.len() / records::RECORD, head_regions(axes, job))
}

/// For which reader a store is built.
#[derive(Clone, Copy, Debug, PartialEq, Eq)]
pub enum Profile {
    /// Any.
    Plain,
    /// The panel's (R70 to R72).
    Panel,
}

/// One build call: what it answers, and what it writes when it is done.
pub fn build(axes: u32, mode: u32, job: &[u8], sizes: &Sizes) -> Result<Done, Refused> {
    build_for(Profile::Plain, axes, mode, job, sizes)
}

/// The same by a profile.
pub fn build_for(
    profile: Profile,
    axes: u32,
    mode: u32,
    job: &[u8],
    sizes: &Sizes,
) -> Result<Done, Refused> {
    early(axes, mode, job, sizes.work, sizes.pairs)?;
    // The records, then the end of the job (T2, T3).
    let said = records::check(profile, axes as usize, mode, job)?;
    let numbered = sets::number(mode, &said);
    let regions = numbered.regions.len();

    // The groups: M1 to M6, or F5.
    let plan = if mode == 0 {
        let start = groups::by_shape(&numbered.sets, regions);
        // T4; the place is 0 (T5).
        if start.len() > 1_024 {
            return Err(Refused::at(number::SHAPES_FULL, 0));
        }
        Plan::merged(start, &numbered.sets, regions)
    } else {
        Plan::one_group(&numbered.sets, regions)
    };
    // R72, behind R10.
    if profile == Profile::Panel && plan.groups.iter().any(|group| group.shape.columns() > 32) {
        return Err(Refused::at(number::WIDE_SUBTABLE, 0));
    }
    let (counts, forecast) = (
        plan.counts,
        forecast::bytes(axes as u64, &plan.groups, mode == 1),
    );

    if sizes.ids < numbered.ids.len() {
        return Err(Refused::at(number::IDS_SHORT, 0));
    }
    if sizes.map < numbered.sets.len() {
        return Err(Refused::at(number::MAP_SHORT, 0));
    }
    if mode == 0 && counts.shapes >= 1 && (sizes.log as u64) < 3 * (counts.shapes - 1) {
        return Err(Refused::at(number::LOG_SHORT, 0));
    }
    if mode == 0 && (sizes.origins as u64) < 2 * counts.shapes {
        return Err(Refused::at(number::ORIGINS_SHORT, 0));
    }
    // Before anything is laid out: offsets have four bytes (R60).
    if forecast > u64::from(u32::MAX) {
        return Err(Refused::at(number::STORE_TOO_BIG, 0));
    }
    let laid = store::lay(axes as usize, &numbered, &plan.groups, mode == 1);
    if sizes.out < laid.bytes.len() {
        return Err(Refused::at(number::OUT_SHORT, 0));
    }
    Ok(Done {
        counts: Counts {
            store_bytes: laid.bytes.len() as u64,
            subtables: laid.subtables,
            regions_kept: laid.regions_kept,
            distinct_ids: numbered.sets.len() as u64,
            forecast,
            ..counts
        },
        store: laid.bytes,
        ids: numbered.ids,
        map: laid.map,
        log: plan.log,
        origins: groups::origins(&plan.groups),
    })
}

/// What is tested before any record is looked at (T1).
fn early(axes: u32, mode: u32, job: &[u8], work: usize, pairs: usize) -> Result<(), Refused> {
    let records = job.len() / records::RECORD;
    if axes == 0 || axes > 64 {
        return Err(Refused::at(number::BAD_AXES, 0));
    }
    if mode > 1 {
        return Err(Refused::at(number::BAD_MODE, 0));
    }
    if job.len() % records::RECORD != 0 || records > RECORD_LIMIT {
        return Err(Refused::at(number::BAD_JOB_LENGTH, 0));
    }
    if work < job_words(axes, job) || pairs < PAIRS {
        return Err(Refused::at(number::WORK_SHORT, 0));
    }
    Ok(())
}

/// The final groups with their sets in row order, and what led to them.
struct Plan {
    groups: Vec<Group>,
    log: Vec<u32>,
    counts: Counts,
}

impl Plan {
    /// Mode 0: merge, order each group's sets and the groups.
    fn merged(start: Vec<Group>, sets: &[sets::Set], regions: usize) -> Plan {
        let size_before = start.iter().map(Group::cost).sum();
        let shapes = start.len() as u64;
        let outcome = merging::merge(start);
        let size_after = outcome.groups.iter().map(Group::cost).sum();
        Plan {
            groups: groups::final_order(outcome.groups, sets, regions),
            counts: Counts {
                shapes,
                merges: outcome.log.len() as u64 / 3,
                pairs: outcome.pairs,
                size_before,
                size_after,
                ..Counts::default()
            },
            log: outcome.log,
        }
    }

    /// Mode 1: the one group (F5), and what is said of it (A2).
    fn one_group(sets: &[sets::Set], regions: usize) -> Plan {
        let groups: Vec<Group> = groups::of_all(sets, regions).into_iter().collect();
        let size = groups.iter().map(Group::cost).sum();
        Plan {
            groups,
            log: Vec::new(),
            counts: Counts {
                size_before: size,
                size_after: size,
                ..Counts::default()
            },
        }
    }
}
