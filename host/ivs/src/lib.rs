//! The proved build and reader of item variation stores (`crates/`), for Rust.
//!
//! * [`JobWriter`]: a job's bytes out of regions and sets.
//! * [`Job`]: those bytes with their axis count, and what can be asked of them by a [`Mode`].
//! * [`pack`]: a job into a store, in memory of its own.
//! * [`build_into`]: the same in lent memory, which may be lent again from build to build;
//!   [`build_report`] with the bare report.
//! * [`pack_for`], [`build_into_for`]: the same by a [`Profile`], for a reader that takes less.
//! * [`forecast`]: what a build would say, the store's bytes first, without building.
//! * [`part`]: where two sets of a job part; [`why`]: why two ids are where they are, [`show`]: the
//!   bytes that show one.
//! * [`read`]: one value of a store, whatever its bytes are; [`Store`]: its regions, subtables
//!   and rows.
//! * [`recover`]: the job of a store, whoever wrote that; [`judge`]: whether a store gives the
//!   sets of a job; [`keep`]: a store with only the rows that are still used.
//! * [`write_glyphs`], [`read_glyph`]: the map of glyphs to rows of a store.
//! * [`write_widths`], [`read_width`]: the width table of a store and such a map.
//!
//! No input makes a call go wrong: it is done exactly, or refused by number and place
//! with nothing written; [`Refusal`] has the names, [`Refused::explain`] says what stands there and what was due, and
//! [`written_for`] guesses the axis count. What was lent may hold anything before.
//!
//! ```
//! let mut job = ivs::JobWriter::new(1);
//! let bold = job.region(&[(0, 0x4000, 0x4000)])?;    // start, peak, end as F2Dot14; one triple an axis
//! job.set(&[(bold, 10)])?;
//! let packed = ivs::pack(1, 0, &job.finish())?;      // store, ids, map, log, origins, numbers
//! let value = ivs::read(&packed.store, 0, 0, 0)?;    // Reading::Written(10)
//! # assert_eq!(value, ivs::Reading::Written(10));
//! # Ok::<(), Box<dyn std::error::Error>>(())
//! ```
//!
//! That region 0 of the job is region 0 of the store is no rule: a store numbers its regions
//! anew, by their first use in a set, and drops those that no row names. [`Packed::region`]
//! says which is which, and [`Packed::value`] goes by the job's own numbers:
//!
//! ```
//! use ivs::{JobWriter, Mode};
//!
//! let mut job = JobWriter::new(1);
//! let bold = job.region(&[(0, 0x4000, 0x4000)])?;
//! let light = job.region(&[(-0x4000, -0x4000, 0)])?;
//! job.set(&[(light, -300), (bold, 10)])?;            // light is used first
//! let packed = job.job().pack(Mode::Deduplicating)?;
//! assert_eq!(packed.region(light), Some(0));
//! assert_eq!(packed.value(0, light), Some(-300));
//! # Ok::<(), ivs::Error>(())
//! ```

mod building;
mod explain;
mod forecast;
mod glyphs;
mod job;
mod judging;
mod keeping;
mod kept;
pub mod limits;
mod part;
mod raw;
mod reading;
mod recovering;
mod refusal;
mod refusals;
mod store;
mod why;
mod widths;
mod wording;
mod writer;

pub use building::{
    build_into, build_into_for, build_report, build_report_for, head_regions, job_words, pack,
    pack_for, work_words, Done, Lent, Packed, Pair, Profile, PAIRS,
};
pub use explain::written_for;
pub use forecast::{forecast, forecast_report, forecast_with};
pub use glyphs::{read_glyph, write_glyphs, write_glyphs_into, GLYPHS};
pub use job::{Error, Job, Mode};
pub use judging::{judge, judge_report, judge_with, judge_words, Verdict};
pub use keeping::{keep, keep_into, keep_report, keep_words, Kept, KeptInto};
pub use part::{part, part_report, part_with, Parted, Parting};
pub use reading::{read, Reading};
pub use recovering::{
    recover, recover_into, recover_report, recover_words, Recovered, RecoveredInto,
};
pub use refusal::{numbers, Refusal};
pub use refusals::{Refused, Short};
pub use store::{Column, Row, Store, Subtable};
pub use why::{show, show_report, show_with, why, why_report, why_with, Shows, Why};
pub use widths::{read_width, set_words, write_widths, write_widths_into};
pub use writer::{JobError, JobWriter, Tent};

/// The archive that is linked: for tests.
#[doc(hidden)]
pub const ARCHIVE: &str = env!("IVS_ARCHIVE");
