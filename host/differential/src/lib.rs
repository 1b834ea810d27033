//! The plain reading of docs/RULES.md compared with the source, with recorded
//! answers, and with what the rules say of every answer; the proved build and
//! reader compared with the plain reading, with the source and with recorded answers.
//!
//! * [`cases`]: the jobs to compare on, one after another: examples, all small
//!   ones, random ones, damaged ones, the edges.
//! * [`known`]: what the plain reading and the source say of one job.
//! * [`check`]: what is compared of that.
//! * [`laws`]: what must hold of an answer, whoever gave it.
//! * [`proved`]: the proved build and reader, in lent memory that holds [`noise`];
//!   [`pairs`]: the part of it that is large for every job; [`forecasts`]: what the library
//!   says before it builds.
//! * [`replay`]: the recorded answers, without the source; [`maps`]: the recorded glyph maps;
//!   [`built`]: a list of cases with all that a build answers and leaves.
//! * [`run`]: all of it over some jobs, counted; [`kinds`]: the runs that are made.
//! * [`parts`]: where two sets of a job part.
//! * [`sizes`]: lent memory around each size that is asked for.
//! * [`stores`]: the reader on damaged stores.
//! * [`whole`]: the calls on whole stores.
//! * [`Tally`]: how many comparisons held.

pub mod built;
pub mod cases;
pub mod check;
pub mod forecasts;
pub mod kinds;
pub mod known;
pub mod laws;
pub mod maps;
pub mod noise;
pub mod pairs;
pub mod parts;
pub mod proved;
pub mod replay;
pub mod run;
pub mod sizes;
pub mod stores;
mod tally;
pub mod whole;

pub use cases::Case;
pub use tally::Tally;
