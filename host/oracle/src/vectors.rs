//! Recorded answers of the source, as text.
//!
//! A file begins with comments (`#`) on how it was made. Then each case is a block
//! of lines, a name and its rest:
//!
//! ```text
//! case P3
//! job hex 0100..            or: job seed 17 DIGEST, or: job edge shapes 1024 DIGEST
//! axes 1
//! mode 0
//! store 0001..              or: store 262180 bytes, digest 0123456789abcdef
//! ids 00000000              words of 8 digits; or digest, as above
//! map 00000000
//! log -                     first, second, gain of each join; `-` for none
//! sizes 1 13 13             N, modelled size before and after; 0 in mode 1
//! ```
//!
//! Numbers are big-endian hex but for counts. A digest is FNV-1a of 64 bits, of
//! what would stand there. `log` and `sizes` are what the source itself told of
//! its merging.

use crate::fields::Fields;
use crate::{build_traced, Trace};
use jobs::{edges, hex, random, Job};
use std::fmt;

pub use crate::fields::{word_bytes, Bytes};

/// How a case names its job.
#[derive(Clone, Debug, PartialEq, Eq)]
pub enum Origin {
    /// Its bytes.
    Hex,
    /// The seed that [`random::job`] makes it from.
    Seed(u64),
    /// A maker of [`edges`] and its count.
    Edge(String, usize),
}

/// One recorded answer.
#[derive(Clone, Debug, PartialEq, Eq)]
pub struct Case {
    /// What it is called.
    pub name: String,
    /// Where the job comes from.
    pub origin: Origin,
    /// The job's bytes.
    pub job: Vec<u8>,
    /// The axis count.
    pub axes: u32,
    /// The mode.
    pub mode: u32,
    /// The store.
    pub store: Bytes,
    /// The ids, as bytes.
    pub ids: Bytes,
    /// The map, as bytes.
    pub map: Bytes,
    /// The log, as bytes.
    pub log: Bytes,
    /// N, modelled size before and after.
    pub sizes: [u64; 3],
}

impl Origin {
    /// The job of a seed or an edge.
    fn job(&self) -> Option<Job> {
        match self {
            Origin::Hex => None,
            Origin::Seed(seed) => Some(random::job(*seed)),
            Origin::Edge(maker, count) => edges::made(maker, *count),
        }
    }
}

impl Case {
    /// Asks the source. None without it.
    pub fn record(name: &str, origin: Origin, job: &Job, mode: u32) -> Option<Case> {
        let (built, trace) = build_traced(job.axes as u16, mode, &job.regions, &job.sets)?;
        let Trace {
            shapes,
            size_before,
            size_after,
            log,
            ..
        } = trace;
        Some(Case {
            name: name.into(),
            origin,
            job: job.to_bytes(),
            axes: job.axes as u32,
            mode,
            store: Bytes::of(built.store.bytes()),
            ids: Bytes::of(word_bytes(&built.ids)),
            map: Bytes::of(word_bytes(&built.map)),
            log: Bytes::of(word_bytes(&log)),
            sizes: [shapes, size_before, size_after],
        })
    }
}

impl fmt::Display for Case {
    fn fmt(&self, f: &mut fmt::Formatter<'_>) -> fmt::Result {
        writeln!(f, "case {}", self.name)?;
        let digest = hex::digest(&self.job);
        match &self.origin {
            Origin::Hex => writeln!(f, "job hex {}", hex::of(&self.job))?,
            Origin::Seed(seed) => writeln!(f, "job seed {seed} {digest:016x}")?,
            Origin::Edge(maker, count) => writeln!(f, "job edge {maker} {count} {digest:016x}")?,
        }
        writeln!(f, "axes {}", self.axes)?;
        writeln!(f, "mode {}", self.mode)?;
        writeln!(f, "store {}", self.store)?;
        writeln!(f, "ids {}", self.ids)?;
        writeln!(f, "map {}", self.map)?;
        writeln!(f, "log {}", self.log)?;
        let [shapes, before, after] = self.sizes;
        writeln!(f, "sizes {shapes} {before} {after}")
    }
}

/// The cases of a file, or what is wrong with it.
pub fn parse(text: &str) -> Result<Vec<Case>, String> {
    let mut fields = Fields::new(text);
    let mut cases = Vec::new();
    while let Some(name) = fields.case()? {
        let (origin, job) = parse_job(fields.field("job")?)?;
        let axes = fields.field("axes")?.parse();
        let axes = axes.map_err(|_| fields.bad("axes"))?;
        let mode = fields.field("mode")?.parse();
        let mode = mode.map_err(|_| fields.bad("mode"))?;
        let [store, ids, map, log] = ["store", "ids", "map", "log"].map(|name| fields.bytes(name));
        let sizes = fields.field("sizes")?.split(' ').map(|n| n.parse().ok());
        let sizes: Option<Vec<u64>> = sizes.collect();
        let sizes = sizes.and_then(|s| s.try_into().ok());
        cases.push(Case {
            name: name.into(),
            origin,
            job,
            axes,
            mode,
            store: store?,
            ids: ids?,
            map: map?,
            log: log?,
            sizes: sizes.ok_or_else(|| fields.bad("sizes"))?,
        });
    }
    Ok(cases)
}

/// The job that a `job` line names, checked against its digest.
fn parse_job(text: &str) -> Result<(Origin, Vec<u8>), String> {
    let words: Vec<&str> = text.split(' ').collect();
    let bad = || format!("bad job: {text}");
    let (origin, digest) = match words[..] {
        ["hex", bytes] => {
            let bytes = hex::to_bytes(bytes).ok_or_else(bad)?;
            return Ok((Origin::Hex, bytes));
        }
        ["seed", seed, digest] => (Origin::Seed(seed.parse().map_err(|_| bad())?), digest),
        ["edge", maker, count, digest] => {
            let count = count.parse().map_err(|_| bad())?;
            (Origin::Edge(maker.into(), count), digest)
        }
        _ => return Err(bad()),
    };
    let job = origin.job().ok_or_else(bad)?.to_bytes();
    if format!("{:016x}", hex::digest(&job)) != digest {
        return Err(format!("the generator makes another job now: {text}"));
    }
    Ok((origin, job))
}

#[cfg(test)]
mod tests {
    use super::*;

    fn case(name: &str, origin: Origin, job: Vec<u8>) -> Case {
        Case {
            name: name.into(),
            origin,
            job,
            axes: 1,
            mode: 0,
            store: Bytes::All(vec![0, 1]),
            ids: Bytes::All(vec![0, 0, 0, 0]),
            map: Bytes::Digest(2_000, 17),
            log: Bytes::All(vec![]),
            sizes: [1, 2, 3],
        }
    }

    #[test]
    fn what_is_written_is_read() {
        let cases = [
            case("one", Origin::Hex, vec![]),
            case("two words", Origin::Seed(3), random::job(3).to_bytes()),
            case(
                "edge",
                Origin::Edge("shapes".into(), 5),
                edges::shapes(5).to_bytes(),
            ),
        ];
        let text: String = cases.iter().map(|c| format!("\n# a note\n{c}")).collect();
        assert_eq!(parse(&text).as_deref(), Ok(&cases[..]));
    }

    #[test]
    fn what_is_wrong_is_said() {
        let good = case("one", Origin::Seed(3), random::job(3).to_bytes()).to_string();
        for (old, new) in [
            ("job", "jab"),
            ("axes 1", "axes x"),
            ("sizes 1 2 3", "sizes 1 2"),
        ] {
            assert!(parse(&good.replace(old, new)).is_err(), "{new}");
        }
        let other = good.replace("seed 3", "seed 4");
        assert!(parse(&other).is_err_and(|e| e.contains("another job")));
        assert!(parse("store 00").is_err());
        assert!(parse("case x").is_err());
    }
}
