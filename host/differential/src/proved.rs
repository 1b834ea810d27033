//! The proved build and reader compared with the plain reading and with the source, in
//! lent memory that holds noise: the answer, every word of the report, all that is
//! written, and all that is not.

use crate::check::same;
use crate::known::{Known, Source};
use crate::noise::{not_zero, Guarded, Noisy};
use crate::pairs::Pairs;
use crate::{forecasts, laws, sizes, Case};
use ivs::{Lent, Profile};
use jobs::hex;
use plain::{Done, Refused, Sizes};

/// What the plain reading answers.
pub(crate) type Said = Result<Done, Refused>;

/// Lent memory, used again from call to call; of itself with noise in all of it each time.
#[derive(Default)]
pub struct Buffers {
    pub(crate) work: Guarded<u32>,
    pub(crate) pairs: Pairs,
    out: Guarded<u8>,
    ids: Guarded<u32>,
    map: Guarded<u32>,
    log: Guarded<u32>,
    origins: Guarded<u32>,
}

impl Buffers {
    /// Noise in every call, but in the pair records only in the first of every so many.
    pub fn noisy_in_one_of(every: usize) -> Buffers {
        Buffers {
            pairs: Pairs::noisy_in_one_of(every),
            ..Buffers::default()
        }
    }

    /// What the last calls left in the pair records, where that was not looked at in full.
    pub fn unseen(&self) -> Result<(), String> {
        self.pairs.unseen()
    }
}

/// Compares on one job with a little more memory than it asks for.
pub fn case(case: &Case<'_>, known: &Known, buffers: &mut Buffers) -> Result<(), String> {
    let lent = over(&least(case, &known.said));
    let held = compare(case, &lent, &known.said, buffers);
    told(case, held.and_then(|()| source(known, buffers)))
}

/// Compares the forecast of one job.
pub fn forecast(case: &Case<'_>, known: &Known, buffers: &mut Buffers) -> Result<(), String> {
    told(case, forecasts::case(case, &known.said, buffers))
}

/// Compares on one job with memory at, one under and over each size that it asks for,
/// and with its forecast and what [`ivs::pack`] makes of it; has the proved reader read all
/// rows back.
pub fn around(case: &Case<'_>, known: &Known, buffers: &mut Buffers) -> Result<(), String> {
    let said = &known.said;
    for (lent, refusal) in sizes::around(&least(case, said)) {
        // Of an unsound job the refusal shows whatever is lent, work and pairs excepted.
        let short = refusal.filter(|&number| said.is_ok() || number == plain::number::WORK_SHORT);
        let held = match short {
            Some(number) if tests_work(said) => {
                compare(case, &lent, &Err(Refused::at(number, 0)), buffers)
            }
            _ => compare(case, &lent, said, buffers).and_then(|()| source(known, buffers)),
        };
        told(case, held)?;
    }
    told(case, forecasts::around(case, said, buffers))?;
    told(case, panel(case, known, buffers))?;
    told(case, same("packed", &packed(case), said))?;
    match (said, &known.job) {
        (Ok(done), Some(job)) => told(case, laws::rows_read_back(job, done, read)),
        _ => Ok(()),
    }
}

/// Compares on one job by the panel's profile. What that takes is built as without it, and
/// what it refuses by a number that is not its own is refused alike.
fn panel(case: &Case<'_>, known: &Known, buffers: &mut Buffers) -> Result<(), String> {
    let (axes, mode, job) = (case.axes, case.mode, case.job);
    let due = plain::build_for(plain::Profile::Panel, axes, mode, job, &Sizes::PLENTY);
    let own = [
        plain::number::LONG_VALUE,
        plain::number::BAD_REGION,
        plain::number::WIDE_SUBTABLE,
    ];
    if !matches!(&due, Err(refused) if own.contains(&refused.number)) {
        same("the panel's", &due, &known.said)?;
    }
    let lent = over(&least(case, &due));
    compare_for(Profile::Panel, case, &lent, &due, buffers)
        .map_err(|what| format!("for the panel: {what}"))
}

/// What [`ivs::pack`] makes of a job, in the plain reading's words.
pub fn packed(case: &Case<'_>) -> Said {
    match ivs::pack(case.axes, case.mode, case.job) {
        Ok(packed) => Ok(Done {
            counts: counts(&packed.done),
            store: packed.store,
            ids: packed.ids,
            map: packed.map,
            log: packed.log,
            origins: packed.origins,
        }),
        Err(refused) => {
            assert_eq!(refused.name(), plain::name(refused.number));
            Err(Refused {
                number: refused.number,
                place: refused.place,
                byte: refused.byte,
            })
        }
    }
}

/// What the plain reading and the proved build answer alike.
///
/// # Panics
/// When they do not.
pub fn alike(axes: u32, mode: u32, job: &[u8]) -> Said {
    let plain = plain::build(axes, mode, job, &Sizes::PLENTY);
    let name = &"a job";
    let case = &Case {
        name,
        axes,
        mode,
        job,
    };
    // Not by assert_eq, which would print megabytes.
    assert!(
        packed(case) == plain,
        "the proved build and the plain reading"
    );
    plain
}

/// The answer comes after the test of work.
fn tests_work(said: &Said) -> bool {
    !matches!(said, Err(refused) if refused.number < plain::number::WORK_SHORT)
}

/// The least that a job asks for; of a refused one, some memory to leave untouched.
fn least(case: &Case<'_>, said: &Said) -> Sizes {
    match said {
        Ok(done) => sizes::least(case, done),
        Err(_) => Sizes {
            work: plain::job_words(case.axes, case.job),
            pairs: plain::PAIRS,
            out: 40,
            ids: 6,
            map: 5,
            log: 7,
            origins: 9,
        },
    }
}

/// A little more of everything.
fn over(least: &Sizes) -> Sizes {
    Sizes {
        work: least.work + 3,
        pairs: least.pairs + 6,
        out: least.out + 5,
        ids: least.ids + 2,
        map: least.map + 1,
        log: least.log + 4,
        origins: least.origins + 3,
    }
}

/// One call in lent memory of these sizes gives this answer, and leaves that memory as
/// L1 to L3 say.
pub(crate) fn compare(
    case: &Case<'_>,
    sizes: &Sizes,
    due: &Said,
    buffers: &mut Buffers,
) -> Result<(), String> {
    compare_for(Profile::Plain, case, sizes, due, buffers)
}

/// The same of a build by a profile.
fn compare_for(
    profile: Profile,
    case: &Case<'_>,
    sizes: &Sizes,
    due: &Said,
    buffers: &mut Buffers,
) -> Result<(), String> {
    buffers.work.fill(sizes.work);
    buffers.pairs.ready(sizes.pairs)?;
    buffers.out.fill(sizes.out);
    buffers.ids.fill(sizes.ids);
    buffers.map.fill(sizes.map);
    buffers.log.fill(sizes.log);
    buffers.origins.fill(sizes.origins);
    let mut report: [u64; 16] = std::array::from_fn(|i| u64::from(u32::noise()[i]) << 17);
    let mut lent = Lent {
        work: buffers.work.lend(),
        pairs: buffers.pairs.lend(),
        out: buffers.out.lend(),
        ids: buffers.ids.lend(),
        map: buffers.map.lend(),
        log: buffers.log.lend(),
        origins: buffers.origins.lend(),
    };
    let (axes, mode, job) = (case.axes, case.mode, case.job);
    let answer = ivs::build_report_for(profile, axes, mode, job, &mut lent, &mut report);
    same("report", &report, &report_of(due))
        .and_then(|()| same("answer", &u64::from(answer), &report[0]))
        .and_then(|()| left(buffers, due))
        .map_err(|what| format!("{sizes:?}: {what}"))
}

/// What stands in the lent memory: what was due, then noise.
fn left(buffers: &mut Buffers, due: &Said) -> Result<(), String> {
    let (store, words): (&[u8], [&[u32]; 4]) = match due {
        Ok(done) => (
            &done.store,
            [&done.ids, &done.map, &done.log, &done.origins],
        ),
        Err(_) => (&[], [&[]; 4]),
    };
    let [ids, map, log, origins] = words;
    begins("out", &buffers.out, store)?;
    begins("ids", &buffers.ids, ids)?;
    begins("map", &buffers.map, map)?;
    begins("log", &buffers.log, log)?;
    begins("origins", &buffers.origins, origins)?;
    cleared(buffers, due)
}

/// Work and pairs are as they were, or zeros (L2).
pub(crate) fn cleared(buffers: &mut Buffers, due: &Said) -> Result<(), String> {
    let early = matches!(due, Err(refused) if refused.number <= plain::number::WORK_SHORT);
    buffers.pairs.left(early)?;
    if early {
        return begins("work", &buffers.work, &[]);
    }
    let work = buffers.work.lent();
    past("work", &buffers.work, work.len())?;
    match not_zero(work) {
        None => Ok(()),
        Some(at) => Err(format!("work: {} at {at}", work[at])),
    }
}

/// The words are those that are due, then noise as before.
fn begins<T: Noisy>(what: &str, words: &Guarded<T>, due: &[T]) -> Result<(), String> {
    same(what, &words.lent()[..due.len()], due)?;
    past(what, words, due.len())
}

/// Past these words, and before the first, there is noise as before.
fn past<T: Noisy>(what: &str, words: &Guarded<T>, count: usize) -> Result<(), String> {
    match words.spoilt_past(count) {
        None => Ok(()),
        Some(at) => Err(format!("{what}: written at {at}, {count} being due")),
    }
}

/// What the last call left in the lent memory is the source's store, ids and map, and its
/// log; of a job that the source was not asked, nothing is said.
fn source(known: &Known, buffers: &Buffers) -> Result<(), String> {
    let Some(source) = &known.source else {
        return Ok(());
    };
    let Source {
        store,
        ids,
        map,
        trace,
    } = source;
    let log = &trace.log;
    same(
        "the source's store",
        &buffers.out.lent()[..store.len()],
        &store[..],
    )?;
    same(
        "the source's ids",
        &buffers.ids.lent()[..ids.len()],
        &ids[..],
    )?;
    same(
        "the source's map",
        &buffers.map.lent()[..map.len()],
        &map[..],
    )?;
    same(
        "the source's log",
        &buffers.log.lent()[..log.len()],
        &log[..],
    )
}

/// The report of an answer: number, place, the ten counts, the byte, zeros.
pub(crate) fn report_of(said: &Said) -> [u64; 16] {
    let mut report = [0; 16];
    match said {
        Ok(done) => {
            let c = &done.counts;
            report[2..12].copy_from_slice(&[
                c.store_bytes,
                c.subtables,
                c.regions_kept,
                c.distinct_ids,
                c.shapes,
                c.merges,
                c.pairs,
                c.size_before,
                c.size_after,
                c.forecast,
            ]);
        }
        Err(refused) => {
            report[0] = u64::from(refused.number);
            report[1] = refused.place;
            report[12] = refused.byte;
        }
    }
    report
}

/// The library's counts, by the plain reading's names.
pub fn counts(done: &ivs::Done) -> plain::Counts {
    plain::Counts {
        store_bytes: done.store_bytes,
        subtables: done.subtables,
        regions_kept: done.regions_kept,
        distinct_ids: done.distinct_ids,
        shapes: done.shapes,
        merges: done.merges,
        pairs: done.pairs,
        size_before: done.size_before,
        size_after: done.size_after,
        forecast: done.forecast,
    }
}

/// The proved reader, answering in the plain reading's words.
pub fn read(store: &[u8], outer: u32, inner: u32, region: u32) -> Result<plain::Reading, u32> {
    match ivs::read(store, outer, inner, region) {
        Ok(ivs::Reading::Written(value)) => Ok(plain::Reading::Written(value)),
        Ok(ivs::Reading::NoColumn) => Ok(plain::Reading::NoColumn),
        Err(refused) => Err(refused.number),
    }
}

/// With the job, where something did not hold.
fn told(case: &Case<'_>, held: Result<(), String>) -> Result<(), String> {
    held.map_err(|what| {
        format!(
            "{}, axes {}, mode {}: proved: {what}; job {}",
            case.name,
            case.axes,
            case.mode,
            hex::of(case.job)
        )
    })
}
