//! What is compared on one job: the plain reading with the source, and both with
//! what else can be said of the job.

use crate::known::{Known, Source};
use crate::{laws, Case};
use jobs::{Job, RECORD};
use plain::{number, Done, Refused, Sizes};
use std::collections::BTreeSet;

/// Compares on one job.
pub fn case(case: &Case<'_>, known: &Known) -> Result<(), String> {
    answer(case, known).map_err(|what| format!("{}, mode {}: {what}", case.name, case.mode))
}

fn answer(case: &Case<'_>, known: &Known) -> Result<(), String> {
    match (&known.said, &known.job) {
        (Err(refused), _) if refused.number < number::BAD_JOB_LENGTH => early(case, *refused),
        (Ok(done), Some(job)) => {
            laws::done(job, case.mode, done)?;
            laws::rows_read_back(job, done, plain::read)?;
            source(case.mode, done, known.source.as_ref())
        }
        (Err(refused), Some(job)) => full(job, case.mode, *refused),
        (Err(refused), None) => unsound(case, *refused),
        (Ok(_), None) => Err("an unsound job is built".into()),
    }
}

/// The source's store, ids and map are the same, and so is what it tells of its
/// merging.
pub fn source(mode: u32, done: &Done, source: Option<&Source>) -> Result<(), String> {
    let Some(source) = source else {
        return Ok(());
    };
    let trace = &source.trace;
    same("ids", &done.ids, &source.ids)?;
    same("map", &done.map, &source.map)?;
    same("store", &done.store, &source.store)?;
    same("log", &done.log, &trace.log)?;
    if mode == 0 {
        let ours = [
            done.counts.shapes,
            done.counts.size_before,
            done.counts.size_after,
        ];
        let theirs = [trace.shapes, trace.size_before, trace.size_after];
        same("N and sizes", &ours, &theirs)?;
        let groups = done.counts.shapes - done.counts.merges;
        same("groups after merging", &groups, &trace.groups_after)?;
    }
    Ok(())
}

/// Equal, or said.
pub(crate) fn same<T: PartialEq + std::fmt::Debug + ?Sized>(
    what: &str,
    ours: &T,
    theirs: &T,
) -> Result<(), String> {
    if ours == theirs {
        return Ok(());
    }
    let short = |t: &T| format!("{t:?}").chars().take(300).collect::<String>();
    Err(format!("{what}: {} and {}", short(ours), short(theirs)))
}

/// An axis count or a mode is refused, and nothing is looked at before it.
fn early(case: &Case<'_>, refused: Refused) -> Result<(), String> {
    let axes = (1..=64).contains(&case.axes);
    let due = match (axes, case.mode) {
        (false, _) => Some(number::BAD_AXES),
        (true, 0 | 1) => None,
        (true, _) => Some(number::BAD_MODE),
    };
    let place = due.map(|number| (number, 0));
    same("refusal", &Some((refused.number, refused.place)), &place)
}

/// A sound job is refused only when there are too many sets or shapes.
fn full(job: &Job, mode: u32, refused: Refused) -> Result<(), String> {
    let expected = if mode == 1 {
        // The 65,536th end record, by counting end records in the bytes.
        let ends = job.to_bytes();
        let mut ends = ends.chunks(RECORD).enumerate().filter(|(_, r)| r[0] == 3);
        let place = ends.nth(65_535).map(|(place, _)| place as u64);
        place.map(|place| (number::SETS_FULL, place))
    } else {
        (shapes(job) > 1_024).then_some((number::SHAPES_FULL, 0))
    };
    same("refusal", &Some((refused.number, refused.place)), &expected)
}

/// How many shapes there are, by bytes needed for each region's coordinates.
fn shapes(job: &Job) -> usize {
    let bytes = |v: i32| match v {
        _ if i8::try_from(v).is_ok() => 1,
        _ if i16::try_from(v).is_ok() => 2,
        _ => 4,
    };
    let shape = |set: &Vec<(u16, i32)>| -> BTreeSet<(Vec<[i16; 3]>, i32)> {
        set.iter()
            .filter(|v| v.1 != 0)
            .map(|v| (job.regions[v.0 as usize].clone(), bytes(v.1)))
            .collect()
    };
    job.sets.iter().map(shape).collect::<BTreeSet<_>>().len()
}

/// The refusal of an unsound job: its number can only be one of 3, 6 to 9 and 30 to 34; what
/// stands before its place would have been taken so far, and what stands up to it
/// is refused likewise.
fn unsound(case: &Case<'_>, refused: Refused) -> Result<(), String> {
    let records = case.job.len() / RECORD;
    let place = refused.place as usize;
    let again = |records: usize| {
        let part = &case.job[..RECORD * records];
        plain::build(case.axes, case.mode, part, &Sizes::PLENTY)
    };
    match refused.number {
        number::BAD_JOB_LENGTH => {
            let bad = case.job.len() % RECORD != 0 || records > plain::RECORD_LIMIT;
            same("bad length at 0", &(bad, place), &(true, 0))
        }
        number::UNFINISHED => same("place", &place, &records),
        6 | 7 | number::SETS_FULL | 30..=34 => {
            same("up to the place", &again(place + 1), &Err(refused))?;
            byte(case, refused)?;
            match again(place) {
                Ok(_) => Ok(()),
                Err(before) if [8, 10].contains(&before.number) => Ok(()),
                Err(before) => Err(format!("{refused}, but before it already {before}")),
            }
        }
        _ => Err(format!("an unsound job is refused by {refused}")),
    }
}

/// The byte that is named. With it made 0 the record is judged by what comes after it: a
/// later byte, or a later test. Every refusal but NOT_ZERO names byte 0.
fn byte(case: &Case<'_>, refused: Refused) -> Result<(), String> {
    if refused.number != number::NOT_ZERO {
        return same("byte", &refused.byte, &0);
    }
    let (place, byte) = (refused.place as usize, refused.byte as usize);
    let mut mended = case.job[..RECORD * (place + 1)].to_vec();
    let held = std::mem::replace(&mut mended[RECORD * place + byte], 0);
    same("a byte of 0 is named", &(held == 0 || byte == 0), &false)?;
    match plain::build(case.axes, case.mode, &mended, &Sizes::PLENTY) {
        Err(next) if next.place != refused.place => same("place", &next.number, &8),
        Err(next) if next.number == number::NOT_ZERO => {
            same("a later byte", &(next.byte > refused.byte), &true)
        }
        Err(next) => same(
            "a later test",
            &(next.number != number::UNKNOWN_KIND),
            &true,
        ),
        Ok(_) => Ok(()),
    }
}
