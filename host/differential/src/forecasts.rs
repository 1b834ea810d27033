//! `ivs_forecast` beside `ivs_build`: the same report with nothing lent to write to, the same
//! refusals; and a build that is lent just what it says is done, with anything less refused.

use crate::check::same;
use crate::noise::Noisy;
use crate::proved::{cleared, compare, report_of, Buffers, Said};
use crate::{sizes, Case};
use jobs::RECORD;
use plain::{number, Refused, Sizes};

/// The forecast of a job, where this is known to be the build's answer.
pub fn case(case: &Case<'_>, said: &Said, buffers: &mut Buffers) -> Result<(), String> {
    let work = plain::job_words(case.axes, case.job);
    ask(case, [work + 2, plain::PAIRS + 3], said, buffers).map(|_| ())
}

/// The same with just enough lent, and with too little; then builds in memory by the
/// forecast's own numbers.
pub fn around(case: &Case<'_>, said: &Said, buffers: &mut Buffers) -> Result<(), String> {
    let work = plain::job_words(case.axes, case.job);
    let short = match said {
        Err(refused) if refused.number < number::WORK_SHORT => said.clone(),
        _ => Err(Refused::at(number::WORK_SHORT, 0)),
    };
    if work > 0 {
        ask(case, [work - 1, plain::PAIRS], &short, buffers)?;
    }
    ask(case, [work, plain::PAIRS - 1], &short, buffers)?;
    let report = ask(case, [work, plain::PAIRS], said, buffers)?;
    if said.is_err() {
        return Ok(());
    }
    let lent = Sizes {
        work,
        pairs: plain::PAIRS,
        out: report[2] as usize,
        ids: case.job.chunks(RECORD).filter(|r| r[0] == 3).count(),
        map: report[5] as usize,
        log: 3 * report[6].saturating_sub(1) as usize,
        origins: 2 * report[6] as usize,
    };
    // Of work and pairs the build alone is asked, as ever.
    let written = |around: &(Sizes, Option<u32>)| around.1 != Some(number::WORK_SHORT);
    for (lent, refusal) in sizes::around(&lent).into_iter().filter(written) {
        let due = refusal.map_or(said.clone(), |number| Err(Refused::at(number, 0)));
        compare(case, &lent, &due, buffers)
            .map_err(|what| format!("a build by its forecast: {what}"))?;
    }
    Ok(())
}

/// One call, lent so many words of work and pair records, has this answer, and leaves them as
/// L2 says. Its report.
fn ask(
    case: &Case<'_>,
    [work, pairs]: [usize; 2],
    due: &Said,
    buffers: &mut Buffers,
) -> Result<[u64; 16], String> {
    buffers.work.fill(work);
    buffers.pairs.ready(pairs)?;
    let mut report: [u64; 16] = std::array::from_fn(|i| u64::from(u32::noise()[i]) << 23);
    let (words, records) = (buffers.work.lend(), buffers.pairs.lend());
    let answer = ivs::forecast_report(case.axes, case.mode, case.job, words, records, &mut report);
    same("report", &report, &report_of(due))
        .and_then(|()| same("answer", &u64::from(answer), &report[0]))
        .and_then(|()| cleared(buffers, due))
        .map_err(|what| format!("forecast, {work} words, {pairs} pairs: {what}"))?;
    Ok(report)
}
