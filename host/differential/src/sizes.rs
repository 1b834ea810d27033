//! Lent memory at, one under and over each size that a build asks for.

use crate::check::same;
use crate::Case;
use plain::{number, Counts, Done, Sizes};

/// The least that a done build asks for.
pub fn least(case: &Case<'_>, done: &Done) -> Sizes {
    Sizes {
        work: plain::job_words(case.axes, case.job),
        pairs: plain::PAIRS,
        out: done.store.len(),
        ids: done.ids.len(),
        map: done.map.len(),
        log: log_words(&done.counts),
        origins: done.origins.len(),
    }
}

/// What R13 asks for; N is 0 in mode 1.
fn log_words(counts: &Counts) -> usize {
    3 * (counts.shapes as usize).saturating_sub(1)
}

/// Memory to lend, and what is refused for it: everything at its size and one
/// over; each alone one under; from each on everything one under, where the first
/// answers.
pub fn around(least: &Sizes) -> Vec<(Sizes, Option<u32>)> {
    type Field = fn(&mut Sizes) -> &mut usize;
    let fields: [(u32, Field); 7] = [
        (number::WORK_SHORT, |s| &mut s.work),
        (number::WORK_SHORT, |s| &mut s.pairs),
        (number::IDS_SHORT, |s| &mut s.ids),
        (number::MAP_SHORT, |s| &mut s.map),
        (number::LOG_SHORT, |s| &mut s.log),
        (number::ORIGINS_SHORT, |s| &mut s.origins),
        (number::OUT_SHORT, |s| &mut s.out),
    ];
    let mut over = *least;
    for (_, field) in fields {
        *field(&mut over) += 1;
    }
    let mut all = vec![(*least, None), (over, None)];
    for (i, (number, field)) in fields.iter().enumerate() {
        let mut one = *least;
        if *field(&mut one) == 0 {
            continue;
        }
        *field(&mut one) -= 1;
        all.push((one, Some(*number)));
        let mut rest = *least;
        for (_, field) in &fields[i..] {
            *field(&mut rest) = field(&mut rest).saturating_sub(1);
        }
        all.push((rest, Some(*number)));
    }
    all
}

/// The plain reading answers so for memory around every size.
pub fn check(case: &Case<'_>) -> Result<(), String> {
    let Ok(done) = plain::build(case.axes, case.mode, case.job, &Sizes::PLENTY) else {
        return Ok(());
    };
    for (lent, refusal) in around(&least(case, &done)) {
        let said = plain::build(case.axes, case.mode, case.job, &lent);
        let said = said.map_err(|refused| (refused.number, refused.place));
        let expected = refusal.map_or(Ok(done.clone()), |number| Err((number, 0)));
        same("memory at an edge", &said, &expected)
            .map_err(|what| format!("{}, mode {}: {lent:?}: {what}", case.name, case.mode))?;
    }
    Ok(())
}
