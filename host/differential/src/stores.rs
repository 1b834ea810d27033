//! The reader on damaged stores. (Good ones in full: [`crate::laws::rows_read_back`].)

use crate::check::same;
use crate::proved;
use crate::run::Run;
use jobs::{damage, hex, random, Rng};
use plain::{number, read, Sizes};

/// One reading in so many is of the store as it was built.
pub const GOOD: usize = 8;

/// Some places of the store of each seed, read, each time with other damage: an answer
/// always comes, and it is the answer to a longer store that begins with this one, unless
/// it is BAD_STORE; and the proved reader gives the same.
pub fn damaged(seeds: impl Iterator<Item = u64>, readings: usize) -> Run {
    let mut run = Run::default();
    for seed in seeds {
        let job = random::job(seed);
        let rng = &mut Rng::new(!seed);
        let mode = rng.below(2) as u32;
        let Ok(done) = plain::build(job.axes as u32, mode, &job.to_bytes(), &Sizes::PLENTY) else {
            continue;
        };
        for reading in 0..readings {
            let mut store = done.store.clone();
            while reading % GOOD != 0 && store == done.store {
                store = damage::store(rng, &done.store);
            }
            let longer = [&store[..], &[0; 7]].concat();
            let ask = places(rng, done.counts.subtables, done.counts.regions_kept);
            let [outer, inner, region] = ask;
            let short = read(&store, outer, inner, region);
            let long = read(&longer, outer, inner, region);
            let held = short == long || short == Err(number::BAD_STORE);
            let told =
                |what: String| format!("seed {seed}, {ask:?} of {}: {what}", hex::of(&store));
            run.plain.count(if held {
                Ok(())
            } else {
                Err(told(format!("{short:?}, longer {long:?}")))
            });
            let proved = proved::read(&store, outer, inner, region);
            run.proved
                .count(same("proved and plain", &proved, &short).map_err(told));
        }
    }
    run
}

/// Outer, inner, region: mostly there, sometimes one past, seldom anything.
fn places(rng: &mut Rng, subtables: u64, regions: u64) -> [u32; 3] {
    let mut any = |most: u64| match rng.below(16) {
        0 => rng.bits() as u32,
        _ => rng.below(most as usize + 1) as u32,
    };
    [any(subtables), any(6), any(regions)]
}
