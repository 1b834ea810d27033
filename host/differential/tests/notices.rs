//! What is compared is noticed: one word of what is due changed, and the comparison with
//! the proved build does not hold.

use differential::known::{Known, Source};
use differential::proved::{self, Buffers};
use differential::Case;
use jobs::Job;

/// Two merges' worth of shapes, a set said twice, a region never named.
fn job() -> Vec<u8> {
    let sets: [&[(u16, i32)]; 5] = [&[(0, 1)], &[(1, 1)], &[(2, 300)], &[(0, 1)], &[]];
    Job::one_axis(4).with(&sets).to_bytes()
}

/// The comparison, with what is known changed.
fn compared(job: &[u8], mode: u32, change: impl Fn(&mut Known)) -> [Result<(), String>; 2] {
    let case = Case {
        name: &"a job",
        axes: 1,
        mode,
        job,
    };
    let mut known = Known::of(&case);
    change(&mut known);
    let mut buffers = Buffers::default();
    [proved::case, proved::around].map(|compare| compare(&case, &known, &mut buffers))
}

#[test]
fn nothing_changed() {
    for mode in [0, 1] {
        assert_eq!(compared(&job(), mode, |_| {}), [Ok(()), Ok(())]);
    }
}

#[test]
fn a_word_of_the_plain_readings_answer() {
    type Change = fn(&mut plain::Done);
    let changes: [Change; 17] = [
        |d| d.store[30] ^= 1,
        |d| d.store.push(0),
        |d| d.ids[3] += 1,
        |d| d.map[0] ^= 0x1_0000,
        |d| d.log[2] += 1,
        |d| d.origins[1] ^= 1,
        |d| d.origins[2] += 1,
        |d| d.counts.store_bytes += 1,
        |d| d.counts.subtables += 1,
        |d| d.counts.regions_kept += 1,
        |d| d.counts.distinct_ids += 1,
        |d| d.counts.shapes += 1,
        |d| d.counts.merges += 1,
        |d| d.counts.pairs += 1,
        |d| d.counts.size_before += 1,
        |d| d.counts.size_after += 1,
        |d| d.counts.forecast += 1,
    ];
    for (number, change) in changes.iter().enumerate() {
        let held = compared(&job(), 0, |known| {
            change(known.said.as_mut().expect("a done build"));
        });
        assert!(held.iter().all(Result::is_err), "{number}");
    }
}

/// The forecast has the ten counts alone.
#[test]
fn a_word_of_the_forecast() {
    let job = job();
    let case = Case {
        name: &"a job",
        axes: 1,
        mode: 0,
        job: &job,
    };
    let forecast = |change: fn(&mut plain::Counts)| {
        let mut known = Known::of(&case);
        change(&mut known.said.as_mut().expect("a done build").counts);
        proved::forecast(&case, &known, &mut Buffers::default())
    };
    assert_eq!(forecast(|_| {}), Ok(()));
    let changes: [fn(&mut plain::Counts); 4] = [
        |c| c.store_bytes += 1,
        |c| c.distinct_ids += 1,
        |c| c.shapes += 1,
        |c| c.forecast += 1,
    ];
    for change in changes {
        assert!(forecast(change).is_err());
    }
}

#[test]
fn a_word_of_the_sources_answer() {
    type Change = fn(&mut Source);
    let changes: [(&str, Change); 4] = [
        ("the source's store", |s| s.store[30] ^= 1),
        ("the source's ids", |s| s.ids[3] += 1),
        ("the source's map", |s| s.map[0] ^= 0x1_0000),
        ("the source's log", |s| s.trace.log[2] += 1),
    ];
    for (what, change) in changes {
        let held = compared(&job(), 0, |known| {
            if let Some(source) = &mut known.source {
                change(source);
            }
        });
        for held in held {
            assert_eq!(held.is_err_and(|said| said.contains(what)), oracle::PRESENT);
        }
    }
}

#[test]
fn a_refusals_number_place_and_byte() {
    let unfinished = job()[..12 * 5].to_vec();
    // Bytes 2 and 9 of the first value.
    let mut not_zero = job();
    not_zero[12 * 4 + 2] = 7;
    not_zero[12 * 4 + 9] = 7;
    for job in [unfinished, not_zero] {
        for change in [(1, 0, 0), (0, 1, 0), (0, 0, 1)] {
            let held = compared(&job, 0, |known| {
                let refused = known.said.as_mut().expect_err("a refusal");
                refused.number += change.0;
                refused.place += change.1;
                refused.byte += change.2;
            });
            assert!(held.iter().all(Result::is_err), "{change:?}");
        }
    }
}
