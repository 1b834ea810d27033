//! The refusals of a record (R30 to R34, R6, R7, R9): each with a job that is refused by it
//! and one beside it that is not, by the plain reading and by the proved build; which one is
//! given where a record breaks several; and that the random jobs come to each of them.

use differential::proved::alike;
use differential::{cases, Case};
use jobs::{edges, hex};
use plain::{number, Refused};
use std::collections::BTreeMap;

const REGION: &str = "010000000000400040000000";
const SECOND_AXIS: &str = "010001000000400040000000";
const NEXT_REGION: &str = "010100000000400040000000";
const VALUE: &str = "020000000000000500000000";
const END: &str = "030000000000000000000000";

/// Number, place and byte of the answer, zeros where the job is built.
fn answer(axes: u32, records: &[&str]) -> (u32, u64, u64) {
    let job = hex::to_bytes(&records.concat()).expect("bytes in hex");
    match alike(axes, 0, &job) {
        Ok(_) => (0, 0, 0),
        Err(Refused {
            number,
            place,
            byte,
        }) => (number, place, byte),
    }
}

#[test]
fn unknown_kind() {
    for (record, due) in [
        ("000000000000000000000000", (30, 1, 0)),
        ("040000000000000000000000", (30, 1, 0)),
        ("ff0000000000000000000000", (30, 1, 0)),
        (END, (0, 0, 0)),
        (NEXT_REGION, (0, 0, 0)),
    ] {
        assert_eq!(answer(1, &[REGION, record]), due, "{record}");
    }
    assert_eq!(answer(1, &[REGION, VALUE, END]), (0, 0, 0));
}

/// Each byte of each record, alone and with all behind it.
#[test]
fn not_zero() {
    let zeros: [(&str, &[usize]); 3] = [
        (NEXT_REGION, &[10, 11]),
        (VALUE, &[2, 8, 9, 10, 11]),
        (END, &[1, 2, 3, 4, 5, 6, 7, 8, 9, 10, 11]),
    ];
    for (record, zeros) in zeros {
        for (i, &byte) in zeros.iter().enumerate() {
            let mut hurt = hex::to_bytes(record).expect("bytes in hex");
            hurt[byte] = 0x10;
            assert_eq!(answer(1, &[REGION, &hex::of(&hurt)]), (31, 1, byte as u64));
            for &later in &zeros[i..] {
                hurt[later] = 1;
            }
            assert_eq!(answer(1, &[REGION, &hex::of(&hurt)]), (31, 1, byte as u64));
        }
    }
}

#[test]
fn turns_of_axis_records() {
    assert_eq!(answer(1, &[REGION, NEXT_REGION]), (0, 0, 0));
    assert_eq!(answer(1, &[NEXT_REGION, REGION]), (32, 0, 0));
    assert_eq!(answer(1, &[REGION, REGION]), (32, 1, 0));
    assert_eq!(answer(2, &[REGION, SECOND_AXIS]), (0, 0, 0));
    assert_eq!(answer(2, &[SECOND_AXIS, REGION]), (32, 0, 0));
    assert_eq!(answer(2, &[REGION, NEXT_REGION]), (32, 1, 0));
    assert_eq!(answer(1, &[REGION, SECOND_AXIS]), (32, 1, 0));
}

/// Byte 3 is the high byte of a region's number: of one that is next, of one that is there.
#[test]
fn high_bytes() {
    assert_eq!(answer(1, &["010000010000400040000000"]), (32, 0, 0));
    assert_eq!(answer(1, &[REGION, "010100010000400040000000"]), (32, 1, 0));
    assert_eq!(answer(1, &[REGION, "020000010000000500000000"]), (6, 1, 0));
    assert_eq!(answer(1, &[REGION, "0200ff010000000500000000"]), (31, 1, 2));
}

/// Sets that name regions on both sides of what one byte can number, up to the last.
#[test]
fn sets_over_two_bytes() {
    for regions in [258, 32_767] {
        let job = edges::regions(regions).to_bytes();
        for mode in [0, 1] {
            assert!(
                alike(1, mode, &job).is_ok(),
                "{regions} regions, mode {mode}"
            );
        }
    }
}

/// Late and the next, or late and another: the turn goes on behind the sets.
#[test]
fn late_axis_records() {
    for (sets, at) in [(&[VALUE][..], 2), (&[END], 2), (&[VALUE, END], 3)] {
        let job = |axis| [&[REGION][..], sets, &[axis]].concat();
        assert_eq!(answer(1, &job(NEXT_REGION)), (33, at, 0));
        assert_eq!(answer(1, &job(REGION)), (32, at, 0));
        assert_eq!(answer(1, &job(SECOND_AXIS)), (32, at, 0));
    }
    // Without any region the first is the next.
    assert_eq!(answer(1, &[END, REGION]), (33, 1, 0));
    assert_eq!(answer(1, &[END, NEXT_REGION]), (32, 1, 0));
    assert_eq!(answer(2, &[END, REGION]), (33, 1, 0));
}

/// So many regions, an axis record each for every axis.
fn regions(count: u32, axes: u32) -> String {
    let numbers = (0..count).flat_map(|region| (0..axes).map(move |axis| (region, axis)));
    let record = |(region, axis): (u32, u32)| {
        let (high, low) = (region >> 8, region & 255);
        format!("01{low:02x}{axis:02x}{high:02x}0000400040000000")
    };
    numbers.map(record).collect()
}

/// The high byte of a region's number stands in byte 3: on both sides of 256.
#[test]
fn regions_of_two_bytes() {
    for count in [255, 256, 257, 258] {
        let job = regions(count, 1);
        let value = |region: u32| {
            format!(
                "02{:02x}00{:02x}0000000500000000",
                region & 255,
                region >> 8
            )
        };
        let (last, past) = (value(count - 1), value(count));
        assert_eq!(answer(1, &[&job, &last, END]), (0, 0, 0));
        assert_eq!(answer(1, &[&job, &past, END]), (6, u64::from(count), 0));
        // The next region, by its low byte alone.
        let low = format!("01{:02x}00000000400040000000", count & 255);
        let due = if count < 256 { 0 } else { 32 };
        assert_eq!(answer(1, &[&job, &low, END]).0, due);
    }
}

/// Of 32,767 regions none is the next, before the sets and behind them.
#[test]
fn the_32768th_region() {
    for axes in [1, 2] {
        let job = regions(32_767, axes);
        assert_eq!(answer(axes, &[&job, END]), (0, 0, 0));
        let records = 32_767 * u64::from(axes);
        for next in [
            REGION,
            "01ff007f0000400040000000",
            "01fe007f0000400040000000",
        ] {
            assert_eq!(answer(axes, &[&job, next]), (32, records, 0));
            assert_eq!(answer(axes, &[&job, END, next]), (32, records + 1, 0));
        }
    }
}

#[test]
fn a_region_that_lacks_an_axis() {
    for record in [VALUE, END] {
        assert_eq!(answer(2, &[REGION, record]), (34, 1, 0));
    }
    assert_eq!(answer(2, &[REGION, SECOND_AXIS, VALUE, END]), (0, 0, 0));
    assert_eq!(answer(2, &[END]), (0, 0, 0));
}

/// The first in the order of T2 where a record breaks several.
#[test]
fn several_at_once() {
    // Kind, zero byte, turn: 30, then 31, then 32 as each is mended.
    assert_eq!(answer(1, &[END, "090700010000400040000102"]), (30, 1, 0));
    assert_eq!(answer(1, &[END, "010700010000400040000102"]), (31, 1, 10));
    assert_eq!(answer(1, &[END, "010700000000400040000002"]), (31, 1, 11));
    assert_eq!(answer(1, &[END, "010700000000400040000000"]), (32, 1, 0));
    assert_eq!(answer(1, &[END, "010000010000400040000000"]), (32, 1, 0));
    assert_eq!(answer(1, &[END, "010000000000400040000000"]), (33, 1, 0));
    // A value in a region that lacks an axis, of a region that there is not.
    assert_eq!(
        answer(2, &[REGION, "020900000000000500000100"]),
        (31, 1, 10)
    );
    assert_eq!(answer(2, &[REGION, "020900000000000500000000"]), (34, 1, 0));
    assert_eq!(answer(1, &[REGION, "020900000000000500000000"]), (6, 1, 0));
    // A zero byte before a region named twice.
    let twice = "020000000000000500000400";
    assert_eq!(answer(1, &[REGION, VALUE, twice]), (31, 2, 10));
    assert_eq!(answer(1, &[REGION, VALUE, VALUE]), (7, 2, 0));
}

/// The random jobs that are damaged come to each refusal of a record often.
#[test]
fn all_are_met() {
    let mut met: BTreeMap<u32, usize> = BTreeMap::new();
    cases::damaged(0..4_000, &mut |case: &Case<'_>| {
        let said = plain::build(case.axes, case.mode, case.job, &plain::Sizes::PLENTY);
        *met.entry(said.map_or_else(|refused| refused.number, |_| 0))
            .or_default() += 1;
    });
    let often = [
        number::UNKNOWN_REGION,
        number::REGION_TWICE,
        number::UNFINISHED,
        number::UNKNOWN_KIND,
        number::NOT_ZERO,
        number::AXIS_OUT_OF_TURN,
        number::AXIS_TOO_LATE,
        number::REGION_UNFINISHED,
    ];
    for number in often {
        let times = met.get(&number).copied().unwrap_or_default();
        assert!(times >= 100, "{}: {times}", plain::name(number));
    }
}
