//! The panel's profile at its edges: what it refuses, where, and that all else is built as
//! without it.

use ivs::{pack, pack_for, JobWriter, Profile, Refused};

const ONE: i16 = 0x4000;

/// What the panel's profile says of a job in both modes: the same refusal, or the build
/// without it.
fn asked(axes: u32, job: &[u8]) -> Result<(), Refused> {
    let said = [0, 1].map(|mode| {
        let packed = pack_for(Profile::Panel, axes, mode, job)?;
        assert_eq!(Ok(packed), pack(axes, mode, job));
        Ok(())
    });
    assert_eq!(said[0], said[1]);
    said[0]
}

fn refusal(said: Result<(), Refused>) -> (u32, u64) {
    said.map_or_else(|refused| (refused.number, refused.place), |()| (0, 0))
}

/// A job of one region on one axis, with sets of one value each.
fn values(axis: (i16, i16, i16), values: &[i32]) -> Vec<u8> {
    let mut job = JobWriter::new(1);
    let region = job.region(&[axis]).unwrap();
    for &value in values {
        job.set(&[(region, value)]).unwrap();
    }
    job.finish()
}

#[test]
fn values_of_16_bits() {
    let sound = (0, ONE, ONE);
    let said = |value| refusal(asked(1, &values(sound, &[1, value])));
    assert_eq!([32_767, -32_768].map(said), [(0, 0); 2]);
    // Record 0 is the axis, 1 and 2 the first set.
    assert_eq!(
        [32_768, -32_769, i32::MAX, i32::MIN].map(said),
        [(70, 3); 4]
    );
}

#[test]
fn axes_in_order_and_within_one() {
    let said = |axis| refusal(asked(1, &values(axis, &[1])));
    let taken = [
        (0, 0, 0),
        (-ONE, -ONE, 0),
        (-ONE, 0, ONE),
        (0, ONE, ONE),
        (0, 1, ONE),
        (-ONE, -1, 0),
        (ONE, ONE, ONE),
        (-ONE, -ONE, -ONE),
    ];
    assert_eq!(taken.map(said), [(0, 0); 8]);
    let refused = [
        (1, 0, ONE),
        (0, ONE, ONE - 1),
        (-ONE - 1, 0, 0),
        (0, ONE, ONE + 1),
        (-ONE, 1, ONE),
        (-1, -1, 1),
        (i16::MIN, i16::MIN, i16::MIN),
        (i16::MAX, i16::MAX, i16::MAX),
    ];
    assert_eq!(refused.map(said), [(71, 0); 8]);
}

/// A region that no set uses is looked at too, and its first bad axis answers.
#[test]
fn regions_that_no_set_uses() {
    let mut job = JobWriter::new(2);
    job.region(&[(0, ONE, ONE), (0, 0, 0)]).unwrap();
    job.region(&[(0, 0, 0), (1, 0, 1)]).unwrap();
    job.set(&[]).unwrap();
    assert_eq!(refusal(asked(2, &job.finish())), (71, 3));
}

/// The earliest bad record answers, and at one record the checks of every build come first.
#[test]
fn the_earliest_record_answers() {
    let mut job = values((0, ONE, ONE), &[40_000]);
    job.extend([9; 12]);
    assert_eq!(refusal(asked(1, &job)), (70, 1));
    // The long value names a region that there is not.
    job[12 + 1] = 7;
    assert_eq!(refusal(asked(1, &job)), (6, 1));
    // A bad record before the long value.
    job[0] = 9;
    assert_eq!(refusal(asked(1, &job)), (30, 0));
    // The job ends in a set, behind its long value.
    let job = values((0, ONE, ONE), &[40_000]);
    assert_eq!(refusal(asked(1, &job[..12 * 2])), (70, 1));
}

#[test]
fn columns_of_a_subtable() {
    let wide = |columns: usize| {
        let mut job = JobWriter::new(1);
        let regions: Vec<_> = (0..columns)
            .map(|i| job.region(&[(0, i as i16, ONE)]).unwrap())
            .collect();
        let set: Vec<_> = regions.iter().map(|&region| (region, 5)).collect();
        job.set(&set).unwrap();
        refusal(asked(1, &job.finish()))
    };
    assert_eq!(
        [31, 32, 33, 40].map(wide),
        [(0, 0), (0, 0), (72, 0), (72, 0)]
    );
}

#[test]
fn messages_say_the_axis_and_the_rule() {
    let said = |job: &[u8]| {
        pack_for(Profile::Panel, 1, 0, job)
            .unwrap_err()
            .explain(1, job)
    };
    assert_eq!(
        said(&values((-ONE, ONE / 2, ONE), &[1])),
        "71 BAD_REGION at record 0 (byte 0): region 0 axis 0 has start -1, peak 0.5, end 1: \
         0 lies inside, and the peak is elsewhere; keep start <= peak <= end within -1 to 1, \
         and the peak at 0 where start is below 0 and end above"
    );
    assert_eq!(
        said(&values((0, ONE, ONE), &[-70_000])),
        "70 LONG_VALUE at record 1 (byte 12): the value of region 0 is -70000, and the panel's \
         reader takes -32768 to 32767; build without the profile, or make the value smaller"
    );
}
