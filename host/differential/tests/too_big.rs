//! Both sides of R60: a store of 4,294,967,295 bytes and one of a byte more, in mode 1. The
//! refusal comes before the output is looked at, so nothing of that size is lent.

use jobs::{edges, Job};
use plain::{number, Sizes};

/// The bytes of the store, or the refusal's number.
fn foretold(job: &Job) -> Result<u64, u32> {
    let told = ivs::forecast(job.axes as u32, 1, &job.to_bytes());
    told.map(|done| done.store_bytes)
        .map_err(|refused| refused.number)
}

/// The number that a build gives which is lent enough of all but output, of which it is lent none.
fn refused(job: &Job) -> u32 {
    let (axes, bytes) = (job.axes as u32, job.to_bytes());
    let sets = job.sets.len();
    let mut lent = ivs::Lent {
        work: &mut vec![0; ivs::job_words(axes, &bytes)],
        pairs: &mut vec![ivs::Pair::default(); ivs::PAIRS],
        out: &mut [],
        ids: &mut vec![0; sets],
        map: &mut vec![0; sets],
        log: &mut [],
        origins: &mut [],
    };
    let done = ivs::build_into(axes, 1, &bytes, &mut lent);
    done.expect_err("there is no output").number
}

#[test]
fn the_last_store_that_fits() {
    let fits = edges::long_rows(7, 32_767, 32_748, 65_535);
    assert_eq!(foretold(&fits), Ok(4_294_967_295));
    assert_eq!(refused(&fits), number::OUT_SHORT);
}

#[test]
fn a_byte_more() {
    let over = edges::long_rows(2, 32_766, 32_764, 65_535);
    assert_eq!(foretold(&over), Err(number::STORE_TOO_BIG));
    assert_eq!(refused(&over), number::STORE_TOO_BIG);
    let said = plain::build(2, 1, &over.to_bytes(), &Sizes::PLENTY).unwrap_err();
    assert_eq!((said.number, said.place), (number::STORE_TOO_BIG, 0));
}
