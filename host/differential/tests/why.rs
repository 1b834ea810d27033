//! Why two ids are where they are, and the bytes that show one (Z1 to Z8): by the plain reading
//! and by the library, on random jobs, at the cut and beside it.

use jobs::{edges, random, Job, Rng, RECORD};
use plain::why::Why;

/// The answer of both, or the refusal's number, place and byte.
fn why(axes: u32, job: &[u8], store: &[u8], ids: [u32; 2]) -> Result<Why, (u32, u64, u64)> {
    let said = plain::why::why(axes, job, store, ids);
    let said = said.map_err(|refused| (refused.number, refused.place, refused.byte));
    let proved = proved(axes, job, store, ids);
    assert_eq!(proved, said, "ids {ids:?}");
    said
}

/// The library's alone.
fn proved(axes: u32, job: &[u8], store: &[u8], ids: [u32; 2]) -> Result<Why, (u32, u64, u64)> {
    match ivs::why(axes, job, store, ids[0], ids[1]) {
        Ok(ivs::Why::SameSubtable) => Ok(Why::SameSubtable),
        Ok(ivs::Why::CutApart) => Ok(Why::CutApart),
        Ok(ivs::Why::NeverJoined {
            costs,
            joined,
            gain,
        }) => Ok(Why::NeverJoined {
            costs,
            joined,
            gain,
        }),
        Err(refused) => Err((refused.number, refused.place, refused.byte)),
    }
}

/// Both parts that show an id are those of the plain reading, and lie where they should.
fn shown(axes: u32, job: &[u8], store: &[u8], id: u32) {
    let end = ivs::show(axes, job, store, id, ivs::Shows::EndRecord).unwrap();
    let due = plain::why::end_record(axes, job, store, id).unwrap();
    assert_eq!(end.as_ptr_range(), job[due].as_ptr_range(), "id {id}");
    let row = ivs::show(axes, job, store, id, ivs::Shows::Row).unwrap();
    let due = plain::why::row(axes, job, store, id).unwrap();
    assert_eq!(row.as_ptr_range(), store[due].as_ptr_range(), "id {id}");
}

fn bytes(job: &Job) -> (u32, Vec<u8>, ivs::Packed) {
    let (axes, job) = (job.axes as u32, job.to_bytes());
    let packed = ivs::pack(axes, 0, &job).unwrap();
    (axes, job, packed)
}

/// The reason goes by the subtables of the rows, the gain is theirs and never above 0, and the
/// other way round the same is told the other way round.
#[test]
fn random_jobs() {
    let rng = &mut Rng::new(110);
    let (mut same, mut apart) = (0, 0);
    for seed in 0..84 {
        let (axes, job, packed) = bytes(&random::job(seed));
        let ids = packed.map.len();
        for _ in 0..if ids == 0 { 0 } else { 4 } {
            let ids = [rng.below(ids) as u32, rng.below(ids) as u32];
            let [outer, other] = ids.map(|id| packed.map[id as usize] >> 16);
            let turned = proved(axes, &job, &packed.store, [ids[1], ids[0]]);
            match why(axes, &job, &packed.store, ids).unwrap() {
                Why::SameSubtable => {
                    assert_eq!(outer, other, "{seed}");
                    assert_eq!(turned, Ok(Why::SameSubtable));
                    same += 1;
                }
                Why::CutApart => panic!("{seed}: so small a job is never cut"),
                Why::NeverJoined {
                    costs: [first, second],
                    joined,
                    gain,
                } => {
                    assert!(outer != other && gain <= 0, "{seed}: {gain}");
                    assert_eq!((first + second) as i64 - joined as i64, gain);
                    let costs = [second, first];
                    assert_eq!(
                        turned,
                        Ok(Why::NeverJoined {
                            costs,
                            joined,
                            gain
                        })
                    );
                    apart += 1;
                }
            }
            shown(axes, &job, &packed.store, ids[0]);
        }
    }
    println!("same {same}, apart {apart}");
    assert!(same > 20 && apart > 20, "{same} {apart}");
}

/// 65,536 sets of one shape, and 40 of another: the first group is cut behind 65,535 rows.
#[test]
fn the_cut() {
    let (axes, job, packed) = bytes(&edges::behind(65_536));
    let store = &packed.store;
    assert_eq!(
        proved(axes, &job, store, [0, 65_534]),
        Ok(Why::SameSubtable)
    );
    assert_eq!(why(axes, &job, store, [0, 65_535]), Ok(Why::CutApart));
    assert_eq!(proved(axes, &job, store, [65_535, 0]), Ok(Why::CutApart));
    let same = [65_535, 65_535];
    assert_eq!(proved(axes, &job, store, same), Ok(Why::SameSubtable));
    let apart = why(axes, &job, store, [65_535, 65_536]).unwrap();
    let costs = [12 + 65_536 * 4, 12 + 40 * 4];
    let joined = 14 + 65_576 * 8;
    let gain = (costs[0] + costs[1]) as i64 - joined as i64;
    assert_eq!(
        apart,
        Why::NeverJoined {
            costs,
            joined,
            gain
        }
    );
    shown(axes, &job, store, 65_535);
}

/// The build's refusals, then 62, then 63.
#[test]
fn refusals_in_their_order() {
    let job = Job::one_axis(1).with(&[&[(0, 1)], &[], &[(0, 1)]]);
    let (axes, job, packed) = bytes(&job);
    let store = &packed.store;
    assert_eq!(why(axes, &job, store, [1, 0]), Ok(Why::SameSubtable));
    for ids in [[2, 0], [0, 2], [2, 2], [u32::MAX, 0]] {
        assert_eq!(why(axes, &job, store, ids), Err((62, 0, 0)));
        assert_eq!(why(axes, &job, &[], ids), Err((62, 0, 0)));
    }
    assert_eq!(why(1, &[], &[], [0, 0]), Err((62, 0, 0)));
    assert_eq!(why(0, &job, store, [2, 2]), Err((1, 0, 0)));
    assert_eq!(why(1, &job[..5], store, [2, 2]), Err((3, 0, 0)));
    assert_eq!(why(1, &job[..2 * RECORD], store, [2, 2]), Err((8, 2, 0)));
    let shapes = edges::shapes(1_025).to_bytes();
    assert_eq!(why(1, &shapes, store, [0, 0]), Err((10, 0, 0)));
}

/// A store with one byte changed, whichever, or another length is another store.
#[test]
fn a_stale_store() {
    let job = Job::one_axis(2).with(&[&[(0, 1)], &[(1, 300)], &[]]);
    let (axes, job, packed) = bytes(&job);
    let refused = |store: &[u8]| {
        assert_eq!(why(axes, &job, store, [0, 1]), Err((63, 0, 0)));
        for what in [ivs::Shows::EndRecord, ivs::Shows::Row] {
            let refused = ivs::show(axes, &job, store, 0, what).unwrap_err();
            assert_eq!(refused.refusal(), Some(ivs::Refusal::OtherStore));
        }
    };
    for at in 0..packed.store.len() {
        let mut store = packed.store.clone();
        store[at] ^= 1;
        refused(&store);
    }
    refused(&packed.store[1..]);
    refused(&packed.store[..packed.store.len() - 1]);
    refused(&[&packed.store[..], &[0]].concat());
    // Mode 1 writes another here.
    let implicit = Job::one_axis(1).with(&[&[(0, 1)], &[(0, 1)]]).to_bytes();
    let store = ivs::pack(1, 1, &implicit).unwrap().store;
    assert_eq!(why(1, &implicit, &store, [0, 0]), Err((63, 0, 0)));
}
