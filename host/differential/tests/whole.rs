//! Whole stores that no builder of ours wrote, read back into jobs, built again, judged and cut
//! down, beside the plain reading of the rules.

use differential::whole::Whole;
use jobs::stores::{self, Store};
use jobs::{damage, random, Job, Rng};
use plain::stores::Verdict;
use plain::{number, Reading, Sizes};

/// The value that a row gives a region of the list.
fn value(store: &[u8], row: u32, region: usize) -> i32 {
    match plain::read(store, row >> 16, row & 0xFFFF, region as u32) {
        Ok(Reading::Written(value)) => value,
        Ok(Reading::NoColumn) => 0,
        Err(no) => panic!("row {row}, region {region} is refused by {no}"),
    }
}

/// The regions of a store's list.
fn listed(store: &[u8]) -> Vec<jobs::Region> {
    let store = ivs::Store::decode(store).unwrap();
    let axis = |&(start, peak, end): &ivs::Tent| [start, peak, end];
    let region = |region: &Vec<ivs::Tent>| region.iter().map(axis).collect();
    store.regions.iter().map(region).collect()
}

/// Two rows of two stores read the same, by the coordinates of every region.
fn reads_the_same(old: (&[u8], u32), new: (&[u8], u32)) {
    let (before, after) = (listed(old.0), listed(new.0));
    for (number, region) in before.iter().enumerate() {
        let anew = after.iter().position(|other| other == region);
        let now = anew.map_or(0, |anew| value(new.0, new.1, anew));
        assert_eq!(now, value(old.0, old.1, number), "{region:?}");
    }
    for (number, region) in after.iter().enumerate() {
        let known = before.contains(region);
        assert!(known || value(new.0, new.1, number) == 0, "{region:?}");
    }
}

/// The words of a store's rows, in order.
fn words(store: &Store) -> Vec<u32> {
    let word = |(outer, inner, _): (usize, usize, _)| (outer << 16 | inner) as u32;
    store.rows().map(word).collect()
}

#[test]
fn recovered_and_built_again() {
    let (lent, mut rows, mut refused) = (&mut Whole::default(), 0, 0);
    for seed in 0..4_000 {
        let store = stores::random(seed);
        let bytes = &store.bytes;
        let work = ivs::recover_words(bytes.len());
        assert!(work <= 4 * bytes.len() + 65_536);
        let recovered = lent.recover(bytes, usize::from(u16::MAX), work).unwrap();
        let size = recovered.job.len();
        for room in [0, size.saturating_sub(1), size, size + 3] {
            let said = lent.recover(bytes, room, work + 1);
            assert_eq!(said.is_ok(), room >= size);
        }
        let short = lent.recover(bytes, size, work.saturating_sub(1));
        assert_eq!(short.err(), (work > 0).then_some(number::WORK_SHORT));

        // The job has what was put into the store.
        let job = Job::parse(store.axes, &recovered.job).unwrap();
        assert_eq!(job.regions, store.regions);
        let set = |(_, _, row): (usize, usize, Vec<(usize, i32)>)| -> Vec<(u16, i32)> {
            let values = row.into_iter().filter(|(_, value)| *value != 0);
            values
                .map(|(region, value)| (region as u16, value))
                .collect()
        };
        assert_eq!(job.sets, store.rows().map(set).collect::<Vec<_>>());

        let packed = ivs::pack(store.axes as u32, 0, &recovered.job).unwrap();
        for (number, row) in words(&store).into_iter().enumerate() {
            let anew = packed.map[packed.ids[number] as usize];
            reads_the_same((bytes, row), (&packed.store, anew));
            rows += 1;
        }
        refused += usize::from(lent.recover(&bytes[..bytes.len() - 1], 0, work).is_err());
    }
    assert!(rows > 20 && refused > 20, "{rows} {refused}");
}

#[test]
fn judged() {
    let (lent, mut yes, mut no) = (&mut Whole::default(), 0, 0);
    for seed in 0..3_000 {
        let rng = &mut Rng::new(seed);
        let store = stores::random(seed);
        let recovered = lent.recover(&store.bytes, 1 << 16, 1 << 16).unwrap();
        let (axes, words) = (store.axes as u32, words(&store));
        let mut judge = |job: &[u8], bytes: &[u8], words: &[u32], short: usize| {
            let regions = ivs::head_regions(axes, job);
            let work = ivs::judge_words(job.len() / 12, regions, bytes.len());
            assert!(work <= ivs::work_words(job.len() / 12, regions) + 4 * bytes.len() + 65_536);
            lent.judge(axes, job, bytes, words, work.saturating_sub(short))
        };
        // A store that others wrote gives the sets that it was read back into.
        let job = &recovered.job;
        assert_eq!(judge(job, &store.bytes, &words, 0), Ok(Verdict::Yes));
        yes += 1;
        let more = [&words[..], &[7, u32::MAX]].concat();
        assert_eq!(judge(job, &store.bytes, &more, 0), Ok(Verdict::Yes));
        let _ = judge(job, &store.bytes, &words, 1);
        if let Some((last, fewer)) = words.split_last() {
            let due = Ok(Verdict::Set(fewer.len() as u64));
            assert_eq!(judge(job, &store.bytes, fewer, 0), due);
            let mut other = words.clone();
            other[rng.below(words.len())] = last.wrapping_add(1);
            let _ = judge(job, &store.bytes, &other, 0);
        }
        // Another store or another job is judged as the plain reading does.
        for _ in 0..6 {
            let hurt = damage::store(rng, &store.bytes);
            let said = judge(job, &hurt, &words, 0).unwrap();
            no += usize::from(said != Verdict::Yes);
            let hurt = damage::any(rng, job).1;
            let _ = judge(&hurt, &store.bytes, &words, 0);
        }
        let _ = lent.judge(axes + 1, job, &store.bytes, &words, 1 << 21);
    }
    assert!(yes > 100 && no > 100, "{yes} {no}");
}

/// Whatever our own build writes gets a yes; one changed byte of a row, a no by the first set
/// that has the row.
#[test]
fn our_own_are_right() {
    let (lent, mut changed) = (&mut Whole::default(), 0);
    for seed in 0..1_000 {
        let (job, rng) = (random::job(seed), &mut Rng::new(seed));
        let (axes, bytes) = (job.axes as u32, job.to_bytes());
        for mode in [0, 1] {
            let Ok(done) = plain::build(axes, mode, &bytes, &Sizes::PLENTY) else {
                continue;
            };
            let words: Vec<u32> = done.ids.iter().map(|&id| done.map[id as usize]).collect();
            let regions = ivs::head_regions(axes, &bytes);
            let work = ivs::judge_words(bytes.len() / 12, regions, done.store.len());
            let said = lent.judge(axes, &bytes, &done.store, &words, work);
            assert_eq!(said, Ok(Verdict::Yes), "seed {seed}, mode {mode}");
            // The last byte of a store with rows of some bytes is a row's.
            let wide = ivs::Store::decode(&done.store).unwrap();
            let tables: Vec<_> = wide.subtables().flatten().flatten().collect();
            let last = tables.last().filter(|t| t.items > 0 && t.row_bytes() > 0);
            let Some(last) = last else { continue };
            let row = ((tables.len() - 1) << 16 | (last.items - 1)) as u32;
            let mut store = done.store.clone();
            *store.last_mut().unwrap() ^= 1 << rng.below(8);
            let said = lent.judge(axes, &bytes, &store, &words, work);
            let set = words.iter().position(|&word| word == row).unwrap();
            assert_eq!(
                said,
                Ok(Verdict::Set(set as u64)),
                "seed {seed}, mode {mode}"
            );
            changed += 1;
        }
    }
    assert!(changed > 20, "{changed}");
}

/// A store of one subtable with these rows, whose columns are all regions of the job in order.
fn all_columns(job: &Job, rows: &[Vec<u8>]) -> Vec<u8> {
    let count = job.regions.len() as u16;
    let table = 16 + 6 * u32::from(count);
    let mut store = [&[0, 1, 0, 0, 0, 12, 0, 1][..], &table.to_be_bytes()].concat();
    store.extend([[0, 1], count.to_be_bytes()].concat());
    let tents = job.regions.iter().flatten().flatten();
    store.extend(tents.flat_map(|coordinate| coordinate.to_be_bytes()));
    for head in [rows.len() as u16, 0, count] {
        store.extend(head.to_be_bytes());
    }
    store.extend((0..count).flat_map(u16::to_be_bytes));
    store.extend(rows.concat());
    store
}

/// Very many sets at rows of 32,767 columns: a set costs what it has, and not what its row is wide
/// (by the width of the rows this would be 13,000,000,000 cells).
#[test]
fn wide_rows_of_many_sets() {
    let sets = 400_000;
    let job = Job {
        sets: vec![vec![(7, -5)]; sets],
        ..Job::one_axis(jobs::REGIONS)
    };
    let mut rows = vec![vec![0; jobs::REGIONS]; 3];
    for row in &mut rows {
        row[7] = -5_i8 as u8;
    }
    // A region that no set names.
    *rows[1].last_mut().unwrap() = 1;
    rows[2][7] = 0;
    let (bytes, store) = (job.to_bytes(), all_columns(&job, &rows));
    let mut words = vec![0; sets];
    let said = |words: &[u32]| ivs::judge(1, &bytes, &store, words).unwrap();
    assert_eq!(said(&words), ivs::Verdict::Yes);
    for row in [1, 2] {
        words[sets - 1] = row;
        assert_eq!(said(&words), ivs::Verdict::Set(sets as u64 - 1));
    }
}

#[test]
fn kept() {
    let (lent, mut rows, mut none) = (&mut Whole::default(), 0, 0);
    for seed in 0..3_000 {
        let rng = &mut Rng::new(!seed);
        let store = stores::random(seed);
        let (bytes, all) = (&store.bytes, words(&store));
        let entries = if all.is_empty() {
            0
        } else {
            rng.below(all.len() + 3)
        };
        let mut list: Vec<u32> = (0..entries).map(|_| rng.pick(&all)).collect();
        let work = ivs::keep_words(bytes.len(), list.len());
        assert!(work <= 4 * list.len() + 4 * bytes.len() + 65_536);
        let kept = lent
            .keep(bytes, &list, [list.len(), 1 << 16, work])
            .unwrap();
        let size = kept.store.len();
        for lending in [
            [list.len(), size, work],
            [list.len() + 2, size + 5, work + 1],
            [list.len(), size - 1, work],
            [list.len().saturating_sub(1), size, work],
            [list.len(), size, work.saturating_sub(1)],
        ] {
            let _ = lent.keep(bytes, &list, lending);
        }
        // Each kept row reads the same, by coordinates.
        for (&old, &new) in list.iter().zip(&kept.places) {
            reads_the_same((bytes, old), (&kept.store, new));
            rows += 1;
        }
        // With all rows of the result nothing changes any more.
        let left = ivs::Store::decode(&kept.store).unwrap();
        let mut every: Vec<u32> = Vec::new();
        for (outer, table) in left.subtables().enumerate() {
            let table = table.unwrap().expect("no subtable without rows is kept");
            every.extend((0..table.items).map(|inner| (outer << 16 | inner) as u32));
        }
        let again = ivs::keep(&kept.store, &every).unwrap();
        assert_eq!((&again.store, &again.places), (&kept.store, &every));
        // A row that is not there, and a store that is damaged.
        list.push(rng.bits() as u32);
        none += usize::from(lent.keep(bytes, &list, [99, 1 << 16, 1 << 17]).is_err());
        for _ in 0..4 {
            let hurt = damage::store(rng, bytes);
            let _ = lent.keep(&hurt, &all, [all.len(), 1 << 16, 1 << 17]);
            let _ = lent.recover(&hurt, 1 << 16, 1 << 16);
        }
    }
    assert!(rows > 20 && none > 20, "{rows} {none}");
}

/// 65,535 outer numbers at one subtable of 65,535 rows of no bytes: never walked row by row.
#[test]
fn a_hostile_store_ends_early() {
    let outer = u32::from(u16::MAX);
    let table = 8 + 4 * outer;
    let mut bytes = [&[0, 1][..], &(table + 6).to_be_bytes(), &[0xFF, 0xFF]].concat();
    for _ in 0..outer {
        bytes.extend(table.to_be_bytes());
    }
    bytes.extend([0xFF, 0xFF, 0, 0, 0, 0]);
    bytes.extend([0, 1, 0, 0]);
    let number = |no: ivs::Refused| no.number;
    assert_eq!(
        ivs::recover(&bytes).map_err(number),
        Err(number::JOB_TOO_LONG)
    );
    let kept = ivs::keep(&bytes, &[u32::MAX - 65_537, 0, 7]).unwrap();
    assert_eq!(kept.places, [65_536, 0, 1]);
    assert_eq!((kept.done.subtables, kept.done.rows_kept), (2, 3));
    let end = [3, 0, 0, 0, 0, 0, 0, 0, 0, 0, 0, 0];
    let said = ivs::judge(1, &end, &bytes, &[65_535 << 16]);
    assert_eq!(said, Ok(ivs::Verdict::Set(0)));
    let said = ivs::judge(1, &end, &bytes, &[65_534 << 16]);
    assert_eq!(said, Ok(ivs::Verdict::Yes));
}

/// 65,535 outer numbers at one row of 32,767 columns, of two bytes and of one, all zero or all but
/// the last: zeros are jumped over, and not walked for each outer number.
#[test]
fn zeros_are_jumped_over() {
    let (outer, columns) = (u32::from(u16::MAX), 32_767);
    let list = 8 + 4 * outer;
    let table = list + 4 + 6 * columns;
    for last in [0, 7] {
        let mut bytes = [&[0, 1][..], &list.to_be_bytes(), &[0xFF, 0xFF]].concat();
        for _ in 0..outer {
            bytes.extend(table.to_be_bytes());
        }
        bytes.extend([0, 1, 0x7F, 0xFF]);
        for region in 0..columns as u16 {
            bytes.extend([0, 0, (region >> 8) as u8, region as u8, 0, 0]);
        }
        // One row, whose first 16,384 columns are of two bytes.
        bytes.extend([0, 1, 0x40, 0, 0x7F, 0xFF]);
        for region in 0..columns as u16 {
            bytes.extend(region.to_be_bytes());
        }
        bytes.resize(bytes.len() + 2 * 16_384 + 16_382, 0);
        bytes.push(last);
        let recovered = ivs::recover(&bytes).unwrap();
        let counts = (recovered.regions, recovered.sets);
        assert_eq!(counts, (columns.into(), outer.into()));
        let value = [2, 0xFE, 0, 0x7F, 0, 0, 0, last, 0, 0, 0, 0];
        let end = [3, 0, 0, 0, 0, 0, 0, 0, 0, 0, 0, 0];
        let set = [value, end][usize::from(last == 0)..].concat();
        let sets = &recovered.job.bytes()[12 * columns as usize..];
        assert!(sets == set.repeat(outer as usize), "{last}");
    }
}

/// Just at the limits of a job: regions, axes, records.
#[test]
fn limits_of_a_job() {
    let list = |axes: u16, regions: u16, same: bool| {
        let mut bytes = vec![0, 1, 0, 0, 0, 8, 0, 0];
        bytes.extend(axes.to_be_bytes());
        bytes.extend(regions.to_be_bytes());
        for region in 0..regions {
            for axis in 0..axes {
                let own = if same { 0 } else { region };
                bytes.extend([0, 0, (own >> 8) as u8, own as u8, 0, axis as u8]);
            }
        }
        bytes
    };
    let number = |bytes: &[u8]| ivs::recover(bytes).map_or_else(|no| no.number, |_| 0);
    let most = ivs::limits::REGIONS as u16;
    assert_eq!(number(&list(1, most, false)), 0);
    assert_eq!(number(&list(1, most + 1, false)), number::REGIONS_OR_AXES);
    assert_eq!(number(&list(64, 2, false)), 0);
    assert_eq!(number(&list(65, 1, false)), number::REGIONS_OR_AXES);
    assert_eq!(number(&list(0, 0, false)), number::REGIONS_OR_AXES);
    assert_eq!(number(&list(0, 1, false)), number::REGIONS_OR_AXES);
    // Equal regions come first: of no axes all are equal.
    assert_eq!(number(&list(0, 2, false)), number::REGIONS_EQUAL);
    assert_eq!(number(&list(65, 2, true)), number::REGIONS_EQUAL);
    assert_eq!(number(&list(2, 2, true)), number::REGIONS_EQUAL);
}
