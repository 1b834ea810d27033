//! A whole store, whoever wrote it: read back into a job, judged by a job, cut down to the rows
//! that are used.

use crate::reading::{header_and_list, u16_at, u32_at, Subtable};
use crate::records::{self, RECORD};
use crate::refusals::{number, Refused};
use crate::{Profile, PAIRS, RECORD_LIMIT};
use std::collections::{BTreeMap, BTreeSet};

/// The most axes and regions of a job (J3).
const AXES: usize = 64;
const REGIONS: usize = 32_767;

/// A store taken apart.
struct Whole {
    axes: usize,
    /// The bytes of each region's coordinates.
    regions: Vec<Vec<u8>>,
    /// The subtables by outer number; none where the offset is 0.
    tables: Vec<Option<Table>>,
}

struct Table {
    word: usize,
    columns: Vec<usize>,
    /// The bytes of each row, and its values.
    rows: Vec<(Vec<u8>, Vec<i32>)>,
}

/// The store, if header, list and every subtable are sound (V1, V4).
fn whole(store: &[u8]) -> Option<Whole> {
    let (count, offsets) = header_and_list(store)?;
    let list = u32_at(store, 2)?;
    let axes = u16_at(store, list)?;
    let coordinates = |region: usize| {
        let at = list + 4 + 6 * axes * region;
        store[at..at + 6 * axes].to_vec()
    };
    let table = |&offset: &usize| {
        if offset == 0 {
            return Some(None);
        }
        let subtable = Subtable::parse(store, offset, count)?;
        let bytes = subtable.row_bytes();
        let row = |inner: usize| {
            let at = subtable.rows + inner * bytes;
            let columns = 0..subtable.columns.len();
            let values = columns.map(|column| subtable.value(store, inner, column));
            (store[at..at + bytes].to_vec(), values.collect())
        };
        Some(Some(Table {
            word: u16_at(store, offset + 2)?,
            rows: (0..subtable.items).map(row).collect(),
            columns: subtable.columns,
        }))
    };
    Some(Whole {
        axes,
        regions: (0..count).map(coordinates).collect(),
        tables: offsets.iter().map(table).collect::<Option<_>>()?,
    })
}

impl Whole {
    fn listed_twice(&self) -> bool {
        self.regions.iter().collect::<BTreeSet<_>>().len() < self.regions.len()
    }

    /// The subtable and the row of a word, outer x 65,536 + inner.
    fn row(&self, word: u32) -> Option<(&Table, &[i32])> {
        let table = self.tables.get((word >> 16) as usize)?.as_ref()?;
        let (_, values) = table.rows.get((word & 0xFFFF) as usize)?;
        Some((table, values))
    }
}

/// A job read back from a store.
#[derive(Clone, Debug, PartialEq, Eq)]
pub struct Recovered {
    /// The job's bytes.
    pub job: Vec<u8>,
    /// Axes, regions and sets.
    pub counts: [u64; 3],
}

/// One call of recovering, lent so many bytes of output, with work enough or not: what it
/// answers, or the number of its refusal.
pub fn recover(store: &[u8], room: usize, work_enough: bool) -> Result<Recovered, u32> {
    if !work_enough {
        return Err(number::WORK_SHORT);
    }
    let whole = whole(store).ok_or(number::BAD_STORE)?;
    if whole.listed_twice() {
        return Err(number::REGIONS_EQUAL);
    }
    if whole.axes == 0 || whole.axes > AXES || whole.regions.len() > REGIONS {
        return Err(number::REGIONS_OR_AXES);
    }
    let mut job = Vec::new();
    for (number, region) in whole.regions.iter().enumerate() {
        for (axis, coordinates) in region.chunks(6).enumerate() {
            job.extend([1, number as u8, axis as u8, 0]);
            job.extend(coordinates);
            job.extend([0, 0]);
        }
    }
    let mut sets = 0;
    for table in whole.tables.iter().flatten() {
        for (_, values) in &table.rows {
            for (&region, &value) in table.columns.iter().zip(values) {
                if value != 0 {
                    job.extend([2, region as u8, 0, 0]);
                    job.extend(value.to_be_bytes());
                    job.extend([0; 4]);
                }
            }
            job.extend([3, 0, 0, 0, 0, 0, 0, 0, 0, 0, 0, 0]);
            sets += 1;
        }
    }
    if job.len() / RECORD > RECORD_LIMIT {
        return Err(number::JOB_TOO_LONG);
    }
    if job.len() > room {
        return Err(number::JOB_SHORT);
    }
    let counts = [whole.axes as u64, whole.regions.len() as u64, sets];
    Ok(Recovered { job, counts })
}

/// What is said of a store beside a job.
#[derive(Clone, Copy, Debug, PartialEq, Eq)]
pub enum Verdict {
    /// It gives every set.
    Yes,
    /// The first set that it does not give.
    Set(u64),
    /// It is malformed, of another axis count, or lists a region twice.
    Store,
}

/// One call of judging, with work enough or not.
pub fn judge(
    axes: u32,
    job: &[u8],
    store: &[u8],
    words: &[u32],
    work_enough: bool,
) -> Result<Verdict, Refused> {
    // As a build of mode 0, so that R2 and R9 are never given; R4 stands behind R3.
    crate::early(axes, 0, job, usize::MAX, PAIRS)?;
    if !work_enough {
        return Err(Refused::at(number::WORK_SHORT, 0));
    }
    let said = records::check(Profile::Plain, axes as usize, 0, job)?;
    let Some(whole) = whole(store) else {
        return Ok(Verdict::Store);
    };
    if whole.axes != axes as usize || whole.listed_twice() {
        return Ok(Verdict::Store);
    }
    let bytes = |region: &[[i16; 3]]| -> Vec<u8> {
        let numbers = region.iter().flatten();
        numbers.flat_map(|number| number.to_be_bytes()).collect()
    };
    let coordinates: Vec<Vec<u8>> = said.regions.iter().map(|region| bytes(region)).collect();
    for (number, set) in said.sets.iter().enumerate() {
        let row = words.get(number).and_then(|&word| whole.row(word));
        let Some((table, row)) = row else {
            return Ok(Verdict::Set(number as u64));
        };
        let nonzero = |(_, value): &(&Vec<u8>, i32)| *value != 0;
        let due = set
            .iter()
            .map(|&(region, value)| (&coordinates[region], value));
        let due: BTreeMap<_, _> = due.filter(nonzero).collect();
        let columns = table.columns.iter().map(|&region| &whole.regions[region]);
        let reads = columns.zip(row.iter().copied());
        let reads: BTreeMap<_, _> = reads.filter(nonzero).collect();
        if due != reads {
            return Ok(Verdict::Set(number as u64));
        }
    }
    Ok(Verdict::Yes)
}

/// A store cut down.
#[derive(Clone, Debug, PartialEq, Eq)]
pub struct Kept {
    /// Its bytes.
    pub store: Vec<u8>,
    /// The new place of each entry.
    pub places: Vec<u32>,
    /// Subtables, regions and rows.
    pub counts: [u64; 3],
}

/// One call of keeping, lent so many words of places and bytes of output, with work enough or
/// not: what it answers, or the number of its refusal.
pub fn keep(
    store: &[u8],
    rows: &[u32],
    places: usize,
    room: usize,
    work_enough: bool,
) -> Result<Kept, u32> {
    if !work_enough {
        return Err(number::WORK_SHORT);
    }
    let whole = whole(store).ok_or(number::BAD_STORE)?;
    if rows.iter().any(|&word| whole.row(word).is_none()) {
        return Err(number::NO_ROW);
    }
    if places < rows.len() {
        return Err(number::PLACES_SHORT);
    }
    // The inner numbers that stay, of each outer number that stays.
    let mut used: BTreeMap<usize, BTreeSet<usize>> = BTreeMap::new();
    for &word in rows {
        let inner = used.entry((word >> 16) as usize).or_default();
        inner.insert((word & 0xFFFF) as usize);
    }
    let tables: Vec<(&Table, &BTreeSet<usize>)> = used
        .iter()
        .filter_map(|(&outer, inner)| Some((whole.tables[outer].as_ref()?, inner)))
        .collect();
    let named = tables
        .iter()
        .flat_map(|(table, _)| table.columns.iter().copied());
    let named: Vec<usize> = named.collect::<BTreeSet<usize>>().into_iter().collect();

    // Header, list, subtables, with no gaps (B1 to B5).
    let list = 8 + 4 * tables.len();
    let mut out = [&[0, 1][..], &(list as u32).to_be_bytes()].concat();
    out.extend((tables.len() as u16).to_be_bytes());
    out.resize(list, 0);
    out.extend([whole.axes, named.len()].map(two).concat());
    for &region in &named {
        out.extend(&whole.regions[region]);
    }
    for (number, (table, inner)) in tables.iter().enumerate() {
        let at = (out.len() as u32).to_be_bytes();
        out[8 + 4 * number..][..4].copy_from_slice(&at);
        out.extend(
            [inner.len(), table.word, table.columns.len()]
                .map(two)
                .concat(),
        );
        for region in &table.columns {
            let anew = named.iter().position(|other| other == region);
            out.extend(two(anew.expect("it is named")));
        }
        for &inner in *inner {
            out.extend(&table.rows[inner].0);
        }
    }
    if out.len() > room || u32::try_from(out.len()).is_err() {
        return Err(number::KEPT_SHORT);
    }
    let place = |&word: &u32| {
        let (outer, inner) = ((word >> 16) as usize, (word & 0xFFFF) as usize);
        let anew = used.range(..outer).count();
        (anew << 16 | used[&outer].range(..inner).count()) as u32
    };
    Ok(Kept {
        store: out,
        places: rows.iter().map(place).collect(),
        counts: [
            tables.len() as u64,
            named.len() as u64,
            used.values().map(|inner| inner.len() as u64).sum(),
        ],
    })
}

fn two(number: usize) -> [u8; 2] {
    (number as u16).to_be_bytes()
}
