//! Reading one value (V1 to V8), by the fields of OpenType's chapter.

use crate::refusals::number;

/// What reading one value answers when it is not refused.
#[derive(Clone, Copy, Debug, PartialEq, Eq)]
pub enum Reading {
    /// The row has a column for the region, with this value.
    Written(i32),
    /// The subtable has no column for the region, which means zero.
    NoColumn,
}

/// Reads the value of a region (by its number in the store's list) in row
/// `inner` of subtable `outer`, or gives the refusal number.
///
/// The tests are in the order V1 to V6.
pub fn read(store: &[u8], outer: u32, inner: u32, region: u32) -> Result<Reading, u32> {
    let (regions, subtable_offsets) = header_and_list(store).ok_or(number::BAD_STORE)?;
    let offset = *subtable_offsets.get(outer as usize).ok_or(number::NO_ROW)?;
    if offset == 0 {
        return Err(number::NO_ROW);
    }
    let subtable = Subtable::parse(store, offset, regions).ok_or(number::BAD_STORE)?;
    if inner as usize >= subtable.items {
        return Err(number::NO_ROW);
    }
    if region as usize >= regions {
        return Err(number::NO_REGION);
    }
    let column = subtable.columns.iter().position(|&c| c == region as usize);
    Ok(match column {
        Some(column) => Reading::Written(subtable.value(store, inner as usize, column)),
        None => Reading::NoColumn,
    })
}

/// The list's region count and the subtable offsets; none where V1 fails.
pub(crate) fn header_and_list(store: &[u8]) -> Option<(usize, Vec<usize>)> {
    let format = u16_at(store, 0)?;
    let list = u32_at(store, 2)?;
    let count = u16_at(store, 6)?;
    let offsets: Option<Vec<usize>> = (0..count).map(|i| u32_at(store, 8 + 4 * i)).collect();
    let offsets = offsets?;
    if format != 1 || list == 0 {
        return None;
    }
    let axes = u16_at(store, list)?;
    let regions = u16_at(store, list + 2)?;
    let end = list + 4 + 6 * axes * regions;
    (end <= store.len()).then_some((regions, offsets))
}

/// One ItemVariationData.
pub(crate) struct Subtable {
    pub(crate) items: usize,
    /// The region of each column.
    pub(crate) columns: Vec<usize>,
    /// Columns of full word width.
    words: usize,
    /// Full words are 4 bytes and the others 2, not 2 and 1.
    long: bool,
    /// Where the rows begin.
    pub(crate) rows: usize,
}

impl Subtable {
    /// None where V4 fails.
    pub(crate) fn parse(store: &[u8], at: usize, regions: usize) -> Option<Subtable> {
        let items = u16_at(store, at)?;
        let word_count = u16_at(store, at + 2)?;
        let count = u16_at(store, at + 4)?;
        let columns: Option<Vec<usize>> =
            (0..count).map(|i| u16_at(store, at + 6 + 2 * i)).collect();
        let columns = columns?;
        let subtable = Subtable {
            items,
            columns,
            words: word_count & 0x7FFF,
            long: word_count & 0x8000 != 0,
            rows: at + 6 + 2 * count,
        };
        if subtable.words > count {
            return None;
        }
        let mut named = vec![false; regions];
        for &column in &subtable.columns {
            let mark = named.get_mut(column)?;
            if std::mem::replace(mark, true) {
                return None;
            }
        }
        let end = subtable.rows + items * subtable.row_bytes();
        (end <= store.len()).then_some(subtable)
    }

    /// Bytes of a full word and of the others.
    fn widths(&self) -> (usize, usize) {
        if self.long {
            (4, 2)
        } else {
            (2, 1)
        }
    }

    /// Where column `column` begins in a row; with the column count, a row's
    /// bytes.
    fn column_at(&self, column: usize) -> usize {
        let (full, other) = self.widths();
        let full_columns = column.min(self.words);
        full * full_columns + other * (column - full_columns)
    }

    pub(crate) fn row_bytes(&self) -> usize {
        self.column_at(self.columns.len())
    }

    /// The value, sign kept.
    pub(crate) fn value(&self, store: &[u8], inner: usize, column: usize) -> i32 {
        let (full, other) = self.widths();
        let width = if column < self.words { full } else { other };
        let at = self.rows + inner * self.row_bytes() + self.column_at(column);
        let number = store[at..at + width]
            .iter()
            .fold(0, |n: i64, &byte| 256 * n + i64::from(byte));
        let half = 1i64 << (8 * width - 1);
        (if number >= half {
            number - 2 * half
        } else {
            number
        }) as i32
    }
}

pub(crate) fn u16_at(store: &[u8], at: usize) -> Option<usize> {
    let bytes = store.get(at..at.checked_add(2)?)?;
    Some(256 * bytes[0] as usize + bytes[1] as usize)
}

pub(crate) fn u32_at(store: &[u8], at: usize) -> Option<usize> {
    Some(65_536 * u16_at(store, at)? + u16_at(store, at.checked_add(2)?)?)
}
