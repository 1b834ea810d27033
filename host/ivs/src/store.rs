//! A store taken apart: its regions, subtables and rows, of whatever bytes it is.

use crate::{read, Refused, Tent};

const BAD_STORE: Refused = Refused::bare(20);

/// A store's regions and subtables. The proved reader looks at the header and the regions
/// first and at each subtable as it is asked for, so that there is one judge of stores.
///
/// ```
/// let mut job = ivs::JobWriter::new(1);
/// let bold = job.region(&[(0, 0x4000, 0x4000)])?;
/// let light = job.region(&[(-0x4000, -0x4000, 0)])?;
/// job.set(&[(bold, 1)])?;
/// job.set(&[(light, 300)])?;
/// let bytes = job.job().pack(ivs::Mode::Deduplicating)?.store;
///
/// let store = ivs::Store::decode(&bytes)?;
/// assert_eq!((store.axes, store.regions[0][0]), (1, (0, 0x4000, 0x4000)));
/// for subtable in store.subtables() {
///     let Some(subtable) = subtable? else { continue };      // null: there are no rows
///     for row in subtable.rows() {
///         for (region, value) in row.values() {
///             println!("row {}: region {region} has {value}", row.inner());
///         }
///     }
/// }
/// # Ok::<(), ivs::Error>(())
/// ```
#[derive(Clone, Debug)]
pub struct Store<'a> {
    bytes: &'a [u8],
    /// The axis count.
    pub axes: usize,
    /// The regions of the store's list, a triple an axis.
    pub regions: Vec<Vec<Tent>>,
    offsets: Vec<usize>,
}

/// A subtable of a store.
///
/// ```
/// let end = [3, 0, 0, 0, 0, 0, 0, 0, 0, 0, 0, 0];     // one set, which is empty
/// let packed = ivs::pack(1, 0, &end)?;
/// let subtable = ivs::Store::decode(&packed.store)?.subtable(0)?.unwrap();
/// assert_eq!((subtable.items, subtable.columns.len(), subtable.row_bytes()), (1, 0, 0));
/// # Ok::<(), ivs::Refused>(())
/// ```
#[derive(Clone, Debug)]
pub struct Subtable<'a> {
    /// Its columns, in the order in which a row has them.
    pub columns: Vec<Column>,
    /// How many rows there are.
    pub items: usize,
    rows: &'a [u8],
}

/// A column of a subtable.
///
/// ```
/// let mut job = ivs::JobWriter::new(1);
/// let bold = job.region(&[(0, 0x4000, 0x4000)])?;
/// job.set(&[(bold, 300)])?;
/// let packed = job.job().pack(ivs::Mode::Deduplicating)?;
/// let subtable = ivs::Store::decode(&packed.store)?.subtable(0)?.unwrap();
/// assert_eq!(subtable.columns, [ivs::Column { region: 0, bytes: 2 }]);
/// # Ok::<(), ivs::Error>(())
/// ```
#[derive(Clone, Copy, Debug, PartialEq, Eq)]
pub struct Column {
    /// The region's number in the store's list.
    pub region: usize,
    /// The bytes of a value: 1, 2 or 4.
    pub bytes: usize,
}

/// A row of a subtable.
///
/// ```
/// let end = [3, 0, 0, 0, 0, 0, 0, 0, 0, 0, 0, 0];
/// let packed = ivs::pack(1, 0, &end)?;
/// let subtable = ivs::Store::decode(&packed.store)?.subtable(0)?.unwrap();
/// assert_eq!(subtable.row(0).unwrap().values().count(), 0);
/// assert!(subtable.row(1).is_none());
/// # Ok::<(), ivs::Refused>(())
/// ```
#[derive(Clone, Copy, Debug)]
pub struct Row<'s> {
    columns: &'s [Column],
    inner: usize,
    bytes: &'s [u8],
}

impl<'a> Store<'a> {
    /// The header and the regions; refused by 20 where they are no store's.
    ///
    /// ```
    /// assert_eq!(ivs::Store::decode(&[0; 12]).unwrap_err().name(), "BAD_STORE");
    /// ```
    pub fn decode(bytes: &'a [u8]) -> Result<Store<'a>, Refused> {
        judge(bytes, 0)?;
        Store::parse(bytes).ok_or(BAD_STORE)
    }

    fn parse(bytes: &'a [u8]) -> Option<Store<'a>> {
        let offsets = (0..u16_at(bytes, 6)?)
            .map(|outer| u32_at(bytes, 8 + 4 * outer))
            .collect::<Option<Vec<usize>>>()?;
        let list = u32_at(bytes, 2)?;
        let (axes, count) = (u16_at(bytes, list)?, u16_at(bytes, list + 2)?);
        let tent = |number: usize| {
            let at = list + 4 + 6 * number;
            let raw = |i: usize| u16_at(bytes, at + 2 * i).map(|raw| raw as u16 as i16);
            Some((raw(0)?, raw(1)?, raw(2)?))
        };
        let region = |number: usize| (axes * number..axes * (number + 1)).map(tent).collect();
        Some(Store {
            bytes,
            axes,
            regions: (0..count).map(region).collect::<Option<_>>()?,
            offsets,
        })
    }

    /// The store's bytes, as they were given.
    ///
    /// ```
    /// let bytes = ivs::pack(1, 0, &[])?.store;
    /// assert_eq!(ivs::Store::decode(&bytes)?.bytes(), bytes);
    /// # Ok::<(), ivs::Refused>(())
    /// ```
    pub fn bytes(&self) -> &'a [u8] {
        self.bytes
    }

    /// How many subtables there are, null ones included.
    ///
    /// ```
    /// let bytes = ivs::pack(1, 1, &[])?.store;           // no sets in mode 1: one, null
    /// assert_eq!(ivs::Store::decode(&bytes)?.subtable_count(), 1);
    /// # Ok::<(), ivs::Refused>(())
    /// ```
    pub fn subtable_count(&self) -> usize {
        self.offsets.len()
    }

    /// Subtable `outer`; none where the store has it as null. Refused by 20 where the bytes
    /// there are no subtable, by 21 where there is none of that number.
    ///
    /// ```
    /// let bytes = ivs::pack(1, 1, &[])?.store;
    /// let store = ivs::Store::decode(&bytes)?;
    /// assert!(store.subtable(0)?.is_none());
    /// assert_eq!(store.subtable(1).unwrap_err().name(), "NO_ROW");
    /// # Ok::<(), ivs::Refused>(())
    /// ```
    pub fn subtable(&self, outer: usize) -> Result<Option<Subtable<'a>>, Refused> {
        let Some(&at) = self.offsets.get(outer) else {
            return Err(Refused::bare(21));
        };
        judge(self.bytes, outer as u32)?;
        match at {
            0 => Ok(None),
            at => Subtable::parse(self.bytes, at).map(Some).ok_or(BAD_STORE),
        }
    }

    /// Every subtable, as [`subtable`](Store::subtable) answers it. Nothing is looked at before
    /// it is asked for: the subtables of a store that others wrote may share bytes, and have
    /// far more rows than that.
    ///
    /// ```
    /// let bytes = ivs::pack(1, 1, &[])?.store;
    /// assert!(ivs::Store::decode(&bytes)?.subtables().all(|subtable| subtable.unwrap().is_none()));
    /// # Ok::<(), ivs::Refused>(())
    /// ```
    pub fn subtables(&self) -> impl Iterator<Item = Result<Option<Subtable<'a>>, Refused>> + '_ {
        (0..self.offsets.len()).map(|outer| self.subtable(outer))
    }
}

impl<'a> Subtable<'a> {
    fn parse(bytes: &'a [u8], at: usize) -> Option<Subtable<'a>> {
        let (items, words, count) = (
            u16_at(bytes, at)?,
            u16_at(bytes, at + 2)?,
            u16_at(bytes, at + 4)?,
        );
        // OpenType: with the long bit columns take 4 bytes and 2, else 2 and 1.
        let (full, half) = if words & 0x8000 != 0 { (4, 2) } else { (2, 1) };
        let column = |number: usize| {
            Some(Column {
                region: u16_at(bytes, at + 6 + 2 * number)?,
                bytes: if number < words & 0x7FFF { full } else { half },
            })
        };
        let columns = (0..count).map(column).collect::<Option<Vec<Column>>>()?;
        let start = at + 6 + 2 * count;
        let row: usize = columns.iter().map(|column| column.bytes).sum();
        Some(Subtable {
            columns,
            items,
            rows: bytes.get(start..start + row * items)?,
        })
    }

    /// The bytes of a row.
    ///
    /// ```
    /// let mut job = ivs::JobWriter::new(1);
    /// let bold = job.region(&[(0, 0x4000, 0x4000)])?;
    /// job.set(&[(bold, 70_000)])?;
    /// let bytes = job.job().pack(ivs::Mode::Deduplicating)?.store;
    /// let subtable = ivs::Store::decode(&bytes)?.subtable(0)?.unwrap();
    /// assert_eq!(subtable.row_bytes(), 4);
    /// # Ok::<(), ivs::Error>(())
    /// ```
    pub fn row_bytes(&self) -> usize {
        self.columns.iter().map(|column| column.bytes).sum()
    }

    /// Row `inner`; none past the last.
    ///
    /// ```
    /// let mut job = ivs::JobWriter::new(1);
    /// let bold = job.region(&[(0, 0x4000, 0x4000)])?;
    /// job.set(&[(bold, -3)])?;
    /// let bytes = job.job().pack(ivs::Mode::Deduplicating)?.store;
    /// let subtable = ivs::Store::decode(&bytes)?.subtable(0)?.unwrap();
    /// let row = subtable.row(0).unwrap();
    /// assert_eq!((row.inner(), row.values().collect::<Vec<_>>()), (0, vec![(0, -3)]));
    /// # Ok::<(), ivs::Error>(())
    /// ```
    pub fn row(&self, inner: usize) -> Option<Row<'_>> {
        let bytes = self.row_bytes();
        (inner < self.items).then(|| Row {
            columns: &self.columns,
            inner,
            bytes: &self.rows[inner * bytes..(inner + 1) * bytes],
        })
    }

    /// Every row, from the first on.
    ///
    /// ```
    /// let ends = [[3, 0, 0, 0, 0, 0, 0, 0, 0, 0, 0, 0]; 2].concat();
    /// let packed = ivs::pack(1, 1, &ends)?;              // mode 1: a row a set
    /// let subtable = ivs::Store::decode(&packed.store)?.subtable(0)?.unwrap();
    /// assert_eq!(subtable.rows().map(|row| row.inner()).collect::<Vec<_>>(), [0, 1]);
    /// # Ok::<(), ivs::Refused>(())
    /// ```
    pub fn rows(&self) -> impl Iterator<Item = Row<'_>> {
        (0..self.items).filter_map(|inner| self.row(inner))
    }
}

impl<'s> Row<'s> {
    /// Its number in the subtable.
    ///
    /// ```
    /// let packed = ivs::pack(1, 1, &[3, 0, 0, 0, 0, 0, 0, 0, 0, 0, 0, 0])?;
    /// let subtable = ivs::Store::decode(&packed.store)?.subtable(0)?.unwrap();
    /// assert_eq!(subtable.rows().next().unwrap().inner(), 0);
    /// # Ok::<(), ivs::Refused>(())
    /// ```
    pub fn inner(&self) -> usize {
        self.inner
    }

    /// Region and value of each column. A region that is not named has the value zero.
    ///
    /// ```
    /// let mut job = ivs::JobWriter::new(1);
    /// let bold = job.region(&[(0, 0x4000, 0x4000)])?;
    /// let light = job.region(&[(-0x4000, -0x4000, 0)])?;
    /// job.set(&[(bold, -128), (light, 128)])?;           // the wider column stands first
    /// let bytes = job.job().pack(ivs::Mode::Deduplicating)?.store;
    /// let subtable = ivs::Store::decode(&bytes)?.subtable(0)?.unwrap();
    /// let row = subtable.row(0).unwrap();
    /// assert_eq!(row.values().collect::<Vec<_>>(), [(1, 128), (0, -128)]);
    /// # Ok::<(), ivs::Error>(())
    /// ```
    pub fn values(&self) -> impl Iterator<Item = (usize, i32)> + 's {
        let mut rest = self.bytes;
        self.columns.iter().map(move |column| {
            let (value, more) = rest.split_at(column.bytes);
            rest = more;
            (column.region, signed(value))
        })
    }
}

/// The signed number of 1 to 4 bytes.
fn signed(bytes: &[u8]) -> i32 {
    let sign = if bytes[0] & 0x80 != 0 { -1 } else { 0 };
    bytes
        .iter()
        .fold(sign, |number, &byte| number << 8 | i32::from(byte))
}

/// Has the proved reader look at the header, the regions and a subtable. That there is no such
/// row or region is nothing against a store.
fn judge(bytes: &[u8], outer: u32) -> Result<(), Refused> {
    match read(bytes, outer, 0, 0) {
        Err(refused) if refused.number == BAD_STORE.number => Err(refused),
        _ => Ok(()),
    }
}

fn u16_at(bytes: &[u8], at: usize) -> Option<usize> {
    let two = bytes.get(at..at + 2)?;
    Some(usize::from(u16::from_be_bytes([two[0], two[1]])))
}

fn u32_at(bytes: &[u8], at: usize) -> Option<usize> {
    Some(u16_at(bytes, at)? << 16 | u16_at(bytes, at + 2)?)
}
