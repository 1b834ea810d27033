//! The item variation stores of a font: in which table each stands, and its rows as a job.

use crate::big_endian::{u16_at, u32_at};
use crate::sfnt::Font;
use ivs::{JobError, JobWriter, Packed, Refused, Row, Store, Subtable};

/// What stands in place of a row's number for no variation.
const NO_ROW: u32 = 0xFFFF_FFFF;

/// The tables that may have a store, and where the ones that are packed anew name its rows.
pub const TABLES: [&[u8; 4]; 7] = [
    b"HVAR", b"VVAR", b"MVAR", b"GDEF", b"BASE", b"COLR", b"CFF2",
];

/// Why a store cannot be packed: by the library, or for another reason.
pub enum Unpacked {
    Refused(Refused),
    Other(String),
}

impl From<Refused> for Unpacked {
    fn from(refused: Refused) -> Unpacked {
        Unpacked::Refused(refused)
    }
}

impl From<JobError> for Unpacked {
    fn from(error: JobError) -> Unpacked {
        Unpacked::Other(error.to_string())
    }
}

/// The bytes from a table's store on; none where the table has no store.
pub fn of<'a>(font: &Font<'a>, tag: &[u8; 4]) -> Option<&'a [u8]> {
    let table = font.table(tag)?;
    let (major, minor) = (u16_at(table, 0)?, u16_at(table, 2)?);
    let at = match (tag, major, minor) {
        (b"HVAR" | b"VVAR", 1, _) => u32_at(table, 4)?,
        (b"MVAR", 1, _) => u16_at(table, 10)?,
        (b"GDEF", 1, 3..) => u32_at(table, 14)?,
        (b"BASE", 1, 1..) => u32_at(table, 8)?,
        (b"COLR", 1, _) => u32_at(table, 30)?,
        // A length of two bytes stands before it.
        (b"CFF2", ..) => vstore(table)? + 2,
        _ => return None,
    };
    (at != 0).then(|| table.get(at..)).flatten()
}

/// The offset of a CFF2 table's store: the operand before operator 24 of its top DICT.
fn vstore(table: &[u8]) -> Option<usize> {
    let start = usize::from(*table.get(2)?);
    let dict = table.get(start..start + u16_at(table, 3)?)?;
    let (mut at, mut operand) = (0, None);
    while let Some(&byte) = dict.get(at) {
        let more = |n: usize| dict.get(at + n).map(|&byte| usize::from(byte));
        let (long, number) = match byte {
            24 => return operand,
            12 => (2, None),
            0..=23 => (1, None),
            28 => (3, u16_at(dict, at + 1)),
            29 => (5, u32_at(dict, at + 1)),
            30 => {
                // A real number, to its last half byte.
                let ends = |byte: &u8| byte & 0x0F == 0x0F || byte >> 4 == 0x0F;
                (2 + dict[at + 1..].iter().position(ends)?, None)
            }
            32..=246 => (1, Some(usize::from(byte).saturating_sub(139))),
            247..=250 => (2, Some((usize::from(byte) - 247) * 256 + more(1)? + 108)),
            _ => (2, None),
        };
        operand = number;
        at += long;
    }
    None
}

/// How many bytes a store takes, from its head to the end of its last part.
pub fn extent(bytes: &[u8]) -> Option<usize> {
    let count = u16_at(bytes, 6)?;
    let list = u32_at(bytes, 2)?;
    let mut end = 8 + 4 * count;
    end = end.max(list + 4 + 6 * u16_at(bytes, list)? * u16_at(bytes, list + 2)?);
    for outer in 0..count {
        let at = u32_at(bytes, 8 + 4 * outer)?;
        if at == 0 {
            continue;
        }
        let (rows, words, columns) = (
            u16_at(bytes, at)?,
            u16_at(bytes, at + 2)?,
            u16_at(bytes, at + 4)?,
        );
        let row = (columns + (words & 0x7FFF)) * if words & 0x8000 != 0 { 2 } else { 1 };
        end = end.max(at + 6 + 2 * columns + rows * row);
    }
    Some(end)
}

/// A store's rows, to be packed anew.
pub struct Rows<'a> {
    store: Store<'a>,
    subtables: Vec<Option<Subtable<'a>>>,
}

impl<'a> Rows<'a> {
    pub fn of(bytes: &'a [u8]) -> Result<Rows<'a>, Refused> {
        let store = Store::decode(bytes)?;
        let subtables = store.subtables().collect::<Result<_, _>>()?;
        Ok(Rows { store, subtables })
    }

    /// The word of every row, in order.
    pub fn row_words(&self) -> Vec<u32> {
        let items = |subtable: &Option<Subtable<'_>>| subtable.as_ref().map_or(0, |s| s.items);
        let rows = |(outer, subtable)| (0..items(subtable)).map(move |inner| word(outer, inner));
        self.subtables.iter().enumerate().flat_map(rows).collect()
    }

    /// Whether a word names a row.
    pub fn has(&self, word: u32) -> bool {
        self.row(word).is_some()
    }

    fn row(&self, word: u32) -> Option<Row<'_>> {
        let subtable = self.subtables.get((word >> 16) as usize)?.as_ref()?;
        subtable.row((word & 0xFFFF) as usize)
    }

    /// Packs the rows of these words, a set each, in a mode.
    pub fn pack(&self, mode: u32, words: &[u32]) -> Result<Packed, Unpacked> {
        let mut job = JobWriter::new(self.store.axes);
        for region in &self.store.regions {
            job.region(region)?;
        }
        for &word in words {
            job.set(&self.set(word)?)?;
        }
        Ok(ivs::pack(self.store.axes as u32, mode, &job.finish())?)
    }

    /// The values of a row, by region; none where no row is meant.
    fn set(&self, word: u32) -> Result<Vec<(u16, i32)>, Unpacked> {
        if word == NO_ROW {
            return Ok(Vec::new());
        }
        let row = self.row(word).ok_or_else(|| {
            let (outer, inner) = (word >> 16, word & 0xFFFF);
            Unpacked::Other(format!(
                "it names row {inner} of subtable {outer}, which is not there"
            ))
        })?;
        // There are no more regions than a job can name, or the job was refused before.
        let values = row.values();
        Ok(values
            .map(|(region, value)| (region as u16, value))
            .collect())
    }
}

fn word(outer: usize, inner: usize) -> u32 {
    (outer << 16 | inner) as u32
}
