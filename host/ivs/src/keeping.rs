//! A store with only the rows that are still used.

use crate::raw;
use crate::refusals::Refused;
use crate::Store;

/// A store of the rows that were kept, and where they are in it. [`keep`] has the example.
///
/// ```
/// let store = ivs::pack(1, 1, &[])?.store;
/// let kept = ivs::keep(&store, &[])?;                // no rows at all: no subtable is left
/// assert_eq!((kept.done.subtables, kept.places.len()), (0, 0));
/// # Ok::<(), ivs::Refused>(())
/// ```
#[derive(Clone, Debug, PartialEq, Eq)]
pub struct Kept {
    /// The store's bytes.
    pub store: Vec<u8>,
    /// For each entry of the list its row's new place, outer x 65,536 + inner.
    pub places: Vec<u32>,
    /// How much of everything it has.
    pub done: KeptInto,
}

/// What [`keep_into`] wrote.
///
/// ```
/// let store = ivs::pack(1, 1, &[])?.store;
/// let mut work = vec![0; ivs::keep_words(store.len(), 0)];
/// let done = ivs::keep_into(&store, &[], &mut work, &mut [0; 12], &mut [])?;
/// assert_eq!((done.bytes, done.subtables, done.regions_kept, done.rows_kept), (12, 0, 0, 0));
/// # Ok::<(), ivs::Refused>(())
/// ```
#[derive(Clone, Copy, Debug, Default, PartialEq, Eq)]
pub struct KeptInto {
    /// Bytes of the store.
    pub bytes: u64,
    /// Subtables in it.
    pub subtables: u64,
    /// Regions in its list.
    pub regions_kept: u64,
    /// Rows in it, each once however often the list has it.
    pub rows_kept: u64,
}

/// The store with only the rows of a list, outer x 65,536 + inner each, repeats allowed. Rows
/// and subtables keep their order, columns stay as they are; a subtable without rows goes, and
/// so does a region that no subtable names. Each kept row reads the same, by the regions'
/// coordinates; with all rows of the result it is done again without a change.
///
/// Refused by 20 where the store is malformed anywhere, by 21 where an entry names no row, by 74
/// where the new store would be longer than 4,294,967,295 bytes.
///
/// ```
/// let mut job = ivs::JobWriter::new(1);
/// let bold = job.region(&[(0, 0x4000, 0x4000)])?;
/// let light = job.region(&[(-0x4000, -0x4000, 0)])?;
/// job.set(&[(bold, 10), (light, 1)])?;
/// job.set(&[(bold, -3), (light, 2)])?;
/// let packed = job.job().pack(ivs::Mode::Implicit)?;
///
/// let kept = ivs::keep(&packed.store, &[1, 1])?;     // row 1 of subtable 0, named twice
/// assert_eq!((&kept.places[..], kept.done.rows_kept), (&[0, 0][..], 1));
/// assert_eq!(ivs::read(&kept.store, 0, 0, 0)?, ivs::Reading::Written(-3));
///
/// let refused = ivs::keep(&packed.store, &[2]).unwrap_err();
/// assert_eq!(refused.refusal(), Some(ivs::Refusal::NoRow));
/// # Ok::<(), ivs::Error>(())
/// ```
pub fn keep(store: &[u8], rows: &[u32]) -> Result<Kept, Refused> {
    let mut work = vec![0; keep_words(store.len(), rows.len())];
    let mut out = vec![0; room(store, rows).unwrap_or_default()];
    let mut places = vec![0; rows.len()];
    let done = keep_into(store, rows, &mut work, &mut out, &mut places)?;
    out.truncate(done.bytes as usize);
    Ok(Kept {
        store: out,
        places,
        done,
    })
}

/// [`keep`] in lent memory: work as [`keep_words`] says, and left as zeros; out for the store;
/// places, a word for each entry. What is not written is left as it was. Refused by 73 where
/// the places are too few, by 74 where out is short.
///
/// ```
/// let store = ivs::pack(1, 1, &[3, 0, 0, 0, 0, 0, 0, 0, 0, 0, 0, 0])?.store; // a row of no bytes
/// let mut work = vec![7; ivs::keep_words(store.len(), 1)];
/// let (mut out, mut places) = ([0; 40], [9; 2]);
/// let done = ivs::keep_into(&store, &[0], &mut work, &mut out, &mut places)?;
/// assert_eq!((&out[..done.bytes as usize], places), (&store[..], [0, 9]));
/// let refused = ivs::keep_into(&store, &[0], &mut work, &mut out, &mut []).unwrap_err();
/// assert_eq!(refused.refusal(), Some(ivs::Refusal::PlacesShort));
/// let refused = ivs::keep_into(&store, &[0], &mut work, &mut [], &mut places).unwrap_err();
/// assert_eq!(refused.refusal(), Some(ivs::Refusal::KeptShort));
/// # Ok::<(), ivs::Refused>(())
/// ```
pub fn keep_into(
    store: &[u8],
    rows: &[u32],
    work: &mut [u32],
    out: &mut [u8],
    places: &mut [u32],
) -> Result<KeptInto, Refused> {
    let mut report = [0; 16];
    if keep_report(store, rows, work, out, places, &mut report) != 0 {
        let words = keep_words(store.len(), rows.len());
        return Err(Refused::of(&report).short_of_words(words));
    }
    Ok(KeptInto {
        bytes: report[2],
        subtables: report[3],
        regions_kept: report[4],
        rows_kept: report[5],
    })
}

/// [`keep_into`], with the report as the library fills it (include/ivs.h). The answer is the
/// refusal number, 0 for done.
///
/// ```
/// let mut report = [9; 16];
/// let mut work = vec![0; ivs::keep_words(0, 0)];
/// assert_eq!(ivs::keep_report(&[], &[], &mut work, &mut [], &mut [], &mut report), 20);
/// assert_eq!((report[0], report[15]), (20, 0));
/// ```
pub fn keep_report(
    store: &[u8],
    rows: &[u32],
    work: &mut [u32],
    out: &mut [u8],
    places: &mut [u32],
    report: &mut [u64; 16],
) -> u32 {
    raw::keep(store, rows, work, out, places, report)
}

/// The words of work that keeping so many rows of a store of so many bytes needs.
///
/// ```
/// assert!(ivs::keep_words(1_000, 10) <= 4 * 10 + 4 * 1_000 + 65_536);
/// ```
pub fn keep_words(bytes: usize, rows: usize) -> usize {
    raw::keep_words(bytes, rows)
}

/// Bytes that do for the rows of a list: the regions' list as it is, and of each subtable that
/// is named its head and its rows, each once. None where there is no such row or no store.
fn room(bytes: &[u8], rows: &[u32]) -> Option<usize> {
    let store = Store::decode(bytes).ok()?;
    let mut rows = rows.to_vec();
    rows.sort_unstable();
    rows.dedup();
    let mut room = 12 + 6 * store.axes * store.regions.len();
    let mut rest = &rows[..];
    while let Some(&first) = rest.first() {
        let outer = first >> 16;
        let (some, others) = rest.split_at(rest.partition_point(|row| row >> 16 == outer));
        let subtable = store.subtable(outer as usize).ok()??;
        room += 4 + 6 + 2 * subtable.columns.len() + some.len() * subtable.row_bytes();
        rest = others;
    }
    Some(room)
}
