//! The source, asked.
//!
//! `ivs_builder.rs` and `common_builder.rs` of write-fonts 0.53.0 are compiled
//! unchanged from where they stand (`build.rs`), over stand-ins of the few types
//! they lean on ([`tables`]), with the real `indexmap` and `log`. [`build`] hands
//! regions and sets to the source's builder and gives back what it made;
//! [`Store::bytes`] places that as docs/RULES.md says (B4). [`vectors`] writes and reads
//! recorded answers, for where the source is not; [`glyphs`] and [`maps`] do the same for
//! its glyph maps.
//!
//! The source tells what it merges by `log::trace!`; [`build_traced`] listens, and
//! [`build_timed`] and [`build_whole`] take times.

mod fields;
pub mod glyphs;
pub mod maps;
mod placing;
pub mod tables;
mod trace;
pub mod vectors;

pub use trace::Trace;

use std::time::Duration;

use jobs::Region;
#[cfg(source)]
use tables::variations::ivs_builder::VariationStoreBuilder;
use tables::variations::{ItemVariationStore, RegionAxisCoordinates, VariationRegion};

/// The source was there when this was compiled.
pub const PRESENT: bool = cfg!(source);

/// The pieces of a store, as the source made them.
pub type Store = ItemVariationStore;

/// What the source answers to a job.
#[derive(Clone, Debug)]
pub struct Built {
    /// The store's pieces.
    pub store: Store,
    /// The id that each `add_deltas` gave.
    pub ids: Vec<u32>,
    /// For each id, outer x 65,536 + inner.
    pub map: Vec<u32>,
}

/// A set: (number of a region, value).
pub type Set = Vec<(u16, i32)>;

/// Builds with the source: mode 0 deduplicating, any other implicit indices. A
/// set must name only regions that there are. None without the source.
///
/// # Panics
/// Where the source does: in mode 1 above 65,535 sets.
pub fn build(axes: u16, mode: u32, regions: &[Region], sets: &[Set]) -> Option<Built> {
    let untimed = || Duration::ZERO;
    ask(axes, mode, given(regions, sets), untimed).map(|(built, _)| built)
}

/// [`build`], with what the source tells of its merging.
pub fn build_traced(
    axes: u16,
    mode: u32,
    regions: &[Region],
    sets: &[Set],
) -> Option<(Built, Trace)> {
    let (built, trace) = trace::listen(|| build(axes, mode, regions, sets));
    built.map(|built| (built, trace))
}

/// How long the source took.
#[derive(Clone, Copy, Debug)]
pub struct Times {
    /// Its whole `build`, with nobody listening. (Adding the sets is not in it.)
    pub build: Duration,
    /// Its merging alone (`Encoder::optimize`), in a build of its own.
    pub optimize: Duration,
}

/// Builds twice with the source, in mode 0, and takes the times by `now`. Not for
/// where another thread listens.
pub fn build_timed(
    axes: u16,
    regions: &[Region],
    sets: &[Set],
    now: fn() -> Duration,
) -> Option<Times> {
    let sets_given = given(regions, sets);
    let (_, spent) = trace::quietly(|| ask(axes, 0, sets_given, now))?;
    let sets_given = given(regions, sets);
    let (_, optimize) = trace::time(now, || ask(axes, 0, sets_given, now));
    optimize.map(|optimize| Times {
        build: spent.build,
        optimize,
    })
}

/// Builds once with the source, with nobody listening, and takes the time by `now` from
/// its empty builder on: every set added, and the store and the map built. The sets are
/// there in the source's own types before. Not for where another thread listens.
pub fn build_whole(
    axes: u16,
    mode: u32,
    regions: &[Region],
    sets: &[Set],
    now: fn() -> Duration,
) -> Option<Duration> {
    let sets_given = given(regions, sets);
    trace::quietly(|| ask(axes, mode, sets_given, now)).map(|(_, spent)| spent.whole)
}

fn region(region: &Region) -> VariationRegion {
    let axis = |c: &[i16; 3]| RegionAxisCoordinates::from(*c);
    VariationRegion::new(region.iter().map(axis).collect())
}

/// A set in the source's own types.
type Given = Vec<(VariationRegion, i32)>;

fn given(regions: &[Region], sets: &[Set]) -> Vec<Given> {
    let regions: Vec<VariationRegion> = regions.iter().map(region).collect();
    let value = |v: &(u16, i32)| (regions[v.0 as usize].clone(), v.1);
    sets.iter()
        .map(|set| set.iter().map(value).collect())
        .collect()
}

/// How long the source took by a clock: all of it, and its `build` alone.
#[derive(Clone, Copy)]
struct Spent {
    whole: Duration,
    build: Duration,
}

/// What the source answers, and how long it took by `now`.
#[cfg(source)]
fn ask(axes: u16, mode: u32, sets: Vec<Given>, now: fn() -> Duration) -> Option<(Built, Spent)> {
    let began = now();
    let mut builder = if mode == 0 {
        VariationStoreBuilder::new(axes)
    } else {
        VariationStoreBuilder::new_with_implicit_indices(axes)
    };
    let ids: Vec<u32> = sets
        .into_iter()
        .map(|set| builder.add_deltas(set))
        .collect();
    let added = now();
    let (store, remapping) = builder.build();
    let built = now();
    let spent = Spent {
        whole: built - began,
        build: built - added,
    };
    let last = ids.iter().max().map_or(0, |&id| id + 1);
    let word = |id: u32| {
        let index = remapping.get(id).expect("the source maps every id");
        65_536 * u32::from(index.delta_set_outer_index) + u32::from(index.delta_set_inner_index)
    };
    let built = Built {
        store,
        map: (0..last).map(word).collect(),
        ids,
    };
    Some((built, spent))
}

#[cfg(not(source))]
fn ask(_: u16, _: u32, _: Vec<Given>, _: fn() -> Duration) -> Option<(Built, Spent)> {
    None
}

/// The length and digest of each file of the source, a line each; none without it.
pub fn source_digests() -> Vec<String> {
    #[cfg(source)]
    let files: [(&str, &[u8]); 2] = [
        ("ivs_builder.rs", tables::variations::IVS_BUILDER),
        ("common_builder.rs", tables::variations::COMMON_BUILDER),
    ];
    #[cfg(not(source))]
    let files: [(&str, &[u8]); 0] = [];
    let digest = |(name, text): &(&str, &[u8])| digest_line(name, text);
    files.iter().map(digest).collect()
}

/// The length and digest of a text of the source.
pub(crate) fn digest_line(name: &str, text: &[u8]) -> String {
    let digest = jobs::hex::digest(text);
    format!("{name}: {} bytes, FNV-1a {digest:016x}", text.len())
}
