//! Of `crate::tables::variations`, the tables of an item variation store, by
//! OpenType's names.

include!(concat!(env!("OUT_DIR"), "/source.rs"));

/// Start, peak and end on one axis, as they stand in the job.
#[derive(Clone, Debug, PartialEq, Eq, Hash, PartialOrd, Ord)]
pub struct RegionAxisCoordinates(pub [i16; 3]);

impl From<[i16; 3]> for RegionAxisCoordinates {
    fn from(coordinates: [i16; 3]) -> Self {
        RegionAxisCoordinates(coordinates)
    }
}

/// A region.
#[derive(Clone, Debug, PartialEq, Eq, Hash, PartialOrd, Ord)]
pub struct VariationRegion {
    /// The coordinates on each axis.
    pub region_axes: Vec<RegionAxisCoordinates>,
}

impl VariationRegion {
    /// A region.
    pub fn new(region_axes: Vec<RegionAxisCoordinates>) -> Self {
        VariationRegion { region_axes }
    }
}

/// The list of regions.
#[derive(Clone, Debug)]
pub struct VariationRegionList {
    /// The axis count.
    pub axis_count: u16,
    /// The regions.
    pub variation_regions: Vec<VariationRegion>,
}

impl VariationRegionList {
    /// A list.
    pub fn new(axis_count: u16, variation_regions: Vec<VariationRegion>) -> Self {
        VariationRegionList {
            axis_count,
            variation_regions,
        }
    }
}

/// A subtable.
#[derive(Clone, Debug)]
pub struct ItemVariationData {
    /// The number of rows.
    pub item_count: u16,
    /// The number of full words, and 0x8000 where they are of four bytes.
    pub word_delta_count: u16,
    /// The region of each column.
    pub region_indexes: Vec<u16>,
    /// The rows' bytes.
    pub delta_sets: Vec<u8>,
}

impl ItemVariationData {
    /// A subtable.
    pub fn new(
        item_count: u16,
        word_delta_count: u16,
        region_indexes: Vec<u16>,
        delta_sets: Vec<u8>,
    ) -> Self {
        ItemVariationData {
            item_count,
            word_delta_count,
            region_indexes,
            delta_sets,
        }
    }
}

/// A store.
#[derive(Clone, Debug)]
pub struct ItemVariationStore {
    /// The list of regions.
    pub variation_region_list: VariationRegionList,
    /// The subtables, null ones as none.
    pub item_variation_data: Vec<Option<ItemVariationData>>,
}

impl ItemVariationStore {
    /// A store.
    pub fn new(
        variation_region_list: VariationRegionList,
        item_variation_data: Vec<Option<ItemVariationData>>,
    ) -> Self {
        ItemVariationStore {
            variation_region_list,
            item_variation_data,
        }
    }
}
