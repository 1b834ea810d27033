//! The bytes of the source's pieces, placed as B1 to B5 say.

use crate::tables::variations::{ItemVariationData, ItemVariationStore, VariationRegionList};

impl ItemVariationStore {
    /// The store's bytes: header, subtable offsets, region list, subtables in
    /// order; no gaps, no sharing.
    pub fn bytes(&self) -> Vec<u8> {
        let subtables = &self.item_variation_data;
        let list = self.variation_region_list.bytes();
        let header = 8 + 4 * subtables.len();
        let mut bytes = Vec::new();
        bytes.extend(1u16.to_be_bytes());
        bytes.extend((header as u32).to_be_bytes());
        bytes.extend((subtables.len() as u16).to_be_bytes());
        let mut next = header + list.len();
        for subtable in subtables {
            let length = subtable.as_ref().map(ItemVariationData::length);
            let offset = length.map_or(0, |_| next as u32);
            bytes.extend(offset.to_be_bytes());
            next += length.unwrap_or(0);
        }
        bytes.extend(list);
        for subtable in subtables.iter().flatten() {
            subtable.write(&mut bytes);
        }
        bytes
    }
}

impl VariationRegionList {
    fn bytes(&self) -> Vec<u8> {
        let mut bytes = Vec::new();
        bytes.extend(self.axis_count.to_be_bytes());
        bytes.extend((self.variation_regions.len() as u16).to_be_bytes());
        for axis in self.variation_regions.iter().flat_map(|r| &r.region_axes) {
            bytes.extend(axis.0.iter().flat_map(|c| c.to_be_bytes()));
        }
        bytes
    }
}

impl ItemVariationData {
    fn length(&self) -> usize {
        6 + 2 * self.region_indexes.len() + self.delta_sets.len()
    }

    fn write(&self, bytes: &mut Vec<u8>) {
        bytes.extend(self.item_count.to_be_bytes());
        bytes.extend(self.word_delta_count.to_be_bytes());
        bytes.extend((self.region_indexes.len() as u16).to_be_bytes());
        bytes.extend(self.region_indexes.iter().flat_map(|i| i.to_be_bytes()));
        bytes.extend(&self.delta_sets);
    }
}
