//! Of `crate::tables::layout`, only the type of a remapped id.

/// Where an id's row stands.
#[derive(Clone, Debug, Default, PartialEq, Eq)]
pub struct VariationIndex {
    /// The subtable.
    pub delta_set_outer_index: u16,
    /// The row in it.
    pub delta_set_inner_index: u16,
}

impl VariationIndex {
    /// The row `inner` of subtable `outer`.
    pub fn new(outer: u16, inner: u16) -> Self {
        VariationIndex {
            delta_set_outer_index: outer,
            delta_set_inner_index: inner,
        }
    }
}
