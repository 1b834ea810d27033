//! Groups of sets: by shape at first, and as they are written at last.

use crate::sets::{dense, Set};
use crate::widths::Shape;

/// A shape, the sets (by id) that are laid into it, and the numbers of the starting groups
/// that went into it.
#[derive(Clone, Debug)]
pub struct Group {
    pub shape: Shape,
    pub sets: Vec<usize>,
    pub origins: Vec<u32>,
}

impl Group {
    /// What the group costs (W6).
    pub fn cost(&self) -> u64 {
        self.shape.overhead() + self.shape.row_cost() * self.sets.len() as u64
    }

    /// The group of both groups' sets.
    pub fn join(&self, other: &Group) -> Group {
        Group {
            shape: self.shape.join(&other.shape),
            sets: [&self.sets[..], &other.sets[..]].concat(),
            origins: [&self.origins[..], &other.origins[..]].concat(),
        }
    }
}

/// The starting groups in their order (M1).
pub fn by_shape(sets: &[Set], regions: usize) -> Vec<Group> {
    let mut groups: Vec<Group> = Vec::new();
    for (id, set) in sets.iter().enumerate() {
        let shape = Shape::of(&dense(set, regions));
        // The groups are kept in their order, so that a shape's group, if there
        // is one, is the last that does not come after the shape.
        let after = groups.partition_point(|g| g.shape.order(&shape).is_le());
        match after.checked_sub(1).map(|last| &mut groups[last]) {
            Some(group) if group.shape == shape => group.sets.push(id),
            _ => groups.insert(
                after,
                Group {
                    shape,
                    sets: vec![id],
                    origins: Vec::new(),
                },
            ),
        }
    }
    for (number, group) in groups.iter_mut().enumerate() {
        group.origins.push(number as u32);
    }
    groups
}

/// The one group of all sets, their shapes joined (F5); none without sets.
pub fn of_all(sets: &[Set], regions: usize) -> Option<Group> {
    let shapes = sets.iter().map(|set| Shape::of(&dense(set, regions)));
    shapes.reduce(|a, b| a.join(&b)).map(|shape| Group {
        shape,
        sets: (0..sets.len()).collect(),
        origins: Vec::new(),
    })
}

/// The rows of each group in their order (F1), and the groups in theirs (F2).
pub fn final_order(mut groups: Vec<Group>, sets: &[Set], regions: usize) -> Vec<Group> {
    for group in &mut groups {
        group
            .sets
            .sort_by_cached_key(|&id| dense(&sets[id], regions));
    }
    groups.sort_by(|a, b| a.shape.order(&b.shape));
    groups
}

/// Two words a starting group, in starting order: its number, and the place of the final
/// group that it went into (F6).
pub fn origins(groups: &[Group]) -> Vec<u32> {
    let mut places: Vec<[u32; 2]> = Vec::new();
    for (place, group) in groups.iter().enumerate() {
        places.extend(group.origins.iter().map(|&number| [number, place as u32]));
    }
    places.sort_unstable();
    places.concat()
}
