//! Merging of groups in mode 0.

use crate::groups::Group;

/// What merging leaves.
pub struct Outcome {
    /// The living groups.
    pub groups: Vec<Group>,
    /// Three words a merge (M5).
    pub log: Vec<u32>,
    /// How many pairs were weighed (M7).
    pub pairs: u64,
}

/// A pair of living groups that has been weighed; `first` is the smaller number.
struct Pair {
    first: usize,
    second: usize,
    gain: i64,
}

/// What two groups gain (W8).
fn gain(a: &Group, b: &Group) -> i64 {
    let sets = (a.sets.len() + b.sets.len()) as u64;
    let shape = a.shape.join(&b.shape);
    let joined = shape.overhead() + shape.row_cost() * sets;
    (a.cost() + b.cost()) as i64 - joined as i64
}

/// The pair that is joined next (M3).
fn best(pairs: &[Pair]) -> Option<(usize, usize, i64)> {
    pairs
        .iter()
        .filter(|p| p.gain > 0)
        .max_by_key(|p| (p.gain, -(p.first as i64), -(p.second as i64)))
        .map(|p| (p.first, p.second, p.gain))
}

/// Merges the groups, which are given in the order that numbers them from 0.
pub fn merge(start: Vec<Group>) -> Outcome {
    // By number; a dead group leaves its place empty.
    let mut groups: Vec<Option<Group>> = start.into_iter().map(Some).collect();
    let mut pairs: Vec<Pair> = Vec::new();
    let mut weighed = 0;
    let mut log = Vec::new();

    // Each pair is weighed (M2).
    for second in 0..groups.len() {
        weighed += weigh(&groups, second, &mut pairs);
    }
    while let Some((first, second, gain)) = best(&pairs) {
        // Both die, and what they become is weighed with the living (M4).
        let (Some(a), Some(b)) = (groups[first].take(), groups[second].take()) else {
            unreachable!("a waiting pair is of living groups");
        };
        pairs.retain(|p| {
            ![p.first, p.second]
                .iter()
                .any(|n| *n == first || *n == second)
        });
        let joined = a.join(&b);
        // M8: it never comes to the source's fold; this says so if it does.
        let fold = groups.iter().flatten().any(|g| g.shape == joined.shape);
        assert!(!fold, "a living group already has the joined shape");
        groups.push(Some(joined));
        weighed += weigh(&groups, groups.len() - 1, &mut pairs);
        log.extend([first as u32, second as u32, gain as u32]);
    }
    Outcome {
        groups: groups.into_iter().flatten().collect(),
        log,
        pairs: weighed,
    }
}

/// Weighs the group numbered `second` with each living group of smaller number.
fn weigh(groups: &[Option<Group>], second: usize, pairs: &mut Vec<Pair>) -> u64 {
    let mut weighed = 0;
    let Some(group) = &groups[second] else {
        return 0;
    };
    for (first, other) in groups[..second].iter().enumerate() {
        if let Some(other) = other {
            weighed += 1;
            pairs.push(Pair {
                first,
                second,
                gain: gain(other, group),
            });
        }
    }
    weighed
}
