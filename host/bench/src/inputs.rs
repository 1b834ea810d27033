//! What is merged: sets of a seed, as the source takes them and as groups.

use std::cmp::Ordering;
use std::collections::HashSet;

use jobs::{Job, Rng};

use crate::library::Group;

/// A kind of input, by what its shapes are like.
#[derive(Clone, Copy, Debug)]
pub enum Kind {
    /// Half of the regions, one to three sets: some pairs gain.
    Half,
    /// Nearly all regions, one set: nearly every pair gains, and nearly all merge.
    Dense,
    /// Few regions, twenty sets: hardly a pair gains.
    Sparse,
}

/// An input: a job for the source, and the groups that its sets make.
pub struct Input {
    /// The regions and the sets.
    pub job: Job,
    /// The groups, in the order in which their first sets stand in the job.
    pub groups: Vec<Group>,
    /// The groups' numbers: number i is group `order[i]`.
    pub order: Vec<usize>,
}

impl Kind {
    /// Its name in the table.
    pub fn name(self) -> &'static str {
        match self {
            Kind::Half => "half",
            Kind::Dense => "dense",
            Kind::Sparse => "sparse",
        }
    }

    /// A width for a region.
    fn width(self, rng: &mut Rng, regions: usize) -> u32 {
        let some = match self {
            Kind::Half => rng.one_in(2),
            Kind::Dense => !rng.one_in(16),
            Kind::Sparse => rng.below(regions) < 6,
        };
        match rng.below(16) {
            _ if !some => 0,
            0 => 4,
            1..=3 => 2,
            _ => 1,
        }
    }

    /// A number of sets.
    fn sets(self, rng: &mut Rng) -> u32 {
        match self {
            Kind::Half => rng.between(1, 3) as u32,
            Kind::Dense => 1,
            Kind::Sparse => 20,
        }
    }
}

/// The input of a seed: so many different shapes over so many regions.
pub fn input(kind: Kind, shapes: usize, regions: usize, seed: u64) -> Input {
    let mut rng = Rng::new(seed);
    let mut groups: Vec<Group> = Vec::new();
    let mut seen = HashSet::new();
    let mut rows = HashSet::new();
    let mut job = Job::one_axis(regions);
    while groups.len() < shapes {
        let shape: Vec<u32> = (0..regions)
            .map(|_| kind.width(&mut rng, regions))
            .collect();
        if shape.iter().all(|&w| w == 0) || !seen.insert(shape.clone()) {
            continue;
        }
        let sets = kind.sets(&mut rng);
        // Sets that are equal are one to the source.
        for _ in 0..sets {
            let mut row = row(&mut rng, &shape);
            while !rows.insert(row.clone()) {
                row = self::row(&mut rng, &shape);
            }
            job.sets.push(row);
        }
        groups.push(Group { shape, sets });
    }
    as_the_source_numbers(&job, &mut groups);
    let mut order: Vec<usize> = (0..shapes).collect();
    order.sort_by(|&a, &b| by_the_rule(&groups[a].shape, &groups[b].shape));
    Input { job, groups, order }
}

/// A set of that shape. (No -128 and no -32,768: they are narrower than 128 and
/// 32,768.)
pub fn row(rng: &mut Rng, shape: &[u32]) -> Vec<(u16, i32)> {
    let mut row = Vec::new();
    for (r, &width) in shape.iter().enumerate() {
        let size = match width {
            0 => continue,
            1 => rng.between(1, 127),
            2 => rng.between(129, 32_767),
            _ => rng.between(32_769, 1 << 30),
        };
        let value = size as i32;
        row.push((r as u16, if rng.one_in(2) { -value } else { value }));
    }
    row
}

/// The source numbers regions as it first meets them, and its shapes have no
/// place for a region that it never meets: the shapes' places are put that way.
fn as_the_source_numbers(job: &Job, groups: &mut [Group]) {
    let mut met = Vec::new();
    let mut seen = HashSet::new();
    for &(region, _) in job.sets.iter().flatten() {
        if seen.insert(region) {
            met.push(usize::from(region));
        }
    }
    for group in groups {
        group.shape = met.iter().map(|&r| group.shape[r]).collect();
    }
}

/// By row cost, then by width from the last region down to the first.
fn by_the_rule(a: &[u32], b: &[u32]) -> Ordering {
    let cost = |s: &[u32]| s.iter().sum::<u32>();
    cost(a)
        .cmp(&cost(b))
        .then_with(|| a.iter().rev().cmp(b.iter().rev()))
}
