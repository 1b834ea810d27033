//! The job of a seed.
//!
//! The seed's remainder by the number of recipes chooses a recipe; [`Rng`] of the
//! seed makes every choice within it. A recorded answer names its job by seed, so
//! a change here asks for the answers to be recorded again (the recorded digest of
//! the job's bytes tells).

use crate::{Job, Region, Rng};

/// Kinds of values.
#[derive(Clone, Copy, Debug)]
enum Value {
    /// 0.
    Zero,
    /// -2 to 2, so that sets are often equal.
    Tiny,
    /// One byte, not 0.
    One,
    /// Two bytes and not one.
    Two,
    /// Four bytes and not two.
    Four,
    /// Next to where the width changes.
    Edge,
}

/// Next to where the width changes, and the ends of 32 bits.
const EDGES: [i32; 17] = [
    i32::MIN,
    -70_000,
    -32_769,
    -32_768,
    -32_767,
    -129,
    -128,
    -127,
    -1,
    0,
    1,
    127,
    128,
    32_767,
    32_768,
    70_000,
    i32::MAX,
];

/// What the jobs of a recipe are like. A pair is least and most.
struct Recipe {
    name: &'static str,
    axes: (usize, usize),
    regions: (usize, usize),
    /// One region in this many has another's coordinates; 0: none has.
    twins: usize,
    sets: (usize, usize),
    /// The sets follow this many patterns; 0: each has its own.
    patterns: usize,
    /// A pattern names one region in this many.
    spread: usize,
    /// A pattern has one of these for each region it names.
    values: &'static [Value],
    /// One set in this many says an earlier one again, in another order; 0: none.
    again: usize,
}

use Value::{Edge, Four, One, Tiny, Two, Zero};

#[rustfmt::skip]
const RECIPES: [Recipe; 14] = [
    Recipe { name: "tiny", axes: (1, 2), regions: (0, 3), twins: 4, sets: (0, 6), patterns: 0, spread: 2, values: &[Zero, Tiny, One, Two, Four], again: 4 },
    Recipe { name: "width edges", axes: (1, 3), regions: (1, 4), twins: 0, sets: (1, 12), patterns: 0, spread: 2, values: &[Edge], again: 8 },
    Recipe { name: "few shapes", axes: (1, 2), regions: (2, 8), twins: 0, sets: (20, 120), patterns: 4, spread: 2, values: &[One, Two], again: 10 },
    Recipe { name: "many shapes", axes: (1, 2), regions: (3, 7), twins: 0, sets: (20, 60), patterns: 0, spread: 2, values: &[One, Two, Four], again: 0 },
    Recipe { name: "more shapes", axes: (1, 1), regions: (5, 9), twins: 0, sets: (80, 160), patterns: 0, spread: 2, values: &[One, Two, Four], again: 0 },
    Recipe { name: "hundreds of sets", axes: (1, 2), regions: (4, 10), twins: 5, sets: (200, 600), patterns: 12, spread: 2, values: &[Zero, One, Two], again: 3 },
    Recipe { name: "sets repeated", axes: (1, 2), regions: (1, 4), twins: 0, sets: (10, 60), patterns: 3, spread: 2, values: &[Zero, Tiny], again: 2 },
    Recipe { name: "equal regions", axes: (1, 4), regions: (4, 12), twins: 2, sets: (4, 30), patterns: 0, spread: 3, values: &[Zero, Tiny, One, Two], again: 6 },
    Recipe { name: "ties", axes: (1, 1), regions: (4, 12), twins: 0, sets: (10, 50), patterns: 0, spread: 4, values: &[Tiny], again: 0 },
    Recipe { name: "gains near 0", axes: (1, 1), regions: (2, 4), twins: 0, sets: (8, 60), patterns: 5, spread: 2, values: &[One], again: 0 },
    Recipe { name: "bytes beside longs", axes: (1, 1), regions: (2, 8), twins: 0, sets: (4, 40), patterns: 3, spread: 1, values: &[Zero, One, Two, Four], again: 5 },
    Recipe { name: "zeros", axes: (1, 2), regions: (1, 6), twins: 3, sets: (1, 20), patterns: 0, spread: 2, values: &[Zero, Zero, Zero, One], again: 4 },
    Recipe { name: "many regions", axes: (1, 6), regions: (40, 256), twins: 9, sets: (4, 24), patterns: 6, spread: 12, values: &[Zero, Tiny, One, Two, Four], again: 6 },
    Recipe { name: "many axes", axes: (32, 64), regions: (1, 4), twins: 3, sets: (1, 10), patterns: 0, spread: 2, values: &[Tiny, Edge], again: 4 },
];

/// Of hundreds of shapes, up to 1,024 (R10).
#[rustfmt::skip]
const LARGE: [Recipe; 4] = [
    Recipe { name: "large, half", axes: (1, 1), regions: (10, 24), twins: 0, sets: (200, 700), patterns: 0, spread: 2, values: &[One, Two, Four], again: 0 },
    Recipe { name: "large, sets of a pattern", axes: (1, 2), regions: (16, 64), twins: 20, sets: (1_000, 4_000), patterns: 300, spread: 4, values: &[Zero, One, Two], again: 5 },
    Recipe { name: "large, ties", axes: (1, 1), regions: (10, 40), twins: 0, sets: (300, 600), patterns: 0, spread: 6, values: &[One], again: 0 },
    Recipe { name: "large, dense", axes: (1, 1), regions: (30, 60), twins: 0, sets: (200, 1_024), patterns: 0, spread: 1, values: &[One, Two], again: 0 },
];

/// Of regions whose numbers take both bytes (J1).
#[rustfmt::skip]
const WIDE: [Recipe; 3] = [
    Recipe { name: "wide, around 256", axes: (1, 2), regions: (250, 262), twins: 30, sets: (2, 12), patterns: 3, spread: 8, values: &[Zero, One, Two, Four], again: 4 },
    Recipe { name: "wide, hundreds", axes: (1, 3), regions: (257, 900), twins: 20, sets: (2, 20), patterns: 5, spread: 20, values: &[Zero, Tiny, One, Two], again: 4 },
    Recipe { name: "wide, thousands", axes: (1, 1), regions: (1_000, 3_000), twins: 0, sets: (4, 16), patterns: 4, spread: 60, values: &[One, Two, Four], again: 5 },
];

/// The name of the recipe that makes the job of `seed`.
pub fn recipe(seed: u64) -> &'static str {
    one_of(&RECIPES, seed).name
}

/// The job of `seed`.
pub fn job(seed: u64) -> Job {
    follow(one_of(&RECIPES, seed), seed)
}

/// The name of the recipe that makes the large job of `seed`.
pub fn large_recipe(seed: u64) -> &'static str {
    one_of(&LARGE, seed).name
}

/// The large job of `seed`.
pub fn large(seed: u64) -> Job {
    follow(one_of(&LARGE, seed), seed)
}

/// The name of the recipe that makes the wide job of `seed`.
pub fn wide_recipe(seed: u64) -> &'static str {
    one_of(&WIDE, seed).name
}

/// The wide job of `seed`.
pub fn wide(seed: u64) -> Job {
    follow(one_of(&WIDE, seed), seed)
}

fn one_of(recipes: &[Recipe], seed: u64) -> &Recipe {
    &recipes[(seed % recipes.len() as u64) as usize]
}

fn follow(recipe: &Recipe, seed: u64) -> Job {
    let rng = &mut Rng::new(seed);
    let axes = rng.between(recipe.axes.0, recipe.axes.1);
    let regions = regions(rng, recipe, axes);
    let sets = sets(rng, recipe, &regions);
    Job {
        axes,
        regions,
        sets,
    }
}

fn regions(rng: &mut Rng, recipe: &Recipe, axes: usize) -> Vec<Region> {
    let count = rng.between(recipe.regions.0, recipe.regions.1);
    let mut regions: Vec<Region> = Vec::new();
    for _ in 0..count {
        let twin = !regions.is_empty() && recipe.twins > 0 && rng.one_in(recipe.twins);
        let region = if twin {
            regions[rng.below(regions.len())].clone()
        } else {
            (0..axes).map(|_| coordinates(rng)).collect()
        };
        regions.push(region);
    }
    regions
}

/// Often a real tent, sometimes anything (J5).
fn coordinates(rng: &mut Rng) -> [i16; 3] {
    match rng.below(4) {
        0 => [0, 0x4000, 0x4000],
        1 => [-0x4000, -0x4000, 0],
        2 => {
            let peak = rng.between(1, 0x4000) as i16;
            [0, peak, 0x4000]
        }
        _ => std::array::from_fn(|_| rng.bits() as i16),
    }
}

/// The regions that a set names, and the kind of each value.
type Pattern = Vec<(u16, Value)>;

fn pattern(rng: &mut Rng, recipe: &Recipe, regions: &[Region]) -> Pattern {
    let mut pattern = Pattern::new();
    for (number, region) in regions.iter().enumerate() {
        let named = pattern
            .iter()
            .any(|p: &(u16, Value)| regions[p.0 as usize] == *region);
        if !named && rng.one_in(recipe.spread) {
            pattern.push((number as u16, rng.pick(recipe.values)));
        }
    }
    rng.shuffle(&mut pattern);
    pattern
}

fn sets(rng: &mut Rng, recipe: &Recipe, regions: &[Region]) -> Vec<Vec<(u16, i32)>> {
    let count = rng.between(recipe.sets.0, recipe.sets.1);
    let patterns: Vec<Pattern> = (0..recipe.patterns)
        .map(|_| pattern(rng, recipe, regions))
        .collect();
    let mut sets: Vec<Vec<(u16, i32)>> = Vec::new();
    for _ in 0..count {
        let mut set: Vec<(u16, i32)>;
        if !sets.is_empty() && recipe.again > 0 && rng.one_in(recipe.again) {
            set = sets[rng.below(sets.len())].clone();
            rng.shuffle(&mut set);
        } else {
            let own;
            let pattern = if patterns.is_empty() {
                own = pattern(rng, recipe, regions);
                &own
            } else {
                &patterns[rng.below(patterns.len())]
            };
            set = pattern.iter().map(|p| (p.0, value(rng, p.1))).collect();
        }
        sets.push(set);
    }
    sets
}

fn value(rng: &mut Rng, kind: Value) -> i32 {
    let sign = if rng.one_in(2) { -1 } else { 1 };
    match kind {
        Zero => 0,
        Tiny => rng.between(0, 2) as i32 * sign,
        One => rng.between(1, 127) as i32 * sign,
        Two => rng.between(129, 32_767) as i32 * sign,
        Four => rng.between(32_769, 0x7FFF_FFFF) as i32 * sign,
        Edge => rng.pick(&EDGES),
    }
}

#[cfg(test)]
mod tests {
    use super::*;

    #[test]
    fn jobs_are_sound_and_always_the_same() {
        let mut digest = 0;
        for seed in 0..600 {
            let job = job(seed);
            let bytes = job.to_bytes();
            assert_eq!(Job::parse(job.axes, &bytes).as_ref(), Some(&job), "{seed}");
            digest ^= crate::hex::digest(&bytes);
        }
        assert_eq!(digest, FIRST_600, "the jobs changed: record answers again");
    }

    const FIRST_600: u64 = 16_539_239_914_555_236_486;
}
