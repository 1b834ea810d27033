//! Widths of values, and shapes.

use std::cmp::Ordering;

/// A width; the order of the cases is that of the widths (W2).
#[derive(Clone, Copy, Debug, PartialEq, Eq, PartialOrd, Ord)]
pub enum Width {
    None,
    One,
    Two,
    Four,
}

impl Width {
    /// The width of a value (W1).
    pub fn of(value: i32) -> Width {
        match value {
            0 => Width::None,
            -128..=127 => Width::One,
            -32_768..=32_767 => Width::Two,
            _ => Width::Four,
        }
    }

    /// What a width costs (W2).
    pub fn cost(self) -> u64 {
        match self {
            Width::None => 0,
            Width::One => 1,
            Width::Two => 2,
            Width::Four => 4,
        }
    }
}

/// A width for each region in use (W3).
#[derive(Clone, Debug, PartialEq, Eq)]
pub struct Shape(pub Vec<Width>);

impl Shape {
    /// The shape of a set given as dense values.
    pub fn of(values: &[i32]) -> Shape {
        Shape(values.iter().map(|&v| Width::of(v)).collect())
    }

    /// Row cost (W4).
    pub fn row_cost(&self) -> u64 {
        self.0.iter().map(|w| w.cost()).sum()
    }

    /// Overhead (W5).
    pub fn overhead(&self) -> u64 {
        10 + 2 * self.columns() as u64
    }

    /// The regions that have a column (C1).
    pub fn columns(&self) -> usize {
        self.0.iter().filter(|&&w| w != Width::None).count()
    }

    /// The wider width at each region (W7).
    pub fn join(&self, other: &Shape) -> Shape {
        Shape(
            self.0
                .iter()
                .zip(&other.0)
                .map(|(a, b)| *a.max(b))
                .collect(),
        )
    }

    /// The order of shapes (W9).
    pub fn order(&self, other: &Shape) -> Ordering {
        let by_width = || self.0.iter().rev().cmp(other.0.iter().rev());
        self.row_cost().cmp(&other.row_cost()).then_with(by_width)
    }
}
