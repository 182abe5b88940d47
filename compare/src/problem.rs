//! A problem and a solution as document 01's flat tables, and how results are compared.

pub const NONE: u32 = u32::MAX;

/// The number of words of a cone map entry: `orig_index`, pattern number or NONE, clique number or 0, first augmented row, row
/// count.
pub const MAP_WORDS: usize = 5;

#[derive(Clone, Copy, PartialEq, Eq, Debug)]
pub enum Route {
    Standard,
    Compact,
}

impl Route {
    pub fn code(self) -> u32 {
        match self {
            Route::Standard => 0,
            Route::Compact => 1,
        }
    }
    pub fn name(self) -> &'static str {
        match self {
            Route::Standard => "standard",
            Route::Compact => "compact",
        }
    }
}

#[derive(Clone, Debug, Default)]
pub struct Columns {
    pub starts: Vec<u32>,
    pub rows: Vec<u32>,
    pub values: Vec<f64>,
}

#[derive(Clone, Debug, Default)]
pub struct Problem {
    pub n: u32,
    pub m: u32,
    pub p: Columns,
    pub q: Vec<f64>,
    pub a: Columns,
    pub b: Vec<f64>,
    pub cones: Vec<u32>,
    pub alphas: Vec<f64>,
    pub pattern_count: u32,
    pub pattern_words: Vec<u32>,
}

impl Problem {
    /// Returns how large the problem is, for finding the smallest one that fails.
    pub fn weight(&self) -> usize {
        self.p.starts.len()
            + 2 * self.p.rows.len()
            + self.q.len()
            + self.a.starts.len()
            + 2 * self.a.rows.len()
            + self.b.len()
            + self.cones.len()
            + self.alphas.len()
            + self.pattern_words.len()
            + self.a.values.iter().chain(&self.b).filter(|v| **v != 0.0).count()
    }
}

/// What the cut writes. `map` has MAP_WORDS words for each entry; it is empty on the standard route. `sums` are the indices in A
/// of sums of several entries, in which all NaNs are equal.
#[derive(Clone, Debug, Default)]
pub struct Cut {
    pub p: Columns,
    pub q: Vec<f64>,
    pub a: Columns,
    pub b: Vec<f64>,
    pub cones: Vec<u32>,
    pub alphas: Vec<f64>,
    pub map: Vec<u32>,
    pub sums: Vec<usize>,
}

#[derive(Clone, Debug, Default)]
pub struct Solution {
    pub x: Vec<f64>,
    pub s: Vec<f64>,
    pub z: Vec<f64>,
    pub tau: f64,
    pub kappa: f64,
    pub map: Vec<u32>,
}

/// What the joining writes.
#[derive(Clone, Debug, Default)]
pub struct Joined {
    pub x: Vec<f64>,
    pub s: Vec<f64>,
    pub z: Vec<f64>,
    pub tau: f64,
    pub kappa: f64,
}

/// Returns whether two values have equal bits, or are both NaN.
pub fn same(a: f64, b: f64) -> bool {
    a.to_bits() == b.to_bits() || (a.is_nan() && b.is_nan())
}

pub fn all_same(a: &[f64], b: &[f64]) -> bool {
    a.len() == b.len() && a.iter().zip(b).all(|(x, y)| same(*x, *y))
}

/// Returns whether all values have equal bits, NaNs included.
pub fn all_bits(a: &[f64], b: &[f64]) -> bool {
    a.len() == b.len() && a.iter().zip(b).all(|(x, y)| x.to_bits() == y.to_bits())
}

/// Returns whether all values have equal bits, NaNs included, except that at the indices `sums` any NaN equals any NaN.
pub fn all_bits_but(a: &[f64], b: &[f64], sums: &[usize]) -> bool {
    let mut b = b.to_vec();
    for &k in sums {
        if a.get(k).is_some_and(|x| x.is_nan()) && b.get(k).is_some_and(|y| y.is_nan()) {
            b[k] = a[k];
        }
    }
    all_bits(a, &b)
}
