use crate::{flat, Problem};
use std::ops::Range;

/// A solution: of the augmented problem before [`join`](crate::join), of the original one after it.
///
/// ```
/// use tejiwakpa::Solution;
///
/// let solution = Solution { x: vec![0.5], s: vec![1.0, 2.0], z: vec![0.0, 0.0], tau: 1.0, kappa: 0.0 };
/// assert_eq!(solution.s.len(), solution.z.len());
/// ```
#[derive(Clone, Debug, Default, PartialEq)]
pub struct Solution {
    /// The unknowns.
    pub x: Vec<f64>,
    /// The slacks, one for each row.
    pub s: Vec<f64>,
    /// The dual values, one for each row.
    pub z: Vec<f64>,
    /// τ of the homogeneous embedding. A joining does not read it, and returns 1.
    pub tau: f64,
    /// κ of the homogeneous embedding. A joining does not read it, and returns 1.
    pub kappa: f64,
}

/// Where a cone of the augmented problem comes from.
///
/// ```
/// use tejiwakpa::{cut, ConeMapEntry, Problem, Route};
///
/// // within a pattern the compact route walks cliques from last to first
/// let map = cut(Route::Compact, &Problem::three_projectors())?.map;
/// assert_eq!(map[0], ConeMapEntry { orig_index: 0, tree_and_clique: Some((0, 1)), first_row: 0, rows: 3 });
/// assert_eq!(map[1], ConeMapEntry { orig_index: 0, tree_and_clique: Some((0, 0)), first_row: 3, rows: 3 });
/// # Ok::<(), tejiwakpa::Refusal>(())
/// ```
#[derive(Clone, Copy, Debug, PartialEq, Eq, Hash)]
pub struct ConeMapEntry {
    /// The index of the original cone.
    pub orig_index: u32,
    /// The pattern's number and the clique's number in it; none where the cone was not cut. No pattern has the number
    /// `u32::MAX`: a joining refuses an entry that names it.
    pub tree_and_clique: Option<(u32, u32)>,
    /// Its first augmented row: the number of rows before it, even where it has no rows.
    pub first_row: u32,
    /// How many rows it has.
    pub rows: u32,
}

impl ConeMapEntry {
    /// Returns the range of the cone's rows: where its values are in b, s and z of the augmented problem.
    ///
    /// ```
    /// use tejiwakpa::{cut, Problem, Route};
    ///
    /// let augmented = cut(Route::Compact, &Problem::three_projectors())?;
    /// // the block of clique 0, which is walked last
    /// assert_eq!(augmented.problem.b[augmented.map[1].range()], [1.0, 2.0, 0.0]);
    /// # Ok::<(), tejiwakpa::Refusal>(())
    /// ```
    pub fn range(&self) -> Range<usize> {
        let first = self.first_row as usize;
        first..first + self.rows as usize
    }
}

/// What the cut gives: a problem without patterns, and where its cones come from.
///
/// ```
/// use tejiwakpa::{cut, Cone, Problem, Route};
///
/// let augmented = cut(Route::Compact, &Problem::three_projectors())?;
/// assert_eq!(augmented.problem.cones, [Cone::PsdTriangle(2), Cone::PsdTriangle(2)]);
/// assert_eq!(augmented.map.len(), 2);
/// # Ok::<(), tejiwakpa::Refusal>(())
/// ```
#[derive(Clone, Debug, Default, PartialEq)]
pub struct Augmented {
    /// The problem to solve.
    pub problem: Problem,
    /// An entry for each of its cones on the compact route; none on the standard one.
    pub map: Vec<ConeMapEntry>,
}

/// Returns the words of a cone map, five for each entry.
pub(crate) fn map_words(map: &[ConeMapEntry]) -> Vec<u32> {
    let words = map.iter().flat_map(|entry| {
        let pattern = flat::numbered(entry.tree_and_clique.map(|(pattern, _)| pattern));
        let clique = entry.tree_and_clique.map_or(0, |(_, clique)| clique);
        [entry.orig_index, pattern, clique, entry.first_row, entry.rows]
    });
    words.collect()
}

/// Returns the entries of a cone map's words.
pub(crate) fn map_entries(words: &[u32]) -> Vec<ConeMapEntry> {
    let entries = words.chunks_exact(5).map(|word| ConeMapEntry {
        orig_index: word[0],
        tree_and_clique: (word[1] != flat::NONE).then_some((word[1], word[2])),
        first_row: word[3],
        rows: word[4],
    });
    entries.collect()
}
