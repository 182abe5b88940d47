use crate::{count, flat, Clique, Cone, Pattern};

/// The two ways to cut a problem.
///
/// ```
/// use tejiwakpa::{cut, Problem, Route};
///
/// let problem = Problem::three_projectors();
/// assert_eq!(cut(Route::Standard, &problem)?.problem.m, 12);
/// assert_eq!(cut(Route::Compact, &problem)?.problem.m, 6);
/// # Ok::<(), tejiwakpa::Refusal>(())
/// ```
#[derive(Clone, Copy, Debug, PartialEq, Eq, Hash)]
#[repr(u32)]
pub enum Route {
    /// All original rows are kept, in a zero cone, and each block entry is a new unknown in a new row.
    Standard = 0,
    /// Each row moves to the block of the clique that owns it, and only overlaps are new rows and unknowns.
    Compact = 1,
}

impl Route {
    /// Returns the route's number: 0 standard, 1 compact.
    ///
    /// ```
    /// assert_eq!(tejiwakpa::Route::Compact.number(), 1);
    /// ```
    pub fn number(self) -> u32 {
        self as u32
    }
}

/// A matrix in compressed columns: the entries of column c are those from `starts[c]` to `starts[c + 1]`, with increasing
/// rows. A problem's A may repeat a row, for a marker that two cameras see; the entry is then the sum of the run.
///
/// ```
/// use tejiwakpa::Columns;
///
/// // 7 in row 0 of column 0, 8 and 9 in rows 0 and 2 of column 1
/// let a = Columns { starts: vec![0, 1, 3], rows: vec![0, 0, 2], values: vec![7.0, 8.0, 9.0] };
/// let second: Vec<(u32, f64)> = a.column(1).collect();
/// assert_eq!(second, [(0, 8.0), (2, 9.0)]);
/// ```
#[derive(Clone, Debug, Default, PartialEq)]
pub struct Columns {
    /// Where each column begins, and at the end the number of entries.
    pub starts: Vec<u32>,
    /// Each entry's row.
    pub rows: Vec<u32>,
    /// Each entry's value.
    pub values: Vec<f64>,
}

impl Columns {
    /// Returns a matrix with this many columns and no entries.
    ///
    /// ```
    /// assert_eq!(tejiwakpa::Columns::empty(2).starts, [0, 0, 0]);
    /// ```
    pub fn empty(columns: usize) -> Columns {
        Columns { starts: vec![0; columns + 1], ..Columns::default() }
    }

    /// Iterates over the rows and values of a column.
    ///
    /// # Panics
    ///
    /// If there is no such column, or its entries are missing.
    ///
    /// ```
    /// assert_eq!(tejiwakpa::Columns::empty(2).column(1).count(), 0);
    /// ```
    pub fn column(&self, column: usize) -> impl Iterator<Item = (u32, f64)> + '_ {
        let entries = self.starts[column] as usize..self.starts[column + 1] as usize;
        entries.map(|k| (self.rows[k], self.values[k]))
    }
}

/// A conic problem, and the clique trees of the PSD cones that are to be cut.
///
/// ```
/// use tejiwakpa::{same_layout, Columns, Cone, Problem};
///
/// // one unknown, one nonnegative row, nothing to cut
/// let problem = Problem {
///     n: 1,
///     m: 1,
///     p: Columns::empty(1),
///     q: vec![1.0],
///     a: Columns { starts: vec![0, 1], rows: vec![0], values: vec![-1.0] },
///     b: vec![0.0],
///     cones: vec![Cone::Nonnegative(1)],
///     patterns: vec![],
/// };
/// assert_eq!(same_layout(&problem, &problem), Ok(true));
/// ```
#[derive(Clone, Debug, Default, PartialEq)]
pub struct Problem {
    /// The number of unknowns; there may be none.
    pub n: u32,
    /// The number of rows.
    pub m: u32,
    /// The quadratic cost, n by n. Rows in a column strictly increase.
    pub p: Columns,
    /// The linear cost, n values.
    pub q: Vec<f64>,
    /// The constraints, m by n. Rows in a column may repeat but not decrease.
    pub a: Columns,
    /// The constraints' right hand side, m values.
    pub b: Vec<f64>,
    /// The cones, whose rows are the m rows in order.
    pub cones: Vec<Cone>,
    /// The clique trees, in the order of increasing `orig_index`.
    pub patterns: Vec<Pattern>,
}

/// The cones and patterns of a problem as words, for the calls of [`flat`].
///
/// ```
/// let words = tejiwakpa::Problem::three_projectors().words();
/// assert_eq!(words.cones, [6, 3, 0]);
/// assert_eq!(words.pattern_count, 1);
/// ```
#[derive(Clone, Debug, Default, PartialEq)]
pub struct Words {
    /// The cones' records, three words each.
    pub cones: Vec<u32>,
    /// The exponents of the power cones, in order.
    pub alphas: Vec<f64>,
    /// The number of patterns.
    pub pattern_count: u32,
    /// The patterns' words, one pattern after the other.
    pub pattern_words: Vec<u32>,
}

impl Words {
    pub(crate) fn of(cones: &[Cone], patterns: &[Pattern]) -> Words {
        Words {
            cones: cones.iter().flat_map(Cone::record).collect(),
            alphas: cones.iter().flat_map(Cone::alphas).copied().collect(),
            pattern_count: count(patterns.len()),
            pattern_words: patterns.iter().flat_map(Pattern::words).collect(),
        }
    }
}

impl Problem {
    /// Returns the cones and patterns as words.
    ///
    /// ```
    /// let words = tejiwakpa::Problem::three_projectors().words();
    /// assert_eq!(words.pattern_words.len(), 16);
    /// ```
    pub fn words(&self) -> Words {
        Words::of(&self.cones, &self.patterns)
    }

    /// Returns the problem as flat tables, with the words that [`Problem::words`] has returned for it.
    ///
    /// ```
    /// use tejiwakpa::{flat, Problem, Route};
    ///
    /// let problem = Problem::three_projectors();
    /// let words = problem.words();
    /// let mut lengths = [0; 11];
    /// flat::sizes(Route::Compact.number(), &problem.tables(&words), &mut lengths)?;
    /// assert_eq!(lengths, [3, 0, 0, 2, 3, 7, 7, 6, 6, 0, 10]);
    /// # Ok::<(), tejiwakpa::Refusal>(())
    /// ```
    pub fn tables<'a>(&'a self, words: &'a Words) -> flat::Tables<'a> {
        flat::Tables {
            n: self.n,
            m: self.m,
            p_starts: &self.p.starts,
            p_rows: &self.p.rows,
            p_values: &self.p.values,
            q: &self.q,
            a_starts: &self.a.starts,
            a_rows: &self.a.rows,
            a_values: &self.a.values,
            b: &self.b,
            cones: &words.cones,
            alphas: &words.alphas,
            pattern_count: words.pattern_count,
            pattern_words: &words.pattern_words,
        }
    }

    /// Returns the index, in the compact cut's map, of the entry of a pattern's clique, if there is such a clique. So a viewer
    /// finds a projector's block from one entry, without walking the map.
    ///
    /// ```
    /// use tejiwakpa::{cut, Cone, Problem, Route};
    ///
    /// // three projectors, behind a cone that is not cut
    /// let mut problem = Problem::three_projectors();
    /// problem.cones.insert(0, Cone::Exponential);
    /// problem.m += 3;
    /// problem.b.splice(0..0, [0.0; 3]);
    /// problem.a.rows.iter_mut().for_each(|row| *row += 3);
    /// problem.patterns[0].orig_index = 1;
    ///
    /// let augmented = cut(Route::Compact, &problem)?;
    /// let entry = augmented.map[problem.map_place(0, 1).unwrap()];
    /// assert_eq!(entry.tree_and_clique, Some((0, 1)));
    /// assert_eq!(augmented.problem.b[entry.range()], [3.0, 4.0, 5.0]);
    /// assert_eq!(problem.map_place(0, 2), None);
    /// # Ok::<(), tejiwakpa::Refusal>(())
    /// ```
    pub fn map_place(&self, pattern: usize, clique: usize) -> Option<usize> {
        let cut = self.patterns.get(pattern)?;
        // each cone before it has one entry, or an entry for each clique if it is cut; cliques go from last to first
        let more: usize = self.patterns[..pattern].iter().map(|p| p.cliques.len().saturating_sub(1)).sum();
        let after = cut.cliques.len().checked_sub(clique)?.checked_sub(1)?;
        Some(cut.orig_index as usize + more + after)
    }

    /// Returns the example of these pages: three projectors, one seam. It has one unknown and a PSD cone of dimension 3, cut into
    /// the cliques {0, 1} and {1, 2}, which overlap in vertex 1: row 2 belongs to both.
    ///
    /// ```
    /// use tejiwakpa::{cut, Problem, Route};
    ///
    /// let augmented = cut(Route::Compact, &Problem::three_projectors())?;
    /// // the overlap's column ties row 5, its own, to row 0 in the parent's block
    /// let tie: Vec<(u32, f64)> = augmented.problem.a.column(1).collect();
    /// assert_eq!(tie, [(0, -1.0), (5, 1.0)]);
    /// # Ok::<(), tejiwakpa::Refusal>(())
    /// ```
    pub fn three_projectors() -> Problem {
        Problem {
            n: 1,
            m: 6,
            p: Columns::empty(1),
            q: vec![0.0],
            a: Columns { starts: vec![0, 5], rows: vec![0, 1, 2, 4, 5], values: vec![10.0, 20.0, 30.0, 40.0, 50.0] },
            b: vec![1.0, 2.0, 3.0, 0.0, 4.0, 5.0],
            cones: vec![Cone::PsdTriangle(3)],
            patterns: vec![Pattern {
                orig_index: 0,
                ordering: vec![0, 1, 2],
                cliques: vec![
                    Clique { parent: Some(1), snode: vec![0], separator: vec![1] },
                    Clique { parent: None, snode: vec![1, 2], separator: vec![] },
                ],
            }],
        }
    }
}
