use crate::cone;
use crate::solution::{map_entries, map_words};
use crate::{count, flat, Augmented, Columns, ConeMapEntry, Pattern, Problem, Refusal, Route, Solution};

/// Returns the index of the pair (i, j), in either order, in the upper triangle packed column by column. Both are at most 255.
///
/// ```
/// use tejiwakpa::{pair_index, Refusal};
///
/// assert_eq!(pair_index(2, 5), Ok(17));
/// assert_eq!(pair_index(5, 2), Ok(17));
/// assert_eq!(pair_index(256, 0), Err(Refusal::Bound));
/// ```
pub fn pair_index(i: u32, j: u32) -> Result<u32, Refusal> {
    let mut out = [0];
    flat::pair_index(i, j, &mut out)?;
    Ok(out[0])
}

/// Returns row and column of an index in the packed upper triangle, which is at most 32,895.
///
/// ```
/// use tejiwakpa::{pair_back, Refusal};
///
/// assert_eq!(pair_back(17), Ok((2, 5)));
/// assert_eq!(pair_back(32_896), Err(Refusal::Bound));
/// ```
pub fn pair_back(index: u32) -> Result<(u32, u32), Refusal> {
    let mut out = [0; 2];
    flat::pair_back(index, &mut out)?;
    Ok((out[0], out[1]))
}

/// Returns the inverse of a permutation: for each number its index.
///
/// ```
/// use tejiwakpa::{inverse, Refusal};
///
/// assert_eq!(inverse(&[2, 0, 1]), Ok(vec![1, 2, 0]));
/// assert_eq!(inverse(&[1, 1]), Err(Refusal::Patterns));
/// ```
pub fn inverse(permutation: &[u32]) -> Result<Vec<u32>, Refusal> {
    let mut out = vec![0; permutation.len()];
    flat::inverse(permutation, &mut out)?;
    Ok(out)
}

/// Returns the pattern with its vertices renumbered clique by clique and, within a snode, in the order of the old numbers.
///
/// ```
/// use tejiwakpa::{renumber, Clique, Pattern};
///
/// let pattern = Pattern {
///     orig_index: 0,
///     ordering: vec![2, 0, 1],
///     cliques: vec![
///         Clique { parent: Some(1), snode: vec![2], separator: vec![0] },
///         Clique { parent: None, snode: vec![0, 1], separator: vec![] },
///     ],
/// };
/// let renumbered = renumber(&pattern)?;
/// assert_eq!(renumbered.ordering, [1, 2, 0]);
/// assert_eq!(renumbered.cliques[0].snode, [0]);
/// assert_eq!(renumbered.cliques[0].separator, [1]);
/// assert_eq!(renumbered.cliques[1].snode, [1, 2]);
/// # Ok::<(), tejiwakpa::Refusal>(())
/// ```
pub fn renumber(pattern: &Pattern) -> Result<Pattern, Refusal> {
    let words = pattern.words();
    let mut out = vec![0; words.len()];
    flat::renumber(&words, &mut out)?;
    Pattern::from_words(&out)
}

/// The lengths of the cut's outputs as flat tables.
///
/// ```
/// use tejiwakpa::{sizes, Problem, Route};
///
/// let sizes = sizes(Route::Standard, &Problem::three_projectors())?;
/// assert_eq!((sizes.b, sizes.q), (12, 7));
/// # Ok::<(), tejiwakpa::Refusal>(())
/// ```
#[derive(Clone, Copy, Debug, Default, PartialEq, Eq)]
pub struct Sizes {
    /// P's column starts.
    pub p_starts: usize,
    /// P's rows.
    pub p_rows: usize,
    /// P's values.
    pub p_values: usize,
    /// The linear cost: the number of augmented unknowns.
    pub q: usize,
    /// A's column starts.
    pub a_starts: usize,
    /// A's rows. On the compact route a run of repeated entries counts once, on the standard route each entry counts.
    pub a_rows: usize,
    /// A's values.
    pub a_values: usize,
    /// The right hand side: the number of augmented rows.
    pub b: usize,
    /// The cones' records, three words each.
    pub cones: usize,
    /// The exponents of the power cones.
    pub alphas: usize,
    /// The cone map, five words for each entry.
    pub map: usize,
}

pub(crate) fn sizes_of(route: Route, tables: &flat::Tables) -> Result<Sizes, Refusal> {
    let mut out = [0; 11];
    flat::sizes(route.number(), tables, &mut out)?;
    let [p_starts, p_rows, p_values, q, a_starts, a_rows, a_values, b, cones, alphas, map] = out.map(|x| x as usize);
    Ok(Sizes { p_starts, p_rows, p_values, q, a_starts, a_rows, a_values, b, cones, alphas, map })
}

/// Returns the lengths of the outputs of [`cut`] for this problem, as flat tables.
///
/// ```
/// use tejiwakpa::{sizes, Problem, Refusal, Route};
///
/// let mut problem = Problem::three_projectors();
/// assert_eq!(sizes(Route::Compact, &problem)?.b, 6);
/// problem.a.rows[0] = 9;
/// assert_eq!(sizes(Route::Compact, &problem), Err(Refusal::Rows));
/// # Ok::<(), Refusal>(())
/// ```
pub fn sizes(route: Route, problem: &Problem) -> Result<Sizes, Refusal> {
    sizes_of(route, &problem.tables(&problem.words()))
}

/// The outputs of a cut.
pub(crate) struct Buffers {
    pub(crate) p: Columns,
    pub(crate) q: Vec<f64>,
    pub(crate) a: Columns,
    pub(crate) b: Vec<f64>,
    pub(crate) cones: Vec<u32>,
    pub(crate) alphas: Vec<f64>,
    pub(crate) map: Vec<u32>,
}

impl Buffers {
    pub(crate) fn new(sizes: &Sizes) -> Buffers {
        let columns =
            |starts, rows, values| Columns { starts: vec![0; starts], rows: vec![0; rows], values: vec![0.0; values] };
        Buffers {
            p: columns(sizes.p_starts, sizes.p_rows, sizes.p_values),
            q: vec![0.0; sizes.q],
            a: columns(sizes.a_starts, sizes.a_rows, sizes.a_values),
            b: vec![0.0; sizes.b],
            cones: vec![0; sizes.cones],
            alphas: vec![0.0; sizes.alphas],
            map: vec![0; sizes.map],
        }
    }

    pub(crate) fn outputs(&mut self) -> flat::CutOutputs<'_> {
        flat::CutOutputs {
            p_starts: &mut self.p.starts,
            p_rows: &mut self.p.rows,
            p_values: &mut self.p.values,
            q: &mut self.q,
            a_starts: &mut self.a.starts,
            a_rows: &mut self.a.rows,
            a_values: &mut self.a.values,
            b: &mut self.b,
            cones: &mut self.cones,
            alphas: &mut self.alphas,
            map: &mut self.map,
        }
    }

    /// Returns the augmented problem made of outputs that a call has written.
    pub(crate) fn augmented(self) -> Augmented {
        let cones = cone::read(&self.cones, &self.alphas);
        let (n, m) = (count(self.q.len()), count(self.b.len()));
        let problem = Problem { n, m, p: self.p, q: self.q, a: self.a, b: self.b, cones, patterns: vec![] };
        Augmented { problem, map: map_entries(&self.map) }
    }
}

/// Cuts the PSD cones that have a pattern into their cliques. Returns the augmented problem, and where its cones come from.
/// n may be 0: the overlaps' columns are then the only ones. A may repeat a row in a column: the
/// compact route adds the run from left to right into one entry, the standard route keeps it as stored.
///
/// The standard route accepts patterns that do not cover A and b, and the fit is then another, stricter problem, which no
/// residual shows: [`cut_covered`](crate::cut_covered) checks that first.
///
/// ```
/// use tejiwakpa::{cut, Cone, Problem, Refusal, Route};
///
/// let mut problem = Problem::three_projectors();
/// let augmented = cut(Route::Standard, &problem)?;
/// assert_eq!(augmented.problem.cones, [Cone::Zero(6), Cone::PsdTriangle(2), Cone::PsdTriangle(2)]);
/// // two cameras see the marker of row 5
/// problem.a.starts[1] += 1;
/// problem.a.rows.push(5);
/// problem.a.values.push(0.5);
/// assert_eq!(cut(Route::Compact, &problem)?.problem.a.column(0).nth(2), Some((2, 50.5)));
/// // no clique covers row 3
/// problem.b[3] = 1.0;
/// assert_eq!(cut(Route::Compact, &problem), Err(Refusal::Uncovered));
/// # Ok::<(), Refusal>(())
/// ```
pub fn cut(route: Route, problem: &Problem) -> Result<Augmented, Refusal> {
    let words = problem.words();
    let tables = problem.tables(&words);
    let mut made = Buffers::new(&sizes_of(route, &tables)?);
    flat::cut(route.number(), &tables, &mut made.outputs())?;
    Ok(made.augmented())
}

/// Joins a solution of the augmented problem into one of the original problem, of which only n, m, the cones and the
/// patterns are read. The map is that of the cut; the standard route does not read it. What to watch afterwards is
/// [`original_residual`](crate::original_residual).
///
/// ```
/// use tejiwakpa::{cut, join, Problem, Route, Solution};
///
/// let problem = Problem::three_projectors();
/// let map = cut(Route::Compact, &problem)?.map;
/// let block = vec![3.0, 4.0, 5.0, 1.0, 2.0, 7.0];
/// let solution = Solution { x: vec![0.5, 0.0], s: block.clone(), z: block, tau: 1.0, kappa: 0.0 };
/// let joined = join(Route::Compact, &problem, &map, &solution)?;
/// // row 2 is in both cliques: slacks add, and the dual value is that of the clique walked last
/// assert_eq!(joined.s, [1.0, 2.0, 10.0, 0.0, 4.0, 5.0]);
/// assert_eq!(joined.z, [1.0, 2.0, 7.0, 0.0, 4.0, 5.0]);
/// # Ok::<(), tejiwakpa::Refusal>(())
/// ```
pub fn join(route: Route, problem: &Problem, map: &[ConeMapEntry], solution: &Solution) -> Result<Solution, Refusal> {
    let words = problem.words();
    let joining = flat::Joining {
        n: problem.n,
        m: problem.m,
        cones: &words.cones,
        pattern_count: words.pattern_count,
        pattern_words: &words.pattern_words,
        x: &solution.x,
        s: &solution.s,
        z: &solution.z,
        tau: solution.tau,
        kappa: solution.kappa,
        map: &map_words(map),
    };
    // sizes above the bound are refused whatever the outputs' lengths
    let room = |size: u32| vec![0.0; size.min(65_536) as usize];
    let (mut x, mut s, mut z) = (room(problem.n), room(problem.m), room(problem.m));
    let mut scalars = [0.0; 2];
    let mut out = flat::JoinOutputs { x: &mut x, s: &mut s, z: &mut z, scalars: &mut scalars };
    flat::join(route.number(), &joining, &mut out)?;
    Ok(Solution { x, s, z, tau: scalars[0], kappa: scalars[1] })
}

/// Returns whether n, m, the cones with their exponents, the patterns, and the starts and rows of A and P of two problems agree.
/// If a route accepts both, their cuts then have the same starts and rows of A and P, the same cones and the same map,
/// so that buffers and a symbolic result can be reused: examples/reuse.rs. Values of A, P, q and b are not
/// compared. Exponents are compared bit by bit: +0.0 and -0.0 differ, and all NaNs count as equal.
///
/// ```
/// use tejiwakpa::{same_layout, Cone, Problem};
///
/// let mut first = Problem::three_projectors();
/// first.cones.push(Cone::Power(0.5));
/// first.m += 3;
/// first.b.extend([0.0; 3]);
/// let mut second = first.clone();
/// second.a.values[0] = 11.0;
/// assert_eq!(same_layout(&first, &second), Ok(true));
///
/// second.cones[1] = Cone::Power(0.25);
/// assert_eq!(same_layout(&first, &second), Ok(false));
///
/// let mut second = first.clone();
/// second.a.rows[4] = 6;
/// assert_eq!(same_layout(&first, &second), Ok(false));
/// ```
pub fn same_layout(first: &Problem, second: &Problem) -> Result<bool, Refusal> {
    let mut out = [0];
    flat::same_layout(&first.tables(&first.words()), &second.tables(&second.words()), &mut out)?;
    Ok(out[0] == 1)
}
