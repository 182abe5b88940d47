//! The same calls over slices that the caller passes, for callers who keep their own tables and buffers.
//!
//! The slices may hold anything: a call writes its full result to the front of its outputs, leaving the rest of a longer
//! output unchanged, or returns a [`Refusal`] and leaves its outputs unchanged. Routes are numbers, 0 standard and 1
//! compact. A call needs less than 2 MB of stack.
//!
//! ```
//! use tejiwakpa::{flat, Refusal};
//!
//! let mut out = [7, 7, 7];
//! flat::inverse(&[1, 0], &mut out)?;
//! assert_eq!(out, [1, 0, 7]);
//! assert_eq!(flat::inverse(&[1, 1], &mut out), Err(Refusal::Patterns));
//! assert_eq!(out, [1, 0, 7]);
//! # Ok::<(), Refusal>(())
//! ```

mod file;

pub use file::{file_length, file_words, read_file, write_file, FileOutputs, FileTables};

use crate::Refusal;

/// The mark for no parent in a pattern's words, and for no pattern in a cone map's words.
///
/// ```
/// assert_eq!(tejiwakpa::flat::NONE, 4_294_967_295);
/// ```
pub const NONE: u32 = u32::MAX;

// The word of a parent's or pattern's number. A number equal to the mark becomes the largest word that is not the mark; a
// call refuses it, since no clique and no pattern has that number.
pub(crate) fn numbered(number: Option<u32>) -> u32 {
    number.map_or(NONE, |number| number.min(NONE - 1))
}

/// A problem as flat tables. Only the calls check it.
///
/// ```
/// use tejiwakpa::flat::Tables;
///
/// // no unknowns, one zero row
/// let tables =
///     Tables { m: 1, p_starts: &[0], a_starts: &[0], b: &[0.0], cones: &[0, 1, 0], ..Tables::default() };
/// let mut lengths = [0; 11];
/// tejiwakpa::flat::sizes(0, &tables, &mut lengths)?;
/// assert_eq!(lengths[7], 2);
/// # Ok::<(), tejiwakpa::Refusal>(())
/// ```
#[derive(Clone, Copy, Debug, Default)]
pub struct Tables<'a> {
    /// The number of unknowns.
    pub n: u32,
    /// The number of rows.
    pub m: u32,
    /// P's column starts.
    pub p_starts: &'a [u32],
    /// P's rows.
    pub p_rows: &'a [u32],
    /// P's values.
    pub p_values: &'a [f64],
    /// The linear cost.
    pub q: &'a [f64],
    /// A's column starts.
    pub a_starts: &'a [u32],
    /// A's rows.
    pub a_rows: &'a [u32],
    /// A's values.
    pub a_values: &'a [f64],
    /// The right hand side.
    pub b: &'a [f64],
    /// The cones' records: kind, first size, second size.
    pub cones: &'a [u32],
    /// The exponents of the power cones, in order.
    pub alphas: &'a [f64],
    /// The number of patterns.
    pub pattern_count: u32,
    /// The patterns' words.
    pub pattern_words: &'a [u32],
}

/// The outputs of the cut, in the order of [`sizes`].
///
/// ```
/// use tejiwakpa::flat::CutOutputs;
///
/// let (mut a_starts, mut b) = ([0; 3], [0.0; 6]);
/// let outputs = CutOutputs { a_starts: &mut a_starts, b: &mut b, ..CutOutputs::default() };
/// assert_eq!(outputs.b.len(), 6);
/// ```
#[derive(Debug, Default)]
pub struct CutOutputs<'a> {
    /// P's column starts.
    pub p_starts: &'a mut [u32],
    /// P's rows.
    pub p_rows: &'a mut [u32],
    /// P's values.
    pub p_values: &'a mut [f64],
    /// The linear cost.
    pub q: &'a mut [f64],
    /// A's column starts.
    pub a_starts: &'a mut [u32],
    /// A's rows.
    pub a_rows: &'a mut [u32],
    /// A's values.
    pub a_values: &'a mut [f64],
    /// The right hand side.
    pub b: &'a mut [f64],
    /// The cones' records.
    pub cones: &'a mut [u32],
    /// The exponents of the power cones.
    pub alphas: &'a mut [f64],
    /// The cone map, five words for each entry: `orig_index`, pattern number or [`NONE`], clique number or 0, first row, row
    /// count.
    pub map: &'a mut [u32],
}

/// The outputs of the cut between limits: those of the cut, with two right hand sides.
///
/// ```
/// use tejiwakpa::flat::BetweenOutputs;
///
/// let (mut b_low, mut b_high) = ([0.0; 6], [0.0; 6]);
/// let outputs = BetweenOutputs { b_low: &mut b_low, b_high: &mut b_high, ..BetweenOutputs::default() };
/// assert_eq!(outputs.b_low.len(), outputs.b_high.len());
/// ```
#[derive(Debug, Default)]
pub struct BetweenOutputs<'a> {
    /// P's column starts.
    pub p_starts: &'a mut [u32],
    /// P's rows.
    pub p_rows: &'a mut [u32],
    /// P's values.
    pub p_values: &'a mut [f64],
    /// The linear cost.
    pub q: &'a mut [f64],
    /// A's column starts.
    pub a_starts: &'a mut [u32],
    /// A's rows.
    pub a_rows: &'a mut [u32],
    /// A's values.
    pub a_values: &'a mut [f64],
    /// The low limits of the right hand side.
    pub b_low: &'a mut [f64],
    /// The high limits of the right hand side.
    pub b_high: &'a mut [f64],
    /// The cones' records.
    pub cones: &'a mut [u32],
    /// The exponents of the power cones.
    pub alphas: &'a mut [f64],
    /// The cone map, five words for each entry.
    pub map: &'a mut [u32],
}

impl<'a> BetweenOutputs<'a> {
    /// Returns the outputs of a cut, whose b takes the low limits, together with one for the high limits.
    ///
    /// ```
    /// use tejiwakpa::flat::{BetweenOutputs, CutOutputs};
    ///
    /// let (mut b, mut b_high) = ([1.0; 6], [2.0; 6]);
    /// let outputs = BetweenOutputs::of(CutOutputs { b: &mut b, ..CutOutputs::default() }, &mut b_high);
    /// assert_eq!((outputs.b_low[0], outputs.b_high[0]), (1.0, 2.0));
    /// ```
    pub fn of(cut: CutOutputs<'a>, b_high: &'a mut [f64]) -> BetweenOutputs<'a> {
        BetweenOutputs {
            p_starts: cut.p_starts,
            p_rows: cut.p_rows,
            p_values: cut.p_values,
            q: cut.q,
            a_starts: cut.a_starts,
            a_rows: cut.a_rows,
            a_values: cut.a_values,
            b_low: cut.b,
            b_high,
            cones: cut.cones,
            alphas: cut.alphas,
            map: cut.map,
        }
    }
}

/// A problem's tables as outputs.
///
/// ```
/// use tejiwakpa::flat::TableOutputs;
///
/// let mut pattern_words = [0; 32];
/// let outputs = TableOutputs { pattern_words: &mut pattern_words, ..TableOutputs::default() };
/// assert!(outputs.b.is_empty());
/// ```
#[derive(Debug, Default)]
pub struct TableOutputs<'a> {
    /// P's column starts.
    pub p_starts: &'a mut [u32],
    /// P's rows.
    pub p_rows: &'a mut [u32],
    /// P's values.
    pub p_values: &'a mut [f64],
    /// The linear cost.
    pub q: &'a mut [f64],
    /// A's column starts.
    pub a_starts: &'a mut [u32],
    /// A's rows.
    pub a_rows: &'a mut [u32],
    /// A's values.
    pub a_values: &'a mut [f64],
    /// The right hand side.
    pub b: &'a mut [f64],
    /// The cones' records.
    pub cones: &'a mut [u32],
    /// The exponents of the power cones.
    pub alphas: &'a mut [f64],
    /// The patterns' words.
    pub pattern_words: &'a mut [u32],
}

/// What a joining reads: the original problem's sizes, cones and patterns, the augmented problem's solution and, on the
/// compact route, the cone map.
///
/// ```
/// use tejiwakpa::flat::Joining;
///
/// let joining = Joining { n: 1, m: 1, cones: &[1, 1, 0], x: &[0.5], s: &[2.0], z: &[0.0], ..Joining::default() };
/// assert_eq!(joining.map.len(), 0);
/// ```
#[derive(Clone, Copy, Debug, Default)]
pub struct Joining<'a> {
    /// The original number of unknowns.
    pub n: u32,
    /// The original number of rows.
    pub m: u32,
    /// The original cones' records.
    pub cones: &'a [u32],
    /// The number of patterns.
    pub pattern_count: u32,
    /// The patterns' words.
    pub pattern_words: &'a [u32],
    /// The augmented unknowns.
    pub x: &'a [f64],
    /// The augmented slacks.
    pub s: &'a [f64],
    /// The augmented dual values.
    pub z: &'a [f64],
    /// The solution's τ, which a joining does not read.
    pub tau: f64,
    /// The solution's κ, which a joining does not read.
    pub kappa: f64,
    /// The cone map; not read on the standard route.
    pub map: &'a [u32],
}

/// The outputs of a joining: n values of x, m of s, m of z and two scalars.
///
/// ```
/// use tejiwakpa::flat::JoinOutputs;
///
/// let mut scalars = [0.0; 2];
/// let outputs = JoinOutputs { scalars: &mut scalars, ..JoinOutputs::default() };
/// assert!(outputs.x.is_empty());
/// ```
#[derive(Debug, Default)]
pub struct JoinOutputs<'a> {
    /// The original unknowns.
    pub x: &'a mut [f64],
    /// The original slacks.
    pub s: &'a mut [f64],
    /// The original dual values.
    pub z: &'a mut [f64],
    /// τ and κ.
    pub scalars: &'a mut [f64],
}

fn answer(number: u32) -> Result<(), Refusal> {
    match number {
        0 => Ok(()),
        _ => Err(Refusal::from_number(number).expect("a number of document 01 or 02")),
    }
}

/// Writes to `out[0]` the index of the pair (i, j) in the packed upper triangle.
///
/// ```
/// let mut out = [0];
/// tejiwakpa::flat::pair_index(2, 5, &mut out)?;
/// assert_eq!(out, [17]);
/// # Ok::<(), tejiwakpa::Refusal>(())
/// ```
pub fn pair_index(i: u32, j: u32, out: &mut [u32]) -> Result<(), Refusal> {
    // SAFETY: `c` says what its calls require; slices meet it.
    answer(unsafe { c::chordal_pair_index(i, j, out.as_mut_ptr(), out.len()) })
}

/// Writes to `out[0]` and `out[1]` the row and column of an index in the packed upper triangle.
///
/// ```
/// let mut out = [0, 0];
/// tejiwakpa::flat::pair_back(17, &mut out)?;
/// assert_eq!(out, [2, 5]);
/// # Ok::<(), tejiwakpa::Refusal>(())
/// ```
pub fn pair_back(index: u32, out: &mut [u32]) -> Result<(), Refusal> {
    // SAFETY: as above.
    answer(unsafe { c::chordal_pair_back(index, out.as_mut_ptr(), out.len()) })
}

/// Writes to `out[w]` the index of w in the permutation.
///
/// ```
/// let mut out = [0; 3];
/// tejiwakpa::flat::inverse(&[2, 0, 1], &mut out)?;
/// assert_eq!(out, [1, 2, 0]);
/// # Ok::<(), tejiwakpa::Refusal>(())
/// ```
pub fn inverse(permutation: &[u32], out: &mut [u32]) -> Result<(), Refusal> {
    let p = permutation;
    // SAFETY: as above.
    answer(unsafe { c::chordal_inverse(p.as_ptr(), p.len(), out.as_mut_ptr(), out.len()) })
}

/// Writes one pattern's words with its vertices renumbered clique by clique; there are as many words as in the input.
///
/// ```
/// use tejiwakpa::flat::{renumber, NONE};
///
/// let mut out = [0; 16];
/// renumber(&[0, 3, 2, 2, 0, 1, 1, 1, 1, 2, 0, NONE, 2, 0, 0, 1], &mut out)?;
/// assert_eq!(out, [0, 3, 2, 1, 2, 0, 1, 1, 1, 0, 1, NONE, 2, 0, 1, 2]);
/// # Ok::<(), tejiwakpa::Refusal>(())
/// ```
pub fn renumber(words: &[u32], out: &mut [u32]) -> Result<(), Refusal> {
    // SAFETY: as above.
    answer(unsafe { c::chordal_renumber(words.as_ptr(), words.len(), out.as_mut_ptr(), out.len()) })
}

/// Writes the lengths of the cut's eleven outputs, in the order of [`CutOutputs`].
///
/// ```
/// use tejiwakpa::{flat, Problem};
///
/// let problem = Problem::three_projectors();
/// let mut out = [0; 11];
/// flat::sizes(0, &problem.tables(&problem.words()), &mut out)?;
/// assert_eq!(out, [8, 0, 0, 7, 8, 17, 17, 12, 9, 0, 0]);
/// # Ok::<(), tejiwakpa::Refusal>(())
/// ```
#[rustfmt::skip]
pub fn sizes(route: u32, problem: &Tables, out: &mut [u32]) -> Result<(), Refusal> {
    let p = problem;
    // SAFETY: as above.
    answer(unsafe {
        c::chordal_sizes(
            route, p.n, p.m,
            p.p_starts.as_ptr(), p.p_starts.len(), p.p_rows.as_ptr(), p.p_rows.len(),
            p.p_values.as_ptr(), p.p_values.len(), p.q.as_ptr(), p.q.len(),
            p.a_starts.as_ptr(), p.a_starts.len(), p.a_rows.as_ptr(), p.a_rows.len(),
            p.a_values.as_ptr(), p.a_values.len(), p.b.as_ptr(), p.b.len(),
            p.cones.as_ptr(), p.cones.len(), p.alphas.as_ptr(), p.alphas.len(),
            p.pattern_count, p.pattern_words.as_ptr(), p.pattern_words.len(),
            out.as_mut_ptr(), out.len(),
        )
    })
}

/// Writes the augmented problem.
///
/// ```
/// use tejiwakpa::flat::{cut, CutOutputs};
/// use tejiwakpa::Problem;
///
/// let problem = Problem::three_projectors();
/// let (mut p_starts, mut q, mut a_starts) = ([0; 3], [0.0; 2], [0; 3]);
/// let (mut a_rows, mut a_values, mut b) = ([0; 7], [0.0; 7], [0.0; 6]);
/// let (mut cones, mut map) = ([0; 6], [0; 10]);
/// let mut out = CutOutputs {
///     p_starts: &mut p_starts,
///     q: &mut q,
///     a_starts: &mut a_starts,
///     a_rows: &mut a_rows,
///     a_values: &mut a_values,
///     b: &mut b,
///     cones: &mut cones,
///     map: &mut map,
///     ..CutOutputs::default()
/// };
/// cut(1, &problem.tables(&problem.words()), &mut out)?;
/// assert_eq!(a_starts, [0, 5, 7]);
/// assert_eq!(a_rows, [0, 1, 2, 3, 4, 0, 5]);
/// assert_eq!(a_values, [30.0, 40.0, 50.0, 10.0, 20.0, -1.0, 1.0]);
/// assert_eq!(map, [0, 0, 1, 0, 3, 0, 0, 0, 3, 3]);
/// # Ok::<(), tejiwakpa::Refusal>(())
/// ```
#[rustfmt::skip]
pub fn cut(route: u32, problem: &Tables, out: &mut CutOutputs) -> Result<(), Refusal> {
    let (p, o) = (problem, out);
    // SAFETY: as above.
    answer(unsafe {
        c::chordal_cut(
            route, p.n, p.m,
            p.p_starts.as_ptr(), p.p_starts.len(), p.p_rows.as_ptr(), p.p_rows.len(),
            p.p_values.as_ptr(), p.p_values.len(), p.q.as_ptr(), p.q.len(),
            p.a_starts.as_ptr(), p.a_starts.len(), p.a_rows.as_ptr(), p.a_rows.len(),
            p.a_values.as_ptr(), p.a_values.len(), p.b.as_ptr(), p.b.len(),
            p.cones.as_ptr(), p.cones.len(), p.alphas.as_ptr(), p.alphas.len(),
            p.pattern_count, p.pattern_words.as_ptr(), p.pattern_words.len(),
            o.p_starts.as_mut_ptr(), o.p_starts.len(), o.p_rows.as_mut_ptr(), o.p_rows.len(),
            o.p_values.as_mut_ptr(), o.p_values.len(), o.q.as_mut_ptr(), o.q.len(),
            o.a_starts.as_mut_ptr(), o.a_starts.len(), o.a_rows.as_mut_ptr(), o.a_rows.len(),
            o.a_values.as_mut_ptr(), o.a_values.len(), o.b.as_mut_ptr(), o.b.len(),
            o.cones.as_mut_ptr(), o.cones.len(), o.alphas.as_mut_ptr(), o.alphas.len(),
            o.map.as_mut_ptr(), o.map.len(),
        )
    })
}

/// Writes the augmented problem on the compact route, for a b that lies between two lists; the problem's own b is not read.
/// Both lists' outputs are as long as the cut's b.
///
/// ```
/// use tejiwakpa::flat::{cut_between, BetweenOutputs};
/// use tejiwakpa::{Problem, Refusal};
///
/// let problem = Problem::three_projectors();
/// let (mut p_starts, mut q, mut a_starts) = ([0; 3], [0.0; 2], [0; 3]);
/// let (mut a_rows, mut a_values, mut b_low, mut b_high) = ([0; 7], [0.0; 7], [9.0; 6], [9.0; 6]);
/// let (mut cones, mut map) = ([0; 6], [0; 10]);
/// let mut out = BetweenOutputs {
///     p_starts: &mut p_starts,
///     q: &mut q,
///     a_starts: &mut a_starts,
///     a_rows: &mut a_rows,
///     a_values: &mut a_values,
///     b_low: &mut b_low,
///     b_high: &mut b_high,
///     cones: &mut cones,
///     map: &mut map,
///     ..BetweenOutputs::default()
/// };
/// let (words, low, high) = (problem.words(), [1.0, 2.0, 3.0, 0.0, 4.0, 5.0], [2.0, 3.0, 4.0, -0.0, 5.0, 6.0]);
/// assert_eq!(cut_between(&problem.tables(&words), &high, &low, &mut out), Err(Refusal::Limits));
/// assert_eq!(out.b_low, [9.0; 6]);
/// cut_between(&problem.tables(&words), &low, &high, &mut out)?;
/// assert_eq!(b_low, [3.0, 4.0, 5.0, 1.0, 2.0, 0.0]);
/// assert_eq!(b_high, [4.0, 5.0, 6.0, 2.0, 3.0, 0.0]);
/// # Ok::<(), Refusal>(())
/// ```
#[rustfmt::skip]
pub fn cut_between(problem: &Tables, low: &[f64], high: &[f64], out: &mut BetweenOutputs) -> Result<(), Refusal> {
    let (p, o) = (problem, out);
    // SAFETY: as above.
    answer(unsafe {
        c::chordal_cut_between(
            p.n, p.m,
            p.p_starts.as_ptr(), p.p_starts.len(), p.p_rows.as_ptr(), p.p_rows.len(),
            p.p_values.as_ptr(), p.p_values.len(), p.q.as_ptr(), p.q.len(),
            p.a_starts.as_ptr(), p.a_starts.len(), p.a_rows.as_ptr(), p.a_rows.len(),
            p.a_values.as_ptr(), p.a_values.len(), low.as_ptr(), low.len(), high.as_ptr(), high.len(),
            p.cones.as_ptr(), p.cones.len(), p.alphas.as_ptr(), p.alphas.len(),
            p.pattern_count, p.pattern_words.as_ptr(), p.pattern_words.len(),
            o.p_starts.as_mut_ptr(), o.p_starts.len(), o.p_rows.as_mut_ptr(), o.p_rows.len(),
            o.p_values.as_mut_ptr(), o.p_values.len(), o.q.as_mut_ptr(), o.q.len(),
            o.a_starts.as_mut_ptr(), o.a_starts.len(), o.a_rows.as_mut_ptr(), o.a_rows.len(),
            o.a_values.as_mut_ptr(), o.a_values.len(),
            o.b_low.as_mut_ptr(), o.b_low.len(), o.b_high.as_mut_ptr(), o.b_high.len(),
            o.cones.as_mut_ptr(), o.cones.len(), o.alphas.as_mut_ptr(), o.alphas.len(),
            o.map.as_mut_ptr(), o.map.len(),
        )
    })
}

/// Writes the augmented problem on the compact route, for `count` right hand sides of m values each, which the problem's b
/// holds one after another. The output b is `count` times as long as the cut's, and holds each side's augmented b in turn.
///
/// ```
/// use tejiwakpa::flat::{cut_many, CutOutputs, Tables};
/// use tejiwakpa::Problem;
///
/// let problem = Problem::three_projectors();
/// let words = problem.words();
/// let sides = [1.0, 2.0, 3.0, 0.0, 4.0, 5.0, 1.5, 2.5, 3.5, 0.0, 4.5, 5.5];
/// let (mut p_starts, mut q, mut a_starts) = ([0; 3], [0.0; 2], [0; 3]);
/// let (mut a_rows, mut a_values, mut b) = ([0; 7], [0.0; 7], [0.0; 12]);
/// let (mut cones, mut map) = ([0; 6], [0; 10]);
/// let mut out = CutOutputs {
///     p_starts: &mut p_starts,
///     q: &mut q,
///     a_starts: &mut a_starts,
///     a_rows: &mut a_rows,
///     a_values: &mut a_values,
///     b: &mut b,
///     cones: &mut cones,
///     map: &mut map,
///     ..CutOutputs::default()
/// };
/// cut_many(2, &Tables { b: &sides, ..problem.tables(&words) }, &mut out)?;
/// assert_eq!(b, [3.0, 4.0, 5.0, 1.0, 2.0, 0.0, 3.5, 4.5, 5.5, 1.5, 2.5, 0.0]);
/// # Ok::<(), tejiwakpa::Refusal>(())
/// ```
#[rustfmt::skip]
pub fn cut_many(count: u32, problem: &Tables, out: &mut CutOutputs) -> Result<(), Refusal> {
    let (p, o) = (problem, out);
    // SAFETY: as above.
    answer(unsafe {
        c::chordal_cut_many(
            count, p.n, p.m,
            p.p_starts.as_ptr(), p.p_starts.len(), p.p_rows.as_ptr(), p.p_rows.len(),
            p.p_values.as_ptr(), p.p_values.len(), p.q.as_ptr(), p.q.len(),
            p.a_starts.as_ptr(), p.a_starts.len(), p.a_rows.as_ptr(), p.a_rows.len(),
            p.a_values.as_ptr(), p.a_values.len(), p.b.as_ptr(), p.b.len(),
            p.cones.as_ptr(), p.cones.len(), p.alphas.as_ptr(), p.alphas.len(),
            p.pattern_count, p.pattern_words.as_ptr(), p.pattern_words.len(),
            o.p_starts.as_mut_ptr(), o.p_starts.len(), o.p_rows.as_mut_ptr(), o.p_rows.len(),
            o.p_values.as_mut_ptr(), o.p_values.len(), o.q.as_mut_ptr(), o.q.len(),
            o.a_starts.as_mut_ptr(), o.a_starts.len(), o.a_rows.as_mut_ptr(), o.a_rows.len(),
            o.a_values.as_mut_ptr(), o.a_values.len(), o.b.as_mut_ptr(), o.b.len(),
            o.cones.as_mut_ptr(), o.cones.len(), o.alphas.as_mut_ptr(), o.alphas.len(),
            o.map.as_mut_ptr(), o.map.len(),
        )
    })
}

/// Writes the original problem's solution.
///
/// ```
/// use tejiwakpa::flat::{join, JoinOutputs, Joining};
/// use tejiwakpa::Problem;
///
/// let words = Problem::three_projectors().words();
/// let joining = Joining {
///     n: 1,
///     m: 6,
///     cones: &words.cones,
///     pattern_count: words.pattern_count,
///     pattern_words: &words.pattern_words,
///     x: &[0.5, 0.0],
///     s: &[3.0, 4.0, 5.0, 1.0, 2.0, 7.0],
///     z: &[3.0, 4.0, 5.0, 1.0, 2.0, 7.0],
///     map: &[0, 0, 1, 0, 3, 0, 0, 0, 3, 3],
///     ..Joining::default()
/// };
/// let (mut x, mut s, mut z, mut scalars) = ([0.0], [0.0; 6], [0.0; 6], [0.0; 2]);
/// join(1, &joining, &mut JoinOutputs { x: &mut x, s: &mut s, z: &mut z, scalars: &mut scalars })?;
/// assert_eq!(s, [1.0, 2.0, 10.0, 0.0, 4.0, 5.0]);
/// assert_eq!(z, [1.0, 2.0, 7.0, 0.0, 4.0, 5.0]);
/// # Ok::<(), tejiwakpa::Refusal>(())
/// ```
#[rustfmt::skip]
pub fn join(route: u32, joining: &Joining, out: &mut JoinOutputs) -> Result<(), Refusal> {
    let (j, o) = (joining, out);
    // SAFETY: as above.
    answer(unsafe {
        c::chordal_join(
            route, j.n, j.m,
            j.cones.as_ptr(), j.cones.len(),
            j.pattern_count, j.pattern_words.as_ptr(), j.pattern_words.len(),
            j.x.as_ptr(), j.x.len(), j.s.as_ptr(), j.s.len(), j.z.as_ptr(), j.z.len(),
            j.tau, j.kappa, j.map.as_ptr(), j.map.len(),
            o.x.as_mut_ptr(), o.x.len(), o.s.as_mut_ptr(), o.s.len(), o.z.as_mut_ptr(), o.z.len(),
            o.scalars.as_mut_ptr(), o.scalars.len(),
        )
    })
}

/// Writes a standard solution as a compact one. The outputs are as long as a solution of the compact cut: x has n values and
/// one for each overlap, s and z have the compact cut's rows; τ and κ are copied. The map is not read.
///
/// ```
/// use tejiwakpa::flat::{change_route, JoinOutputs, Joining};
/// use tejiwakpa::Problem;
///
/// let words = Problem::three_projectors().words();
/// let given = Joining {
///     n: 1,
///     m: 6,
///     cones: &words.cones,
///     pattern_count: words.pattern_count,
///     pattern_words: &words.pattern_words,
///     x: &[0.5; 7],
///     s: &[0.0, 0.0, 0.0, 0.0, 0.0, 0.0, 1.0, 2.0, 7.0, 3.0, 4.0, 5.0],
///     z: &[0.0; 12],
///     tau: 2.0,
///     ..Joining::default()
/// };
/// let (mut x, mut s, mut z, mut scalars) = ([9.0; 2], [9.0; 6], [9.0; 6], [9.0; 2]);
/// change_route(&given, &mut JoinOutputs { x: &mut x, s: &mut s, z: &mut z, scalars: &mut scalars })?;
/// assert_eq!(x, [0.5, 0.0]);
/// assert_eq!(s, [3.0, 4.0, 5.0, 1.0, 2.0, 7.0]);
/// assert_eq!(scalars, [2.0, 0.0]);
/// # Ok::<(), tejiwakpa::Refusal>(())
/// ```
#[rustfmt::skip]
pub fn change_route(joining: &Joining, out: &mut JoinOutputs) -> Result<(), Refusal> {
    let (j, o) = (joining, out);
    // SAFETY: as above.
    answer(unsafe {
        c::chordal_change_route(
            j.n, j.m,
            j.cones.as_ptr(), j.cones.len(),
            j.pattern_count, j.pattern_words.as_ptr(), j.pattern_words.len(),
            j.x.as_ptr(), j.x.len(), j.s.as_ptr(), j.s.len(), j.z.as_ptr(), j.z.len(),
            j.tau, j.kappa,
            o.x.as_mut_ptr(), o.x.len(), o.s.as_mut_ptr(), o.s.len(), o.z.as_mut_ptr(), o.z.len(),
            o.scalars.as_mut_ptr(), o.scalars.len(),
        )
    })
}

/// Writes the tables of the pooled problem: each is as long as those of both problems together, except that P's, q and A's
/// starts are as long as the first's. Its n is that of both; its m, cone count and pattern count are the sums.
///
/// ```
/// use tejiwakpa::flat::{pool, TableOutputs};
/// use tejiwakpa::Problem;
///
/// let problem = Problem::three_projectors();
/// let words = problem.words();
/// let (mut p_starts, mut q, mut a_starts, mut a_rows) = ([0; 2], [0.0; 1], [0; 2], [0; 10]);
/// let (mut a_values, mut b, mut cones, mut pattern_words) = ([0.0; 10], [0.0; 12], [0; 6], [0; 32]);
/// let mut out = TableOutputs {
///     p_starts: &mut p_starts,
///     q: &mut q,
///     a_starts: &mut a_starts,
///     a_rows: &mut a_rows,
///     a_values: &mut a_values,
///     b: &mut b,
///     cones: &mut cones,
///     pattern_words: &mut pattern_words,
///     ..TableOutputs::default()
/// };
/// pool(&problem.tables(&words), &problem.tables(&words), &mut out)?;
/// assert_eq!(a_rows, [0, 1, 2, 4, 5, 6, 7, 8, 10, 11]);
/// assert_eq!((pattern_words[0], pattern_words[16]), (0, 1));
/// # Ok::<(), tejiwakpa::Refusal>(())
/// ```
#[rustfmt::skip]
pub fn pool(first: &Tables, second: &Tables, out: &mut TableOutputs) -> Result<(), Refusal> {
    let (p, r, o) = (first, second, out);
    // SAFETY: as above.
    answer(unsafe {
        c::chordal_pool(
            p.n, p.m,
            p.p_starts.as_ptr(), p.p_starts.len(), p.p_rows.as_ptr(), p.p_rows.len(),
            p.p_values.as_ptr(), p.p_values.len(), p.q.as_ptr(), p.q.len(),
            p.a_starts.as_ptr(), p.a_starts.len(), p.a_rows.as_ptr(), p.a_rows.len(),
            p.a_values.as_ptr(), p.a_values.len(), p.b.as_ptr(), p.b.len(),
            p.cones.as_ptr(), p.cones.len(), p.alphas.as_ptr(), p.alphas.len(),
            p.pattern_count, p.pattern_words.as_ptr(), p.pattern_words.len(),
            r.n, r.m,
            r.p_starts.as_ptr(), r.p_starts.len(), r.p_rows.as_ptr(), r.p_rows.len(),
            r.p_values.as_ptr(), r.p_values.len(), r.q.as_ptr(), r.q.len(),
            r.a_starts.as_ptr(), r.a_starts.len(), r.a_rows.as_ptr(), r.a_rows.len(),
            r.a_values.as_ptr(), r.a_values.len(), r.b.as_ptr(), r.b.len(),
            r.cones.as_ptr(), r.cones.len(), r.alphas.as_ptr(), r.alphas.len(),
            r.pattern_count, r.pattern_words.as_ptr(), r.pattern_words.len(),
            o.p_starts.as_mut_ptr(), o.p_starts.len(), o.p_rows.as_mut_ptr(), o.p_rows.len(),
            o.p_values.as_mut_ptr(), o.p_values.len(), o.q.as_mut_ptr(), o.q.len(),
            o.a_starts.as_mut_ptr(), o.a_starts.len(), o.a_rows.as_mut_ptr(), o.a_rows.len(),
            o.a_values.as_mut_ptr(), o.a_values.len(), o.b.as_mut_ptr(), o.b.len(),
            o.cones.as_mut_ptr(), o.cones.len(), o.alphas.as_mut_ptr(), o.alphas.len(),
            o.pattern_words.as_mut_ptr(), o.pattern_words.len(),
        )
    })
}

/// Writes the lengths of the eleven tables of a generated problem, in the order of [`TableOutputs`].
///
/// ```
/// let mut lengths = [0; 11];
/// tejiwakpa::flat::generate_sizes(1, 2, 1, 1, &mut lengths)?;
/// assert_eq!(lengths, [2, 0, 0, 1, 2, 3, 3, 3, 3, 0, 10]);
/// # Ok::<(), tejiwakpa::Refusal>(())
/// ```
pub fn generate_sizes(seed: u64, v: u32, w: u32, n: u32, out: &mut [u32]) -> Result<(), Refusal> {
    // SAFETY: as above.
    answer(unsafe { c::chordal_generate_sizes(seed, v, w, n, out.as_mut_ptr(), out.len()) })
}

/// Writes a problem that any site can make again, from a seed, a vertex count, a band and a column count, each table to the
/// front of its output. It has `v (v + 1) / 2` rows and one pattern.
///
/// ```
/// use tejiwakpa::flat::{generate, TableOutputs};
///
/// let (mut p_starts, mut q, mut a_starts, mut a_rows) = ([9; 2], [9.0; 1], [9; 2], [9; 3]);
/// let (mut a_values, mut b, mut cones, mut pattern_words) = ([9.0; 3], [9.0; 3], [9; 3], [9; 10]);
/// let mut out = TableOutputs {
///     p_starts: &mut p_starts,
///     q: &mut q,
///     a_starts: &mut a_starts,
///     a_rows: &mut a_rows,
///     a_values: &mut a_values,
///     b: &mut b,
///     cones: &mut cones,
///     pattern_words: &mut pattern_words,
///     ..TableOutputs::default()
/// };
/// generate(1, 2, 1, 1, &mut out)?;
/// assert_eq!((a_rows, a_values), ([0, 1, 2], [56.0, -80.0, -61.0]));
/// assert_eq!(b, [44.0, -43.0, -32.0]);
/// # Ok::<(), tejiwakpa::Refusal>(())
/// ```
#[rustfmt::skip]
pub fn generate(seed: u64, v: u32, w: u32, n: u32, out: &mut TableOutputs) -> Result<(), Refusal> {
    let o = out;
    // SAFETY: as above.
    answer(unsafe {
        c::chordal_generate(
            seed, v, w, n,
            o.p_starts.as_mut_ptr(), o.p_starts.len(), o.p_rows.as_mut_ptr(), o.p_rows.len(),
            o.p_values.as_mut_ptr(), o.p_values.len(), o.q.as_mut_ptr(), o.q.len(),
            o.a_starts.as_mut_ptr(), o.a_starts.len(), o.a_rows.as_mut_ptr(), o.a_rows.len(),
            o.a_values.as_mut_ptr(), o.a_values.len(), o.b.as_mut_ptr(), o.b.len(),
            o.cones.as_mut_ptr(), o.cones.len(), o.alphas.as_mut_ptr(), o.alphas.len(),
            o.pattern_words.as_mut_ptr(), o.pattern_words.len(),
        )
    })
}

/// Writes to `out[0]` 1 where n, m, cone records, exponents bit by bit (all NaNs count as equal), pattern words, and the starts
/// and rows of A and P of two problems agree, else 0.
///
/// ```
/// use tejiwakpa::{flat, Problem};
///
/// let problem = Problem::three_projectors();
/// let words = problem.words();
/// let mut out = [0];
/// flat::same_layout(&problem.tables(&words), &problem.tables(&words), &mut out)?;
/// assert_eq!(out, [1]);
///
/// // an entry in another row
/// let mut other = problem.clone();
/// other.a.rows[2] = 3;
/// flat::same_layout(&problem.tables(&words), &other.tables(&words), &mut out)?;
/// assert_eq!(out, [0]);
/// # Ok::<(), tejiwakpa::Refusal>(())
/// ```
#[rustfmt::skip]
pub fn same_layout(first: &Tables, second: &Tables, out: &mut [u32]) -> Result<(), Refusal> {
    let (p, r) = (first, second);
    // SAFETY: as above.
    answer(unsafe {
        c::chordal_same_layout(
            p.n, p.m,
            p.p_starts.as_ptr(), p.p_starts.len(), p.p_rows.as_ptr(), p.p_rows.len(),
            p.p_values.as_ptr(), p.p_values.len(), p.q.as_ptr(), p.q.len(),
            p.a_starts.as_ptr(), p.a_starts.len(), p.a_rows.as_ptr(), p.a_rows.len(),
            p.a_values.as_ptr(), p.a_values.len(), p.b.as_ptr(), p.b.len(),
            p.cones.as_ptr(), p.cones.len(), p.alphas.as_ptr(), p.alphas.len(),
            p.pattern_count, p.pattern_words.as_ptr(), p.pattern_words.len(),
            r.n, r.m,
            r.p_starts.as_ptr(), r.p_starts.len(), r.p_rows.as_ptr(), r.p_rows.len(),
            r.p_values.as_ptr(), r.p_values.len(), r.q.as_ptr(), r.q.len(),
            r.a_starts.as_ptr(), r.a_starts.len(), r.a_rows.as_ptr(), r.a_rows.len(),
            r.a_values.as_ptr(), r.a_values.len(), r.b.as_ptr(), r.b.len(),
            r.cones.as_ptr(), r.cones.len(), r.alphas.as_ptr(), r.alphas.len(),
            r.pattern_count, r.pattern_words.as_ptr(), r.pattern_words.len(),
            out.as_mut_ptr(), out.len(),
        )
    })
}

// The calls of libdoor.a, as include/chordal.h declares them. Each is proved to read and write within the given lengths,
// whatever the memory holds; it requires that each pointer is valid for its length, and that no output overlaps
// another argument.
#[rustfmt::skip]
mod c {
    extern "C" {
        pub fn chordal_pair_index(i: u32, j: u32, out: *mut u32, out_len: usize) -> u32;
        pub fn chordal_pair_back(index: u32, out: *mut u32, out_len: usize) -> u32;
        pub fn chordal_inverse(p: *const u32, p_len: usize, out: *mut u32, out_len: usize) -> u32;
        pub fn chordal_renumber(words: *const u32, words_len: usize, out: *mut u32, out_len: usize) -> u32;
        pub fn chordal_sizes(
            route: u32, n: u32, m: u32,
            p_starts: *const u32, p_starts_len: usize, p_rows: *const u32, p_rows_len: usize,
            p_values: *const f64, p_values_len: usize, q: *const f64, q_len: usize,
            a_starts: *const u32, a_starts_len: usize, a_rows: *const u32, a_rows_len: usize,
            a_values: *const f64, a_values_len: usize, b: *const f64, b_len: usize,
            cones: *const u32, cones_len: usize, alphas: *const f64, alphas_len: usize,
            pattern_count: u32, pattern_words: *const u32, pattern_words_len: usize,
            out: *mut u32, out_len: usize,
        ) -> u32;
        pub fn chordal_cut(
            route: u32, n: u32, m: u32,
            p_starts: *const u32, p_starts_len: usize, p_rows: *const u32, p_rows_len: usize,
            p_values: *const f64, p_values_len: usize, q: *const f64, q_len: usize,
            a_starts: *const u32, a_starts_len: usize, a_rows: *const u32, a_rows_len: usize,
            a_values: *const f64, a_values_len: usize, b: *const f64, b_len: usize,
            cones: *const u32, cones_len: usize, alphas: *const f64, alphas_len: usize,
            pattern_count: u32, pattern_words: *const u32, pattern_words_len: usize,
            p_starts_out: *mut u32, p_starts_out_len: usize, p_rows_out: *mut u32, p_rows_out_len: usize,
            p_values_out: *mut f64, p_values_out_len: usize, q_out: *mut f64, q_out_len: usize,
            a_starts_out: *mut u32, a_starts_out_len: usize, a_rows_out: *mut u32, a_rows_out_len: usize,
            a_values_out: *mut f64, a_values_out_len: usize, b_out: *mut f64, b_out_len: usize,
            cones_out: *mut u32, cones_out_len: usize, alphas_out: *mut f64, alphas_out_len: usize,
            map_out: *mut u32, map_out_len: usize,
        ) -> u32;
        pub fn chordal_join(
            route: u32, n: u32, m: u32,
            cones: *const u32, cones_len: usize,
            pattern_count: u32, pattern_words: *const u32, pattern_words_len: usize,
            x: *const f64, x_len: usize, s: *const f64, s_len: usize, z: *const f64, z_len: usize,
            tau: f64, kappa: f64, map: *const u32, map_len: usize,
            x_out: *mut f64, x_out_len: usize, s_out: *mut f64, s_out_len: usize, z_out: *mut f64, z_out_len: usize,
            scalars_out: *mut f64, scalars_out_len: usize,
        ) -> u32;
        pub fn chordal_change_route(
            n: u32, m: u32,
            cones: *const u32, cones_len: usize,
            pattern_count: u32, pattern_words: *const u32, pattern_words_len: usize,
            x: *const f64, x_len: usize, s: *const f64, s_len: usize, z: *const f64, z_len: usize,
            tau: f64, kappa: f64,
            x_out: *mut f64, x_out_len: usize, s_out: *mut f64, s_out_len: usize, z_out: *mut f64, z_out_len: usize,
            scalars_out: *mut f64, scalars_out_len: usize,
        ) -> u32;
        pub fn chordal_cut_between(
            n: u32, m: u32,
            p_starts: *const u32, p_starts_len: usize, p_rows: *const u32, p_rows_len: usize,
            p_values: *const f64, p_values_len: usize, q: *const f64, q_len: usize,
            a_starts: *const u32, a_starts_len: usize, a_rows: *const u32, a_rows_len: usize,
            a_values: *const f64, a_values_len: usize, low: *const f64, low_len: usize, high: *const f64, high_len: usize,
            cones: *const u32, cones_len: usize, alphas: *const f64, alphas_len: usize,
            pattern_count: u32, pattern_words: *const u32, pattern_words_len: usize,
            p_starts_out: *mut u32, p_starts_out_len: usize, p_rows_out: *mut u32, p_rows_out_len: usize,
            p_values_out: *mut f64, p_values_out_len: usize, q_out: *mut f64, q_out_len: usize,
            a_starts_out: *mut u32, a_starts_out_len: usize, a_rows_out: *mut u32, a_rows_out_len: usize,
            a_values_out: *mut f64, a_values_out_len: usize,
            b_low_out: *mut f64, b_low_out_len: usize, b_high_out: *mut f64, b_high_out_len: usize,
            cones_out: *mut u32, cones_out_len: usize, alphas_out: *mut f64, alphas_out_len: usize,
            map_out: *mut u32, map_out_len: usize,
        ) -> u32;
        pub fn chordal_cut_many(
            count: u32, n: u32, m: u32,
            p_starts: *const u32, p_starts_len: usize, p_rows: *const u32, p_rows_len: usize,
            p_values: *const f64, p_values_len: usize, q: *const f64, q_len: usize,
            a_starts: *const u32, a_starts_len: usize, a_rows: *const u32, a_rows_len: usize,
            a_values: *const f64, a_values_len: usize, b: *const f64, b_len: usize,
            cones: *const u32, cones_len: usize, alphas: *const f64, alphas_len: usize,
            pattern_count: u32, pattern_words: *const u32, pattern_words_len: usize,
            p_starts_out: *mut u32, p_starts_out_len: usize, p_rows_out: *mut u32, p_rows_out_len: usize,
            p_values_out: *mut f64, p_values_out_len: usize, q_out: *mut f64, q_out_len: usize,
            a_starts_out: *mut u32, a_starts_out_len: usize, a_rows_out: *mut u32, a_rows_out_len: usize,
            a_values_out: *mut f64, a_values_out_len: usize, b_out: *mut f64, b_out_len: usize,
            cones_out: *mut u32, cones_out_len: usize, alphas_out: *mut f64, alphas_out_len: usize,
            map_out: *mut u32, map_out_len: usize,
        ) -> u32;
        pub fn chordal_generate_sizes(seed: u64, v: u32, w: u32, n: u32, out: *mut u32, out_len: usize) -> u32;
        pub fn chordal_generate(
            seed: u64, v: u32, w: u32, n: u32,
            p_starts_out: *mut u32, p_starts_out_len: usize, p_rows_out: *mut u32, p_rows_out_len: usize,
            p_values_out: *mut f64, p_values_out_len: usize, q_out: *mut f64, q_out_len: usize,
            a_starts_out: *mut u32, a_starts_out_len: usize, a_rows_out: *mut u32, a_rows_out_len: usize,
            a_values_out: *mut f64, a_values_out_len: usize, b_out: *mut f64, b_out_len: usize,
            cones_out: *mut u32, cones_out_len: usize, alphas_out: *mut f64, alphas_out_len: usize,
            pattern_words_out: *mut u32, pattern_words_out_len: usize,
        ) -> u32;
        pub fn chordal_pool(
            n: u32, m: u32,
            p_starts: *const u32, p_starts_len: usize, p_rows: *const u32, p_rows_len: usize,
            p_values: *const f64, p_values_len: usize, q: *const f64, q_len: usize,
            a_starts: *const u32, a_starts_len: usize, a_rows: *const u32, a_rows_len: usize,
            a_values: *const f64, a_values_len: usize, b: *const f64, b_len: usize,
            cones: *const u32, cones_len: usize, alphas: *const f64, alphas_len: usize,
            pattern_count: u32, pattern_words: *const u32, pattern_words_len: usize,
            n2: u32, m2: u32,
            p_starts2: *const u32, p_starts2_len: usize, p_rows2: *const u32, p_rows2_len: usize,
            p_values2: *const f64, p_values2_len: usize, q2: *const f64, q2_len: usize,
            a_starts2: *const u32, a_starts2_len: usize, a_rows2: *const u32, a_rows2_len: usize,
            a_values2: *const f64, a_values2_len: usize, b2: *const f64, b2_len: usize,
            cones2: *const u32, cones2_len: usize, alphas2: *const f64, alphas2_len: usize,
            pattern_count2: u32, pattern_words2: *const u32, pattern_words2_len: usize,
            p_starts_out: *mut u32, p_starts_out_len: usize, p_rows_out: *mut u32, p_rows_out_len: usize,
            p_values_out: *mut f64, p_values_out_len: usize, q_out: *mut f64, q_out_len: usize,
            a_starts_out: *mut u32, a_starts_out_len: usize, a_rows_out: *mut u32, a_rows_out_len: usize,
            a_values_out: *mut f64, a_values_out_len: usize, b_out: *mut f64, b_out_len: usize,
            cones_out: *mut u32, cones_out_len: usize, alphas_out: *mut f64, alphas_out_len: usize,
            pattern_words_out: *mut u32, pattern_words_out_len: usize,
        ) -> u32;
        pub fn chordal_same_layout(
            n: u32, m: u32,
            p_starts: *const u32, p_starts_len: usize, p_rows: *const u32, p_rows_len: usize,
            p_values: *const f64, p_values_len: usize, q: *const f64, q_len: usize,
            a_starts: *const u32, a_starts_len: usize, a_rows: *const u32, a_rows_len: usize,
            a_values: *const f64, a_values_len: usize, b: *const f64, b_len: usize,
            cones: *const u32, cones_len: usize, alphas: *const f64, alphas_len: usize,
            pattern_count: u32, pattern_words: *const u32, pattern_words_len: usize,
            n2: u32, m2: u32,
            p_starts2: *const u32, p_starts2_len: usize, p_rows2: *const u32, p_rows2_len: usize,
            p_values2: *const f64, p_values2_len: usize, q2: *const f64, q2_len: usize,
            a_starts2: *const u32, a_starts2_len: usize, a_rows2: *const u32, a_rows2_len: usize,
            a_values2: *const f64, a_values2_len: usize, b2: *const f64, b2_len: usize,
            cones2: *const u32, cones2_len: usize, alphas2: *const f64, alphas2_len: usize,
            pattern_count2: u32, pattern_words2: *const u32, pattern_words2_len: usize,
            out: *mut u32, out_len: usize,
        ) -> u32;
    }
}
