use crate::calls::{sizes_of, Buffers};
use crate::{count, flat, Augmented, Problem, Refusal, Route};

/// A low and a high limit for each value of b, as a survey sheet gives them.
///
/// ```
/// use tejiwakpa::Limits;
///
/// // known to a hundredth
/// let b = [1.0, 2.0];
/// let limits = Limits { low: b.map(|v| v - 0.01).into(), high: b.map(|v| v + 0.01).into() };
/// assert!(limits.hold(&b));
/// assert!(!limits.hold(&[1.0, 2.1]));
/// ```
#[derive(Clone, Debug, Default, PartialEq)]
pub struct Limits {
    /// The lowest value of each row.
    pub low: Vec<f64>,
    /// The highest value of each row.
    pub high: Vec<f64>,
}

impl Limits {
    /// Returns whether a right hand side has as many values as there are limits, each between its limits.
    ///
    /// ```
    /// use tejiwakpa::Limits;
    ///
    /// let limits = Limits { low: vec![0.0], high: vec![f64::INFINITY] };
    /// assert!(limits.hold(&[-0.0]) && limits.hold(&[1e300]));
    /// assert!(!limits.hold(&[f64::NAN]) && !limits.hold(&[]));
    /// ```
    pub fn hold(&self, b: &[f64]) -> bool {
        let within = |((low, v), high): ((&f64, &f64), &f64)| low <= v && v <= high;
        let lengths = [self.low.len(), self.high.len()];
        lengths == [b.len(); 2] && self.low.iter().zip(b).zip(&self.high).all(within)
    }
}

/// Cuts a problem on the compact route whose b is known only within limits; its own b is not read. Returns the augmented
/// problem, with the augmented low limits as its b, and the augmented limits.
///
/// Every b between the limits is augmented into something between the results, and every vector between the results is,
/// as numbers, the augmentation of exactly one such b. Zeros of either sign are one number, infinities are allowed. In a
/// row that no clique covers both limits must be zero.
///
/// ```
/// use tejiwakpa::{cut_between, Limits, Problem, Refusal};
///
/// let problem = Problem::three_projectors();
/// let mut limits =
///     Limits { low: vec![0.5, 1.5, 2.5, 0.0, 3.5, 4.5], high: vec![1.5, 2.5, 3.5, 0.0, 4.5, f64::INFINITY] };
/// let (augmented, between) = cut_between(&problem, &limits)?;
/// assert_eq!(between.low, [2.5, 3.5, 4.5, 0.5, 1.5, 0.0]);
/// assert_eq!(between.high, [3.5, 4.5, f64::INFINITY, 1.5, 2.5, 0.0]);
/// assert_eq!(augmented.problem.b, between.low);
///
/// limits.low[0] = 2.0;
/// assert_eq!(cut_between(&problem, &limits), Err(Refusal::Limits));
/// # Ok::<(), Refusal>(())
/// ```
pub fn cut_between(problem: &Problem, limits: &Limits) -> Result<(Augmented, Limits), Refusal> {
    let words = problem.words();
    let tables = problem.tables(&words);
    // where sizes refuses the low limits, the call refuses too, with the number that its own order gives
    let sizes = sizes_of(Route::Compact, &flat::Tables { b: &limits.low, ..tables }).unwrap_or_default();
    let mut made = Buffers::new(&sizes);
    let mut high = vec![0.0; sizes.b];
    let mut out = flat::BetweenOutputs::of(made.outputs(), &mut high);
    flat::cut_between(&tables, &limits.low, &limits.high, &mut out)?;
    let augmented = made.augmented();
    let low = augmented.problem.b.clone();
    Ok((augmented, Limits { low, high }))
}

/// The largest number of right hand sides that [`cut_many`] accepts.
const SIDES: usize = 64;

/// Cuts one problem on the compact route with 1 to 64 right hand sides; its own b is not read. Returns the augmented problem,
/// with the first side's b, and each side's augmented b in turn. Each is what [`cut`](crate::cut) gives for that side alone.
/// If a side would be refused, the call is refused, with the number of the first such side.
///
/// ```
/// use tejiwakpa::{cut_many, Problem, Refusal};
///
/// // one marker set under two exposures
/// let problem = Problem::three_projectors();
/// let mut exposures = [vec![1.0, 2.0, 3.0, 0.0, 4.0, 5.0], vec![1.5, 2.5, 3.5, 0.0, 4.5, 5.5]];
/// let (augmented, sides) = cut_many(&problem, &exposures)?;
/// assert_eq!(sides, [[3.0, 4.0, 5.0, 1.0, 2.0, 0.0], [3.5, 4.5, 5.5, 1.5, 2.5, 0.0]]);
/// assert_eq!(augmented.problem.b, sides[0]);
///
/// exposures[1][3] = 1.0;
/// assert_eq!(cut_many(&problem, &exposures), Err(Refusal::Uncovered));
/// assert_eq!(cut_many(&problem, &[]), Err(Refusal::Bound));
/// # Ok::<(), Refusal>(())
/// ```
pub fn cut_many(problem: &Problem, sides: &[Vec<f64>]) -> Result<(Augmented, Vec<Vec<f64>>), Refusal> {
    let words = problem.words();
    let tables = problem.tables(&words);
    let first = sides.first().map_or(&[][..], Vec::as_slice);
    // where sizes refuses the first side, the call refuses too, with the number that its own order gives
    let mut sizes = sizes_of(Route::Compact, &flat::Tables { b: first, ..tables }).unwrap_or_default();
    let rows = sizes.b;
    sizes.b *= sides.len().min(SIDES);
    let mut list: Vec<f64> = sides.iter().take(SIDES).flatten().copied().collect();
    if sides.iter().any(|side| side.len() != problem.m as usize) && list.len() == sides.len() * problem.m as usize {
        // sides of wrong lengths whose total is right are refused all the same
        list.push(0.0);
    }
    let mut made = Buffers::new(&sizes);
    flat::cut_many(count(sides.len()), &flat::Tables { b: &list, ..tables }, &mut made.outputs())?;
    let all = made.b.clone();
    made.b.truncate(rows);
    // where there are no rows each side is empty
    let each = (0..sides.len()).map(|k| all[k * rows..(k + 1) * rows].to_vec());
    Ok((made.augmented(), each.collect()))
}
