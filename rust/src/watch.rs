use crate::{cut, sizes, Augmented, Problem, Refusal, Route, Solution};

/// Returns the largest |Ax + s − b| of a joined solution in the original problem's rows, or a NaN if one of them is a NaN:
/// what a site should watch after each joining.
///
/// A solver's own residuals are those of the augmented equations. If one of these equations were wrong, an overlap tied to
/// another row, the solver's residuals would still vanish; this one would not.
///
/// # Panics
///
/// If the problem is not one that a cut accepts, or the solution's lengths are not the problem's.
///
/// ```
/// use tejiwakpa::{cut, join, original_residual, Problem, Route, Solution};
///
/// let problem = Problem::three_projectors();
/// let mut augmented = cut(Route::Compact, &problem)?;
/// // slacks that meet the augmented equations at these unknowns
/// let solved = |augmented: &Problem| {
///     let x = vec![0.5, 2.0];
///     let mut s = augmented.b.clone();
///     for (column, x) in x.iter().enumerate() {
///         augmented.a.column(column).for_each(|(row, value)| s[row as usize] -= value * x);
///     }
///     Solution { x, s, z: vec![0.0; 6], tau: 1.0, kappa: 0.0 }
/// };
/// let joined = join(Route::Compact, &problem, &augmented.map, &solved(&augmented.problem))?;
/// assert_eq!(original_residual(&problem, &joined), 0.0);
///
/// // the overlap tied to row 1 instead of row 0: these equations can be solved too, and describe another sky
/// augmented.problem.a.rows[5] = 1;
/// let joined = join(Route::Compact, &problem, &augmented.map, &solved(&augmented.problem))?;
/// assert_eq!(original_residual(&problem, &joined), 2.0);
/// # Ok::<(), tejiwakpa::Refusal>(())
/// ```
pub fn original_residual(problem: &Problem, solution: &Solution) -> f64 {
    let mut rows: Vec<f64> = solution.s.iter().zip(&problem.b).map(|(s, b)| s - b).collect();
    for column in 0..problem.n as usize {
        problem.a.column(column).for_each(|(row, value)| rows[row as usize] += value * solution.x[column]);
    }
    // a NaN is kept
    rows.iter().fold(0.0, |most: f64, row| if row.abs() > most || row.is_nan() { row.abs() } else { most })
}

/// Returns whether the patterns cover A and b: no stored entry of A, and no nonzero b, is in a row of a cut cone that no
/// clique covers. Returns a refusal if the problem is refused for another reason.
///
/// The standard route accepts a problem whose patterns do not cover it. The fit is then another, stricter problem, in which
/// those rows have no slack, and no residual shows it; the compact route refuses it as [`Refusal::Uncovered`].
///
/// ```
/// use tejiwakpa::{covers, cut, Problem, Refusal, Route};
///
/// let mut problem = Problem::three_projectors();
/// assert_eq!(covers(&problem), Ok(true));
/// problem.b[3] = 1.0;
/// assert_eq!(covers(&problem), Ok(false));
/// assert!(cut(Route::Standard, &problem).is_ok());
/// problem.a.rows[0] = 6;
/// assert_eq!(covers(&problem), Err(Refusal::Rows));
/// ```
pub fn covers(problem: &Problem) -> Result<bool, Refusal> {
    match sizes(Route::Compact, problem) {
        // check 9 comes before 10, so a problem that is refused as too large is covered
        Ok(_) | Err(Refusal::TooLarge) => Ok(true),
        Err(Refusal::Uncovered) => Ok(false),
        Err(refusal) => Err(refusal),
    }
}

/// Cuts a problem whose patterns cover A and b; where they do not, it is refused as [`Refusal::Uncovered`] on either route.
///
/// ```
/// use tejiwakpa::{cut, cut_covered, Problem, Refusal, Route};
///
/// let mut problem = Problem::three_projectors();
/// assert_eq!(cut_covered(Route::Standard, &problem), cut(Route::Standard, &problem));
/// problem.b[3] = 1.0;
/// assert_eq!(cut_covered(Route::Standard, &problem), Err(Refusal::Uncovered));
/// ```
pub fn cut_covered(route: Route, problem: &Problem) -> Result<Augmented, Refusal> {
    match covers(problem)? {
        true => cut(route, problem),
        false => Err(Refusal::Uncovered),
    }
}
