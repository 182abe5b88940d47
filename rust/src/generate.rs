use crate::{cone, flat, pattern, Columns, Problem, Refusal};

/// Generates a problem that any site can make again, as a test load: from a seed that is not 0, a vertex count `v` of 2 to
/// 64, a band `w` with 1 ≤ w < v, and `n` of 1 to 64 columns.
///
/// Its only cone is PSD of dimension `v`. Its ordering, the entries of A in the rows that the cliques cover, and b are
/// drawn from the seed; the values are whole numbers from −100 to 100. Both routes accept it.
///
/// ```
/// use tejiwakpa::{cut, generate, Cone, Refusal, Route};
///
/// let problem = generate(1, 3, 1, 1)?;
/// assert_eq!(problem.cones, [Cone::PsdTriangle(3)]);
/// assert_eq!(problem.patterns[0].cliques.len(), 2);
/// for route in [Route::Standard, Route::Compact] {
///     assert!(cut(route, &problem).is_ok());
/// }
///
/// assert_eq!(generate(0, 3, 1, 1), Err(Refusal::Ranges));
/// assert_eq!(generate(1, 3, 3, 1), Err(Refusal::Ranges));
/// # Ok::<(), Refusal>(())
/// ```
pub fn generate(seed: u64, v: u32, w: u32, n: u32) -> Result<Problem, Refusal> {
    let mut lengths = [0; 11];
    flat::generate_sizes(seed, v, w, n, &mut lengths)?;
    let lengths = lengths.map(|length| length as usize);
    let columns = |starts: usize, rows: usize, values: usize| Columns {
        starts: vec![0; starts],
        rows: vec![0; rows],
        values: vec![0.0; values],
    };
    let mut p = columns(lengths[0], lengths[1], lengths[2]);
    let mut q = vec![0.0; lengths[3]];
    let mut a = columns(lengths[4], lengths[5], lengths[6]);
    let mut b = vec![0.0; lengths[7]];
    let mut cones = vec![0; lengths[8]];
    let mut alphas = vec![0.0; lengths[9]];
    let mut pattern_words = vec![0; lengths[10]];
    let mut out = flat::TableOutputs {
        p_starts: &mut p.starts,
        p_rows: &mut p.rows,
        p_values: &mut p.values,
        q: &mut q,
        a_starts: &mut a.starts,
        a_rows: &mut a.rows,
        a_values: &mut a.values,
        b: &mut b,
        cones: &mut cones,
        alphas: &mut alphas,
        pattern_words: &mut pattern_words,
    };
    flat::generate(seed, v, w, n, &mut out)?;
    let m = v * (v + 1) / 2;
    Ok(Problem { n, m, p, q, a, b, cones: cone::read(&cones, &alphas), patterns: pattern::read_all(&pattern_words) })
}
