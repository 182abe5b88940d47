use crate::{cone, flat, pattern, Columns, Problem, Refusal};

/// Pools two passes over one dome, which share their unknowns: A over A, b over b, cones and patterns one after the other; P and
/// q are the first's. The second's patterns name their cones by their new indices.
///
/// Where the compact route accepts both passes and the pool, the pool's cut has the first's rows above the second's, the
/// first's overlap columns before the second's, and in its map the second's entries follow the first's.
///
/// ```
/// use tejiwakpa::{pool, Cone, Problem, Refusal};
///
/// let first = Problem::three_projectors();
/// let mut second = first.clone();
/// second.b[0] = 1.5;
/// let pooled = pool(&first, &second)?;
/// assert_eq!((pooled.n, pooled.m), (1, 12));
/// assert_eq!(pooled.cones, [Cone::PsdTriangle(3), Cone::PsdTriangle(3)]);
/// assert_eq!(pooled.patterns[1].orig_index, 1);
/// assert_eq!(pooled.b[6..], second.b);
///
/// let other = Problem { n: 0, ..Problem::default() };
/// assert_eq!(pool(&first, &other), Err(Refusal::Starts));
/// # Ok::<(), Refusal>(())
/// ```
pub fn pool(first: &Problem, second: &Problem) -> Result<Problem, Refusal> {
    let [words, words2] = [first, second].map(Problem::words);
    let (a, b) = (first.tables(&words), second.tables(&words2));
    let mut p = Columns {
        starts: vec![0; a.p_starts.len()],
        rows: vec![0; a.p_rows.len()],
        values: vec![0.0; a.p_values.len()],
    };
    let mut q = vec![0.0; a.q.len()];
    let mut stacked = Columns {
        starts: vec![0; a.a_starts.len()],
        rows: vec![0; a.a_rows.len() + b.a_rows.len()],
        values: vec![0.0; a.a_values.len() + b.a_values.len()],
    };
    let mut right = vec![0.0; a.b.len() + b.b.len()];
    let mut cones = vec![0; a.cones.len() + b.cones.len()];
    let mut alphas = vec![0.0; a.alphas.len() + b.alphas.len()];
    let mut pattern_words = vec![0; a.pattern_words.len() + b.pattern_words.len()];
    let mut out = flat::TableOutputs {
        p_starts: &mut p.starts,
        p_rows: &mut p.rows,
        p_values: &mut p.values,
        q: &mut q,
        a_starts: &mut stacked.starts,
        a_rows: &mut stacked.rows,
        a_values: &mut stacked.values,
        b: &mut right,
        cones: &mut cones,
        alphas: &mut alphas,
        pattern_words: &mut pattern_words,
    };
    flat::pool(&a, &b, &mut out)?;
    Ok(Problem {
        n: first.n,
        m: first.m + second.m,
        p,
        q,
        a: stacked,
        b: right,
        cones: cone::read(&cones, &alphas),
        patterns: pattern::read_all(&pattern_words),
    })
}
