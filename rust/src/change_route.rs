use crate::{flat, Problem, Refusal, Solution};

// more augmented rows or overlaps are refused whatever the outputs' lengths
const MOST_ROWS: usize = 262_144;
const MOST_OVERLAPS: usize = 131_072;

fn triangle(side: usize) -> usize {
    side.saturating_mul(side.saturating_add(1)) / 2
}

// returns the number of rows of all blocks and whole cones, and how many of them are overlaps, for patterns that pass the checks
fn counts(problem: &Problem) -> (usize, usize) {
    let cones = problem.cones.iter().enumerate().map(|(i, cone)| {
        match problem.patterns.iter().find(|p| p.orig_index as usize == i) {
            None => cone.nvars(),
            Some(p) => {
                p.cliques.iter().map(|c| triangle(c.snode.len() + c.separator.len())).fold(0, usize::saturating_add)
            }
        }
    });
    let cliques = problem.patterns.iter().flat_map(|p| &p.cliques);
    let rows = cones.fold(0, usize::saturating_add);
    let overlaps = cliques.map(|c| triangle(c.separator.len())).fold(0, usize::saturating_add);
    (rows.min(MOST_ROWS), overlaps.min(MOST_OVERLAPS))
}

/// Returns a solution of the standard cut as one of the compact cut of the same problem, of which only n, m, the cones and
/// the patterns are read, so that a fit that began on the standard route can continue on the compact one.
///
/// The first n unknowns are copied and the added ones are +0.0. Each clique's slacks and dual values, and those of whole
/// cones, move bit for bit to their compact rows. τ and κ are copied. The exact total of the slacks at each original row
/// stays the same; what [`join`](crate::join) rounds it to may differ, as it adds the cliques in the opposite order.
///
/// ```
/// use tejiwakpa::{change_route, Problem, Solution};
///
/// // six rows of the zero cone come first, then cliques from first to last
/// let mut s = vec![0.0; 6];
/// s.extend([1.0, 2.0, 7.0, 3.0, 4.0, 5.0]);
/// let solution = Solution { x: vec![0.5; 7], s: s.clone(), z: s, tau: 2.0, kappa: 0.25 };
/// let compact = change_route(&Problem::three_projectors(), &solution)?;
/// assert_eq!(compact.x, [0.5, 0.0]);
/// assert_eq!(compact.s, [3.0, 4.0, 5.0, 1.0, 2.0, 7.0]);
/// assert_eq!((compact.tau, compact.kappa), (2.0, 0.25));
/// # Ok::<(), tejiwakpa::Refusal>(())
/// ```
pub fn change_route(problem: &Problem, solution: &Solution) -> Result<Solution, Refusal> {
    let words = problem.words();
    let joining = flat::Joining {
        n: problem.n,
        m: problem.m,
        cones: &words.cones,
        pattern_count: words.pattern_count,
        pattern_words: &words.pattern_words,
        x: &solution.x,
        s: &solution.s,
        z: &solution.z,
        tau: solution.tau,
        kappa: solution.kappa,
        map: &[],
    };
    let (rows, overlaps) = counts(problem);
    let (mut x, mut s, mut z) =
        (vec![0.0; problem.n.min(65_536) as usize + overlaps], vec![0.0; rows], vec![0.0; rows]);
    let mut scalars = [0.0; 2];
    let mut out = flat::JoinOutputs { x: &mut x, s: &mut s, z: &mut z, scalars: &mut scalars };
    flat::change_route(&joining, &mut out)?;
    Ok(Solution { x, s, z, tau: scalars[0], kappa: scalars[1] })
}
