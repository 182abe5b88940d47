//! Document 02's change of route read plainly.

use crate::expected::{self, JoinInput, Layout};
use crate::problem::*;

// the checks of a standard joining up to 10, check 10 of the compact route, and the lengths of x, s, z and the two scalars
fn accepted(j: &JoinInput) -> Result<(Layout, [usize; 4]), u32> {
    expected::joinable(Route::Standard, j)?;
    let layout = expected::joinable(Route::Compact, j)?;
    let rows = layout.block_rows() as usize;
    let lengths = [j.n as usize + layout.overlaps() as usize, rows, rows, 2];
    Ok((layout, lengths))
}

/// Returns the lengths of x, s, z and the two scalars that the call writes.
pub fn lengths(j: &JoinInput) -> Result<[usize; 4], u32> {
    accepted(j).map(|(_, lengths)| lengths)
}

/// Returns a standard solution as a compact one. `rooms` are the output lengths for x, s, z and the two scalars.
pub fn change_route(j: &JoinInput, rooms: Option<&[usize; 4]>) -> Result<Joined, u32> {
    let (layout, lengths) = accepted(j)?;
    if rooms.is_some_and(|rooms| rooms.iter().zip(&lengths).any(|(room, needed)| room < needed)) {
        return Err(11);
    }
    let (n, m, rows, sol) = (j.n as usize, j.m as usize, lengths[1], j.solution);
    if sol.x.len() != n + rows || sol.s.len() != m + rows || sol.z.len() != m + rows {
        return Err(12);
    }
    let mut x = sol.x[..n].to_vec();
    x.resize(lengths[0], 0.0);
    let mut out = Joined { x, s: vec![0.0; rows], z: vec![0.0; rows], tau: sol.tau, kappa: sol.kappa };
    for (at, to) in layout.standard_order().into_iter().enumerate() {
        out.s[to] = sol.s[m + at];
        out.z[to] = sol.z[m + at];
    }
    Ok(out)
}

#[cfg(test)]
mod tests {
    use super::*;
    use crate::expected::join_input;

    fn cone_of_three(pattern_words: Vec<u32>) -> Problem {
        Problem { m: 6, cones: vec![6, 3, 0], pattern_count: 1, pattern_words, ..Problem::default() }
    }

    // document 01's seam: cliques {0, 1} and {1, 2}
    fn seam() -> Problem {
        Problem { n: 1, ..cone_of_three(vec![0, 3, 2, 0, 1, 2, 1, 1, 1, 0, 1, u32::MAX, 2, 0, 1, 2]) }
    }

    // 0, 1, 2, .. from `first` on
    fn rising(first: usize, count: usize) -> Vec<f64> {
        (first..first + count).map(|v| v as f64).collect()
    }

    #[test]
    fn the_seam() {
        let p = seam();
        let solution =
            Solution { x: rising(10, 7), s: rising(20, 12), z: rising(40, 12), tau: 2.0, kappa: 3.0, map: vec![] };
        let changed = change_route(&join_input(&p, &solution), None).unwrap();
        assert_eq!(changed.x, [10.0, 0.0]);
        assert!(changed.x[1].is_sign_positive());
        assert_eq!(changed.s, [29.0, 30.0, 31.0, 26.0, 27.0, 28.0]);
        assert_eq!(changed.z, [49.0, 50.0, 51.0, 46.0, 47.0, 48.0]);
        assert_eq!((changed.tau, changed.kappa), (2.0, 3.0));
    }

    #[test]
    fn refusals_in_order() {
        let p = seam();
        let empty = Solution::default();
        let number = |p: &Problem, rooms| change_route(&join_input(p, &empty), rooms).err();
        assert_eq!(number(&p, Some(&[2, 6, 5, 2])), Some(11));
        assert_eq!(number(&p, Some(&[2, 6, 6, 2])), Some(12));
        assert_eq!(number(&Problem { n: 65_537, ..seam() }, Some(&[0; 4])), Some(1));
        assert_eq!(number(&Problem { m: 7, ..seam() }, Some(&[0; 4])), Some(4));
        // so many overlaps that only the standard route accepts them
        let wide = crate::random::at_limits();
        for (name, standard, change) in [("overlaps 131072, 0 over", 11, 11), ("overlaps 131072, 1 over", 11, 10)] {
            let p = &wide.iter().find(|(n, _)| n == name).unwrap().1;
            assert_eq!(expected::join(Route::Standard, &join_input(p, &empty), Some(&[0; 4])).err(), Some(standard));
            assert_eq!(number(p, Some(&[0; 4])), Some(change), "{name}");
        }
    }

    // three cliques share a vertex: the fewest whose values can round differently in the two orders
    #[test]
    fn rounded_sums_may_differ() {
        let p = cone_of_three(vec![0, 3, 3, 0, 1, 2, 2, 1, 1, 0, 2, 2, 1, 1, 1, 2, u32::MAX, 1, 0, 2]);
        let large = 2f64.powi(53);
        let mut s = vec![0.0; 13];
        (s[8], s[11], s[12]) = (large, 1.0, 1.0);
        let solution = Solution { x: vec![0.0; 7], s, z: vec![0.0; 13], ..Solution::default() };
        let changed = change_route(&join_input(&p, &solution), None).unwrap();
        assert_eq!(changed.s, [1.0, 0.0, 0.0, 1.0, 0.0, 0.0, large]);
        let compact = Solution {
            x: changed.x,
            s: changed.s,
            z: changed.z,
            map: expected::solution_shape(Route::Compact, &p).unwrap().2,
            ..Solution::default()
        };
        let before = expected::join(Route::Standard, &join_input(&p, &solution), None).unwrap().s[5];
        let after = expected::join(Route::Compact, &join_input(&p, &compact), None).unwrap().s[5];
        assert_eq!((before, after), (large, large + 2.0));
        let total = |s: &[f64]| s.iter().map(|&v| v as i128).sum::<i128>();
        assert_eq!(total(&solution.s), total(&compact.s));
    }
}
