//! What the tables mean, in full, for callers who have no other document: each sentence with an example. This module has no items.
//!
//! **The problem** is ½ xᵀPx + qᵀx with Ax + s = b and s in the cones. P is passed on as it is, whole or upper triangle, whichever
//! the solver reads. The rows of a PSD cone are the upper triangle of its matrix column by column: (0,0), (0,1), (1,1), (0,2), …
//! Values of A and b are only moved, never scaled: a factor that a solver has off the diagonal (clarabel has √2) is in the blocks
//! too.
//!
//! **Members of cliques are places in the ordering**, and not rows of the matrix: `ordering[v]` is the matrix row of vertex v. A
//! clique's block is the PSD cone of its members' rows, sorted.
//!
//! ```
//! use tejiwakpa::{cut, Clique, Pattern, Problem, Route};
//!
//! // three projectors, cut into the rows {0, 1} and {1, 2} of the matrix, under the orderings 0 1 2 and 2 0 1
//! let problem = Problem::three_projectors();
//! let mut turned = problem.clone();
//! turned.patterns = vec![Pattern {
//!     orig_index: 0,
//!     ordering: vec![2, 0, 1],
//!     cliques: vec![
//!         Clique { parent: Some(1), snode: vec![1], separator: vec![2] },
//!         Clique { parent: None, snode: vec![2, 0], separator: vec![] },
//!     ],
//! }];
//! assert_eq!(cut(Route::Compact, &turned)?, cut(Route::Compact, &problem)?);
//! # Ok::<(), tejiwakpa::Refusal>(())
//! ```
//!
//! **The order of blocks.** Standard: the zero cone of all m original rows, then the cones in order, a cut one as its cliques from
//! first to last; A becomes A beside H over 0 beside −I, where column k of H has a 1 in the original row of entry k. Compact: the
//! cones in order, a cut one as its cliques from last to first; a row moves to the block of the clique that owns its pair, and a
//! pair with both members in the separator is an overlap, a new unknown with +1 in its own row and −1 in the row of the same pair in
//! the parent's block. Both extend P by empty columns and q by +0.0.
//!
//! ```
//! use tejiwakpa::{cut, Columns, Cone, Problem, Route};
//!
//! let mut problem = Problem::three_projectors();
//! // whole; its upper triangle alone would be passed on as well
//! problem.p = Columns { starts: vec![0, 1], rows: vec![0], values: vec![7.0] };
//! // a factor off the diagonal
//! problem.b = vec![1.0, 2.0 * 1.4, 3.0, 0.0, 4.0 * 1.4, 5.0];
//! let standard = cut(Route::Standard, &problem)?.problem;
//! assert_eq!(standard.cones[0], Cone::Zero(6));
//! let h: Vec<u32> = (1..7).map(|column| standard.a.column(column).next().unwrap().0).collect();
//! assert_eq!(h, [0, 1, 2, 2, 4, 5]);
//!
//! let compact = cut(Route::Compact, &problem)?;
//! assert_eq!(compact.map.iter().map(|e| e.tree_and_clique).collect::<Vec<_>>(), [Some((0, 1)), Some((0, 0))]);
//! assert_eq!(compact.problem.b, [3.0, 4.0 * 1.4, 5.0, 1.0, 2.0 * 1.4, 0.0]);
//! assert_eq!((compact.problem.p.values, compact.problem.p.starts), (vec![7.0], vec![0, 1, 1]));
//! # Ok::<(), tejiwakpa::Refusal>(())
//! ```
//!
//! **The patterns must cover A and b.** The compact route refuses a problem where they do not; a stored 0.0 of A counts as an entry,
//! a b of 0.0 or −0.0 does not. The standard route accepts such a problem: an uncovered row has no slack there, the fit is another,
//! stricter one, and no residual shows it. [`covers`](crate::covers) tells, and [`cut_covered`](crate::cut_covered) refuses on either
//! route.
//!
//! ```
//! use tejiwakpa::{covers, cut, Problem, Route};
//!
//! let mut problem = Problem::three_projectors();
//! problem.b[3] = -0.0;
//! assert_eq!(covers(&problem), Ok(true));
//! problem.a.starts[1] += 1;
//! problem.a.rows.insert(3, 3);
//! problem.a.values.insert(3, 0.0);
//! assert_eq!(covers(&problem), Ok(false));
//! assert!(cut(Route::Standard, &problem).is_ok());
//! ```
//!
//! **A joining** copies the first n of x and adds the blocks of s. Its z in a cut cone is, on the compact route, the value of the block
//! walked last, that of the first clique that has the row, on the standard route the mean of the blocks, and 0 in a row that no clique
//! covers: entries of a matrix that the caller completes, not yet a PSD matrix. τ and κ are not read and are returned as 1: a caller with
//! a homogeneous embedding divides x, s and z by τ first. What to watch after it is [`original_residual`](crate::original_residual).
//!
//! ```
//! use tejiwakpa::{cut, join, Problem, Route, Solution};
//!
//! let problem = Problem::three_projectors();
//! let map = cut(Route::Compact, &problem)?.map;
//! // z of both blocks is the matrix of ones, which is PSD
//! let solution = Solution { x: vec![0.5, 0.0], s: vec![2.0; 6], z: vec![1.0; 6], tau: 2.0, kappa: 0.5 };
//! let joined = join(Route::Compact, &problem, &map, &solution)?;
//! assert_eq!((joined.tau, joined.kappa, joined.s[2]), (1.0, 1.0, 4.0));
//! // the joined z has a negative determinant
//! let z = joined.z;
//! assert_eq!(z, [1.0, 1.0, 1.0, 0.0, 1.0, 1.0]);
//! assert!(z[0] * (z[2] * z[5] - z[4] * z[4]) - z[1] * z[1] * z[5] < 0.0);
//! # Ok::<(), tejiwakpa::Refusal>(())
//! ```
