//! The chordal cut and join of semidefinite problems, proved.
//!
//! A solver cuts a large matrix cone into the cliques of its sparsity pattern before the solve, and joins the solution
//! again afterwards. [`cut`] and [`join`] do that; all calls are:
//!
//! | call | what it gives |
//! |---|---|
//! | [`pair_index`], [`pair_back`] | the index of a pair in a packed upper triangle, and back |
//! | [`inverse`] | the inverse of a permutation |
//! | [`renumber`] | a pattern with its vertices numbered clique by clique |
//! | [`sizes`] | how large the augmented problem is |
//! | [`cut`] | the augmented problem on a [`Route`] |
//! | [`join`] | the original problem's solution from the augmented problem's |
//! | [`cut_between`] | the compact cut where b is known only within [`Limits`] |
//! | [`cut_many`] | the compact cut for many right hand sides at once |
//! | [`pool`] | one problem from two passes that share their unknowns |
//! | [`change_route`] | a compact solution from a standard one |
//! | [`generate`] | a problem that any site can make again |
//! | [`Problem::from_file_bytes`], [`Problem::to_file_bytes`] | a problem file read and written, for other tools |
//! | [`same_layout`] | whether a symbolic result computed for one problem can be reused for another |
//!
//! Besides the calls, written in Rust alone: [`original_residual`] is what to watch after a joining, [`covers`] and [`cut_covered`]
//! test whether the patterns cover the problem, and [`fault`] says where a refused problem is wrong. [`contract`] says what the
//! tables mean, in full.
//!
//! The code behind the calls is proved: on any input a call returns its full result or one [`Refusal`].
//! Each needs less than 2 MB of stack, the default of a Rust thread, and calls on several threads do not affect each other.
//! [`flat`] has the same calls over slices that the caller passes.
//!
//! ```
//! use tejiwakpa::{cut, join, Clique, Columns, Cone, Pattern, Problem, Refusal, Route, Solution};
//!
//! fn main() -> Result<(), Refusal> {
//!     // a PSD cone of dimension 3 whose entry (0, 2) is free: cliques {0, 1} and {1, 2}
//!     let problem = Problem {
//!         n: 1,
//!         m: 6,
//!         p: Columns::empty(1),
//!         q: vec![0.0],
//!         a: Columns { starts: vec![0, 5], rows: vec![0, 1, 2, 4, 5], values: vec![10.0, 20.0, 30.0, 40.0, 50.0] },
//!         b: vec![1.0, 2.0, 3.0, 0.0, 4.0, 5.0],
//!         cones: vec![Cone::PsdTriangle(3)],
//!         patterns: vec![Pattern {
//!             orig_index: 0,
//!             ordering: vec![0, 1, 2],
//!             cliques: vec![
//!                 Clique { parent: Some(1), snode: vec![0], separator: vec![1] },
//!                 Clique { parent: None, snode: vec![1, 2], separator: vec![] },
//!             ],
//!         }],
//!     };
//!
//!     let augmented = cut(Route::Compact, &problem)?;
//!     assert_eq!(augmented.problem.b, [3.0, 4.0, 5.0, 1.0, 2.0, 0.0]);
//!
//!     // here the solver solves augmented.problem
//!     let s = augmented.problem.b.clone();
//!     let solution = Solution { x: vec![0.0; 2], s, z: vec![0.0; 6], tau: 1.0, kappa: 0.0 };
//!
//!     let joined = join(Route::Compact, &problem, &augmented.map, &solution)?;
//!     assert_eq!(joined.s, problem.b);
//!     Ok(())
//! }
//! ```
#![deny(missing_docs, unsafe_op_in_unsafe_fn)]

mod calls;
mod change_route;
mod cone;
pub mod contract;
mod diagnosis;
mod file;
pub mod flat;
mod generate;
mod pattern;
mod pool;
mod problem;
mod refusal;
mod sides;
mod solution;
mod watch;

pub use calls::{cut, inverse, join, pair_back, pair_index, renumber, same_layout, sizes, Sizes};
pub use change_route::change_route;
pub use cone::Cone;
pub use diagnosis::{fault, Fault};
pub use generate::generate;
pub use pattern::{Clique, Pattern};
pub use pool::pool;
pub use problem::{Columns, Problem, Route, Words};
pub use refusal::Refusal;
pub use sides::{cut_between, cut_many, Limits};
pub use solution::{Augmented, ConeMapEntry, Solution};
pub use watch::{covers, cut_covered, original_residual};

// A length as a u32. One that does not fit becomes the largest u32, which exceeds every bound.
fn count(length: usize) -> u32 {
    u32::try_from(length).unwrap_or(u32::MAX)
}
