// Stand-in for csc/mod.rs.
mod block_concatenate;
mod core;
mod matrix_math;
mod utils;

pub use self::core::*;
