// Stand-in for algebra/mod.rs: the modules that the cut and the joining use, and their shared traits.
mod csc;
pub(crate) mod dense;
mod error_types;
mod floats;
mod matrix_traits;
mod scalarmath;
mod sparsevector;
pub(crate) mod utils;
mod vecmath;

pub(crate) use csc::*;
pub(crate) use error_types::*;
pub(crate) use floats::*;
pub(crate) use matrix_traits::*;
pub(crate) use scalarmath::*;
pub(crate) use sparsevector::*;
pub(crate) use utils::*;
pub(crate) use vecmath::*;

// implemented in scalarmath.rs
pub(crate) trait ScalarMath {
    fn clip(&self, min_thresh: Self, max_thresh: Self) -> Self;
    fn logsafe(&self) -> Self;
}
