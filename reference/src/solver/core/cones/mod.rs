// Stand-in for solver/core/cones/mod.rs: the cones as they are given; the solver's own cones are no part.
use crate::algebra::FloatT;

mod supportedcone;

pub(crate) use supportedcone::*;
