// Stand-in for solver/core/mod.rs.
pub(crate) mod cones;
mod settings;

pub(crate) use settings::*;
