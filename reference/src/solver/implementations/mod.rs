// Stand-in for solver/implementations/mod.rs.
pub(crate) mod default;
