// Stand-in for solver/mod.rs.
pub(crate) mod chordal;
pub(crate) mod core;
pub(crate) mod implementations;

pub(crate) use self::core::cones::SupportedConeT;
pub(crate) use self::core::CoreSettings;
pub(crate) use implementations::default::{DefaultSettings, DefaultVariables};
