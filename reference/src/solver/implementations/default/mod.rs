// Stand-in for solver/implementations/default/mod.rs: the three settings that the cut and the joining read.
use std::marker::PhantomData;

mod variables;

pub(crate) use variables::*;

pub struct DefaultSettings<T> {
    pub chordal_decomposition_merge_method: String,
    pub chordal_decomposition_compact: bool,
    pub chordal_decomposition_complete_dual: bool,
    pub phantom: PhantomData<T>,
}
