// Stand-in for psd_completion.rs: the dual completion is off, so this is never run.
use crate::algebra::FloatT;
use crate::solver::chordal::ChordalInfo;
use crate::solver::DefaultVariables;

impl<T: FloatT> ChordalInfo<T> {
    pub(crate) fn psd_completion(&self, _variables: &mut DefaultVariables<T>) {
        panic!("the dual completion is no part of the reference")
    }
}
