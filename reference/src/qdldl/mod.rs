// Stand-in for the crate's qdldl: the two permutations, and a factorisation that is named but never run,
// since patterns are given and not searched for.
use crate::algebra::CscMatrix;
use std::iter::zip;

pub(crate) fn permute<T: Copy>(x: &mut [T], b: &[T], p: &[usize]) {
    zip(p, x).for_each(|(p, x)| *x = b[*p]);
}

pub(crate) fn ipermute<T: Copy>(x: &mut [T], b: &[T], p: &[usize]) {
    zip(p, b).for_each(|(p, b)| x[*p] = *b);
}

#[derive(Default)]
pub(crate) struct QDLDLSettingsBuilder;

#[derive(Debug)]
pub(crate) struct QDLDLSettings;

impl QDLDLSettingsBuilder {
    pub(crate) fn logical(&mut self, _on: bool) -> &mut Self {
        self
    }
    pub(crate) fn build(&self) -> Result<QDLDLSettings, ()> {
        Ok(QDLDLSettings)
    }
}

#[derive(Debug)]
pub(crate) struct QDLDLFactorisation<T> {
    pub L: CscMatrix<T>,
    pub perm: Vec<usize>,
}

impl<T> QDLDLFactorisation<T> {
    pub(crate) fn new(_A: &CscMatrix<T>, _opts: Option<QDLDLSettings>) -> Result<Self, ()> {
        panic!("the clique search is no part of the reference")
    }
}
