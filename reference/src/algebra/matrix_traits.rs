// Stand-in for the matrix types and traits that csc/core.rs and the decomp files name.
use super::MatrixConcatenationError;

#[derive(PartialEq, Eq, Copy, Clone, Debug)]
pub enum MatrixShape {
    N,
    T,
}

#[derive(PartialEq, Eq, Copy, Clone, Debug)]
pub enum MatrixTriangle {
    Triu,
    Tril,
}

pub struct Adjoint<'a, M> {
    pub src: &'a M,
}

pub struct Symmetric<'a, M> {
    pub src: &'a M,
    pub uplo: MatrixTriangle,
}

pub trait ShapedMatrix {
    fn nrows(&self) -> usize;
    fn ncols(&self) -> usize;
    fn size(&self) -> (usize, usize);
    fn shape(&self) -> MatrixShape;
    fn is_square(&self) -> bool;
}

pub(crate) trait TriangularMatrixChecks {
    fn is_triu(&self) -> bool;
    fn is_tril(&self) -> bool;
}

impl<M: TriangularMatrixChecks> Symmetric<'_, M> {
    pub(crate) fn is_triu_src(&self) -> bool {
        self.src.is_triu()
    }
    pub(crate) fn is_tril_src(&self) -> bool {
        self.src.is_tril()
    }
}

pub(crate) trait BlockConcatenate: Sized {
    fn hvcat(mats: &[&[&Self]]) -> Result<Self, MatrixConcatenationError>;
    fn blockdiag(mats: &[&Self]) -> Result<Self, MatrixConcatenationError>;
}

pub(crate) trait MatrixVectorMultiply<T> {
    // y = a * M * x + b * y
    fn gemv(&self, y: &mut [T], x: &[T], a: T, b: T);
}

pub(crate) trait MatrixMath<T> {
    fn row_sums(&self, sums: &mut [T]);
}

pub(crate) trait MatrixMathMut<T> {
    fn negate(&mut self);
}
