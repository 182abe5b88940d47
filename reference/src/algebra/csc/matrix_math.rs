// Stand-in for csc/matrix_math.rs: the product, the row sums and the sign change that the standard route calls.
use crate::algebra::*;
use std::iter::zip;

impl<T: FloatT> MatrixVectorMultiply<T> for CscMatrix<T> {
    // column by column, each entry times its column's x added to its row
    fn gemv(&self, y: &mut [T], x: &[T], a: T, b: T) {
        if b == T::zero() {
            y.fill(T::zero());
        } else if b != T::one() {
            y.iter_mut().for_each(|v| *v *= b);
        }
        if a == T::zero() {
            return;
        }
        assert_eq!(x.len(), self.n);
        assert_eq!(y.len(), self.m);
        if a == T::one() {
            for (c, &xc) in x.iter().enumerate() {
                for k in self.colptr[c]..self.colptr[c + 1] {
                    y[self.rowval[k]] += self.nzval[k] * xc;
                }
            }
        } else {
            for (c, &xc) in x.iter().enumerate() {
                for k in self.colptr[c]..self.colptr[c + 1] {
                    y[self.rowval[k]] += a * self.nzval[k] * xc;
                }
            }
        }
    }
}

impl<T: FloatT> MatrixMath<T> for CscMatrix<T> {
    fn row_sums(&self, sums: &mut [T]) {
        assert_eq!(self.m, sums.len());
        sums.fill(T::zero());
        for (&row, &val) in zip(&self.rowval, &self.nzval) {
            sums[row] += val;
        }
    }
}

impl<T: FloatT> MatrixMathMut<T> for CscMatrix<T> {
    fn negate(&mut self) {
        VectorMath::negate(&mut self.nzval[..]);
    }
}
