// Stand-in for csc/utils.rs: columns counted, filled block by block, and their starts restored.
use crate::algebra::{CscMatrix, MatrixShape};
use num_traits::Num;

impl<T> CscMatrix<T>
where
    T: Num + Copy,
{
    // counts in colptr[0..n] to starts
    pub(crate) fn colcount_to_colptr(&mut self) {
        let mut start = 0;
        for p in self.colptr.iter_mut() {
            let count = *p;
            *p = start;
            start += count;
        }
    }

    // starts to counts in colptr[0..n]
    pub(crate) fn colptr_to_colcount(&mut self) {
        for c in 0..self.n {
            self.colptr[c] = self.colptr[c + 1] - self.colptr[c];
        }
        self.colptr[self.n] = 0;
    }

    // add M's column counts from column `initcol` on
    pub(crate) fn colcount_block(&mut self, M: &CscMatrix<T>, initcol: usize, shape: MatrixShape) {
        match shape {
            MatrixShape::T => {
                for &row in M.rowval.iter() {
                    self.colptr[initcol + row] += 1;
                }
            }
            MatrixShape::N => {
                for c in 0..M.n {
                    self.colptr[initcol + c] += M.colptr[c + 1] - M.colptr[c];
                }
            }
        }
    }

    // write M's entries at (initrow, initcol), moving each column's start past what is written
    pub(crate) fn fill_block(
        &mut self,
        M: &CscMatrix<T>,
        map: &mut [usize],
        initrow: usize,
        initcol: usize,
        shape: MatrixShape,
    ) {
        for c in 0..M.n {
            for k in M.colptr[c]..M.colptr[c + 1] {
                let (row, col) = match shape {
                    MatrixShape::N => (M.rowval[k] + initrow, c + initcol),
                    MatrixShape::T => (c + initrow, M.rowval[k] + initcol),
                };
                let dest = self.colptr[col];
                self.rowval[dest] = row;
                self.nzval[dest] = M.nzval[k];
                self.colptr[col] += 1;
                map[k] = dest;
            }
        }
    }

    // undo the moving of fill_block
    pub(crate) fn backshift_colptrs(&mut self) {
        self.colptr.rotate_right(1);
        self.colptr[0] = 0;
    }
}
