// Stand-in for csc/block_concatenate.rs: the two joins of blocks that the cut calls.
use crate::algebra::{BlockConcatenate, CscMatrix, FloatT, MatrixConcatenationError, MatrixShape};

impl<T: FloatT> BlockConcatenate for CscMatrix<T> {
    fn hvcat(mats: &[&[&Self]]) -> Result<Self, MatrixConcatenationError> {
        let bad = || MatrixConcatenationError::IncompatibleDimension;
        let first = mats.first().ok_or_else(bad)?;
        for line in mats {
            if line.len() != first.len() || line.iter().any(|M| M.m != line[0].m) {
                return Err(bad());
            }
            if line.iter().zip(first.iter()).any(|(M, F)| M.n != F.n) {
                return Err(bad());
            }
        }
        let m = mats.iter().map(|line| line[0].m).sum();
        let n = first.iter().map(|M| M.n).sum();
        let blocks: Vec<(usize, usize, &Self)> = {
            let mut out = vec![];
            let mut row = 0;
            for line in mats {
                let mut col = 0;
                for M in line.iter() {
                    out.push((row, col, *M));
                    col += M.n;
                }
                row += line[0].m;
            }
            out
        };
        Ok(filled(m, n, &blocks))
    }

    fn blockdiag(mats: &[&Self]) -> Result<Self, MatrixConcatenationError> {
        if mats.is_empty() {
            return Err(MatrixConcatenationError::IncompatibleDimension);
        }
        let mut blocks = vec![];
        let (mut row, mut col) = (0, 0);
        for M in mats {
            blocks.push((row, col, *M));
            row += M.m;
            col += M.n;
        }
        Ok(filled(row, col, &blocks))
    }
}

// an m by n matrix of blocks at their first row and column, given by rising rows
fn filled<T: FloatT>(
    m: usize,
    n: usize,
    blocks: &[(usize, usize, &CscMatrix<T>)],
) -> CscMatrix<T> {
    let nnz = blocks.iter().map(|(_, _, M)| M.nnz()).sum();
    let mut C = CscMatrix::spalloc((m, n), nnz);
    let most = blocks.iter().map(|(_, _, M)| M.nnz()).max().unwrap_or(0);
    let mut map = vec![0; most];
    C.colptr[n] = 0;
    for (_, col, M) in blocks {
        C.colcount_block(M, *col, MatrixShape::N);
    }
    C.colcount_to_colptr();
    for (row, col, M) in blocks {
        C.fill_block(M, &mut map, *row, *col, MatrixShape::N);
    }
    C.backshift_colptrs();
    C
}
