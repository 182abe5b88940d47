//! Problem files over slices that the caller passes.

use super::answer;
use crate::Refusal;

/// A problem's tables with floats as their 64-bit patterns, as a file has them: a NaN keeps all its bits. Only the calls check
/// them.
///
/// ```
/// use tejiwakpa::flat::FileTables;
///
/// // no unknowns, one zero row
/// let tables = FileTables { m: 1, p_starts: &[0], a_starts: &[0], b: &[0], cones: &[0, 1, 0], ..FileTables::default() };
/// let mut file = [0; 120];
/// tejiwakpa::flat::write_file(&tables, &mut file)?;
/// assert_eq!(file[76], 120);
/// # Ok::<(), tejiwakpa::Refusal>(())
/// ```
#[derive(Clone, Copy, Debug, Default)]
pub struct FileTables<'a> {
    /// The number of unknowns.
    pub n: u32,
    /// The number of rows.
    pub m: u32,
    /// P's column starts.
    pub p_starts: &'a [u32],
    /// P's rows.
    pub p_rows: &'a [u32],
    /// P's values.
    pub p_values: &'a [u64],
    /// The linear cost.
    pub q: &'a [u64],
    /// A's column starts.
    pub a_starts: &'a [u32],
    /// A's rows.
    pub a_rows: &'a [u32],
    /// A's values.
    pub a_values: &'a [u64],
    /// The right hand side.
    pub b: &'a [u64],
    /// The cones' records: kind, first size, second size.
    pub cones: &'a [u32],
    /// The exponents of the power cones, in order.
    pub alphas: &'a [u64],
    /// The number of patterns.
    pub pattern_count: u32,
    /// The patterns' words.
    pub pattern_words: &'a [u32],
}

/// The outputs of the reader: the eight counts that a file begins with, then a problem's tables with floats as their
/// 64-bit patterns.
///
/// ```
/// use tejiwakpa::flat::FileOutputs;
///
/// let mut counts = [0; 8];
/// let outputs = FileOutputs { counts: &mut counts, ..FileOutputs::default() };
/// assert!(outputs.b.is_empty());
/// ```
#[derive(Debug, Default)]
pub struct FileOutputs<'a> {
    /// n, m, entries of P, entries of A, cones, exponents, patterns, pattern words.
    pub counts: &'a mut [u32],
    /// P's column starts, n + 1 of them.
    pub p_starts: &'a mut [u32],
    /// P's rows.
    pub p_rows: &'a mut [u32],
    /// P's values.
    pub p_values: &'a mut [u64],
    /// The linear cost.
    pub q: &'a mut [u64],
    /// A's column starts, n + 1 of them.
    pub a_starts: &'a mut [u32],
    /// A's rows.
    pub a_rows: &'a mut [u32],
    /// A's values.
    pub a_values: &'a mut [u64],
    /// The right hand side.
    pub b: &'a mut [u64],
    /// The cones' records, three words each.
    pub cones: &'a mut [u32],
    /// The exponents of the power cones.
    pub alphas: &'a mut [u64],
    /// The patterns' words.
    pub pattern_words: &'a mut [u32],
}

/// Writes the complete little-endian words of a file's bytes, `file.len() / 4` of them.
///
/// ```
/// let mut out = [0; 2];
/// tejiwakpa::flat::file_words(&[1, 0, 0, 0, 0, 2, 0, 0, 9], &mut out)?;
/// assert_eq!(out, [1, 512]);
/// # Ok::<(), tejiwakpa::Refusal>(())
/// ```
pub fn file_words(file: &[u8], out: &mut [u32]) -> Result<(), Refusal> {
    // SAFETY: `c` says what its calls require; slices meet it.
    answer(unsafe { c::chordal_file_words(file.as_ptr(), file.len(), out.as_mut_ptr(), out.len()) })
}

/// Writes the tables of a file of `length` bytes, whose complete words are `words`. The first eight words give the needed length
/// of each output.
///
/// ```
/// use tejiwakpa::flat::{file_words, read_file, FileOutputs};
/// use tejiwakpa::{Problem, Refusal};
///
/// let file = Problem::three_projectors().to_file_bytes()?;
/// let mut words = vec![0; file.len() / 4];
/// file_words(&file, &mut words)?;
/// assert_eq!(words[..8], [1, 6, 0, 5, 1, 0, 1, 16]);
///
/// let (mut counts, mut p_starts, mut q, mut a_starts, mut a_rows) = ([0; 8], [0; 2], [0; 1], [0; 2], [0; 5]);
/// let (mut a_values, mut b, mut cones, mut pattern_words) = ([0; 5], [0; 6], [0; 3], [0; 16]);
/// let mut out = FileOutputs {
///     counts: &mut counts,
///     p_starts: &mut p_starts,
///     q: &mut q,
///     a_starts: &mut a_starts,
///     a_rows: &mut a_rows,
///     a_values: &mut a_values,
///     b: &mut b,
///     cones: &mut cones,
///     pattern_words: &mut pattern_words,
///     ..FileOutputs::default()
/// };
/// assert_eq!(read_file(&words, file.len() + 1, &mut out), Err(Refusal::FileLength));
/// read_file(&words, file.len(), &mut out)?;
/// assert_eq!(a_rows, [0, 1, 2, 4, 5]);
/// assert_eq!(f64::from_bits(b[5]), 5.0);
/// # Ok::<(), Refusal>(())
/// ```
#[rustfmt::skip]
pub fn read_file(words: &[u32], length: usize, out: &mut FileOutputs) -> Result<(), Refusal> {
    let o = out;
    // SAFETY: as above.
    answer(unsafe {
        c::chordal_read_file(
            words.as_ptr(), words.len(), length, o.counts.as_mut_ptr(), o.counts.len(),
            o.p_starts.as_mut_ptr(), o.p_starts.len(), o.p_rows.as_mut_ptr(), o.p_rows.len(),
            o.p_values.as_mut_ptr(), o.p_values.len(), o.q.as_mut_ptr(), o.q.len(),
            o.a_starts.as_mut_ptr(), o.a_starts.len(), o.a_rows.as_mut_ptr(), o.a_rows.len(),
            o.a_values.as_mut_ptr(), o.a_values.len(), o.b.as_mut_ptr(), o.b.len(),
            o.cones.as_mut_ptr(), o.cones.len(), o.alphas.as_mut_ptr(), o.alphas.len(),
            o.pattern_words.as_mut_ptr(), o.pattern_words.len(),
        )
    })
}

/// Writes the file of a problem. [`file_length`] says how many bytes it has.
///
/// ```
/// use tejiwakpa::flat::{file_length, write_file, FileTables};
///
/// let tables = FileTables { m: 1, p_starts: &[0], a_starts: &[0], b: &[0], cones: &[0, 1, 0], ..FileTables::default() };
/// let mut file = vec![0; file_length(&tables)];
/// write_file(&tables, &mut file)?;
/// assert_eq!(file.len(), 120);
/// # Ok::<(), tejiwakpa::Refusal>(())
/// ```
#[rustfmt::skip]
pub fn write_file(problem: &FileTables, out: &mut [u8]) -> Result<(), Refusal> {
    let p = problem;
    // SAFETY: as above.
    answer(unsafe {
        c::chordal_write_file(
            p.n, p.m,
            p.p_starts.as_ptr(), p.p_starts.len(), p.p_rows.as_ptr(), p.p_rows.len(),
            p.p_values.as_ptr(), p.p_values.len(), p.q.as_ptr(), p.q.len(),
            p.a_starts.as_ptr(), p.a_starts.len(), p.a_rows.as_ptr(), p.a_rows.len(),
            p.a_values.as_ptr(), p.a_values.len(), p.b.as_ptr(), p.b.len(),
            p.cones.as_ptr(), p.cones.len(), p.alphas.as_ptr(), p.alphas.len(),
            p.pattern_count, p.pattern_words.as_ptr(), p.pattern_words.len(),
            out.as_mut_ptr(), out.len(),
        )
    })
}

/// Returns how many bytes a problem's file has: the header, then each table at a multiple of 8.
///
/// ```
/// use tejiwakpa::flat::{file_length, FileTables};
///
/// // three words end at byte 92, so the next table begins at byte 96
/// let tables = FileTables { p_starts: &[0, 0, 0], q: &[0, 0], ..FileTables::default() };
/// assert_eq!(file_length(&tables), 112);
/// ```
pub fn file_length(problem: &FileTables) -> usize {
    let p = problem;
    let tables = [
        4 * p.p_starts.len(),
        4 * p.p_rows.len(),
        8 * p.p_values.len(),
        8 * p.q.len(),
        4 * p.a_starts.len(),
        4 * p.a_rows.len(),
        8 * p.a_values.len(),
        8 * p.b.len(),
        4 * p.cones.len(),
        8 * p.alphas.len(),
        4 * p.pattern_words.len(),
    ];
    tables.iter().fold(80, |end, bytes| end.next_multiple_of(8) + bytes)
}

#[rustfmt::skip]
mod c {
    // SAFETY: as for the other calls: pointers are never null, outputs overlap nothing, and the memory may hold anything.
    extern "C" {
        pub fn chordal_file_words(file: *const u8, file_len: usize, out: *mut u32, out_len: usize) -> u32;
        pub fn chordal_read_file(
            words: *const u32, words_len: usize, length: usize, counts_out: *mut u32, counts_out_len: usize,
            p_starts_out: *mut u32, p_starts_out_len: usize, p_rows_out: *mut u32, p_rows_out_len: usize,
            p_values_out: *mut u64, p_values_out_len: usize, q_out: *mut u64, q_out_len: usize,
            a_starts_out: *mut u32, a_starts_out_len: usize, a_rows_out: *mut u32, a_rows_out_len: usize,
            a_values_out: *mut u64, a_values_out_len: usize, b_out: *mut u64, b_out_len: usize,
            cones_out: *mut u32, cones_out_len: usize, alphas_out: *mut u64, alphas_out_len: usize,
            pattern_words_out: *mut u32, pattern_words_out_len: usize,
        ) -> u32;
        pub fn chordal_write_file(
            n: u32, m: u32,
            p_starts: *const u32, p_starts_len: usize, p_rows: *const u32, p_rows_len: usize,
            p_values: *const u64, p_values_len: usize, q: *const u64, q_len: usize,
            a_starts: *const u32, a_starts_len: usize, a_rows: *const u32, a_rows_len: usize,
            a_values: *const u64, a_values_len: usize, b: *const u64, b_len: usize,
            cones: *const u32, cones_len: usize, alphas: *const u64, alphas_len: usize,
            pattern_count: u32, pattern_words: *const u32, pattern_words_len: usize,
            out: *mut u8, out_len: usize,
        ) -> u32;
    }
}
