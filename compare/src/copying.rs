//! Copying as many bytes as a call is given and writes, the limit that each call is timed beside; and how many those are. Tables
//! are counted, single numbers are not.

use crate::door::{CutOutputs, JoinOutputs};
use crate::expected::JoinInput;
use crate::files::Tables;
use crate::problem::{Columns, Problem};
use std::hint::black_box;
use std::mem::size_of_val;

/// Two buffers of one length.
pub struct Copying {
    from: Vec<u8>,
    to: Vec<u8>,
}

impl Copying {
    pub fn new(bytes: usize) -> Copying {
        Copying { from: vec![1; bytes], to: vec![2; bytes] }
    }

    /// Copies the first buffer to the second (memcpy).
    pub fn copy(&mut self) {
        self.to.copy_from_slice(black_box(&self.from));
        black_box(&mut self.to);
    }
}

/// Returns the bytes of a table.
pub fn table<T>(t: &[T]) -> usize {
    size_of_val(t)
}

fn columns(c: &Columns) -> usize {
    table(&c.starts) + table(&c.rows) + table(&c.values)
}

pub fn problem(p: &Problem) -> usize {
    let vectors = table(&p.q) + table(&p.b) + table(&p.alphas);
    columns(&p.p) + columns(&p.a) + vectors + table(&p.cones) + table(&p.pattern_words)
}

/// Returns the bytes of what the cut or the pooling writes.
pub fn cut_outputs(o: &CutOutputs) -> usize {
    let p = table(&o.p_starts) + table(&o.p_rows) + table(&o.p_values);
    let a = table(&o.a_starts) + table(&o.a_rows) + table(&o.a_values);
    p + a + table(&o.q) + table(&o.b) + table(&o.cones) + table(&o.alphas) + table(&o.map)
}

/// Returns the bytes of what a joining or a change of route is given.
pub fn join_input(j: &JoinInput) -> usize {
    let s = j.solution;
    table(j.cones) + table(j.pattern_words) + table(&s.x) + table(&s.s) + table(&s.z) + table(&s.map)
}

pub fn join_outputs(o: &JoinOutputs) -> usize {
    table(&o.x) + table(&o.s) + table(&o.z) + table(&o.scalars)
}

/// Returns the bytes of a file's tables and counts.
pub fn file_tables(t: &Tables) -> usize {
    let p = table(&t.p_starts) + table(&t.p_rows) + table(&t.p_values);
    let a = table(&t.a_starts) + table(&t.a_rows) + table(&t.a_values);
    let rest = table(&t.cones) + table(&t.alphas) + table(&t.pattern_words);
    table(&t.counts) + p + a + table(&t.q) + table(&t.b) + rest
}

#[cfg(test)]
mod tests {
    use super::*;
    use crate::generated::Load;
    use crate::problem::{Route, Solution};
    use crate::{door, expected, files, pool, problem_file};

    #[test]
    fn counted() {
        let p = Load { seed: 1, v: 8, w: 2, n: 4 }.problem(None).unwrap();
        // the file's gaps, header and counts aside, its tables are the problem's
        let (offsets, end) = problem_file::offsets(&problem_file::counts(&p), 1);
        assert_eq!(problem(&p) as u64, end - offsets[0]);
        assert_eq!(file_tables(&files::tables(&p)), problem(&p) + 32);
        assert_eq!(cut_outputs(&door::cut_outputs(&pool::lengths(&p))), problem(&p));
        let (x, rows, map) = expected::solution_shape(Route::Compact, &p).unwrap();
        let words = 4 * (p.cones.len() + p.pattern_words.len() + map.len());
        let solution = Solution { x: vec![0.0; x], s: vec![0.0; rows], z: vec![0.0; rows], map, ..Solution::default() };
        assert_eq!(join_input(&expected::join_input(&p, &solution)), 8 * (x + 2 * rows) + words);
        assert_eq!(join_outputs(&door::join_outputs(&[1, 2, 3, 4])), 80);
    }

    #[test]
    fn copied() {
        let mut buffers = Copying::new(3);
        buffers.copy();
        assert_eq!(buffers.to, [1, 1, 1]);
    }
}
