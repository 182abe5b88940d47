//! A plain reading of document 02's generator: a problem from a seed, a vertex count, a band and a column count.

use crate::pool::lengths;
use crate::problem::*;
use std::collections::BTreeSet;

/// What a problem is generated from: a seed, a vertex count v, a band w and a column count n.
#[derive(Clone, Copy, Debug)]
pub struct Load {
    pub seed: u64,
    pub v: u32,
    pub w: u32,
    pub n: u32,
}

/// The u64 that each draw changes.
struct Draws(u64);

impl Draws {
    fn draw(&mut self) -> u64 {
        self.0 ^= self.0 << 13;
        self.0 ^= self.0 >> 7;
        self.0 ^= self.0 << 17;
        self.0
    }

    fn value(&mut self) -> f64 {
        (self.draw() % 201) as f64 - 100.0
    }
}

/// A clique: its snode, its separator and its parent.
struct Clique {
    parent: u32,
    snode: Vec<u32>,
    separator: Vec<u32>,
}

fn cliques(v: u32, w: u32) -> Vec<Clique> {
    let last = v - w - 1;
    (0..last)
        .map(|c| Clique { parent: c + 1, snode: vec![c], separator: (c + 1..=c + w).collect() })
        .chain(std::iter::once(Clique { parent: NONE, snode: (last..v).collect(), separator: vec![] }))
        .collect()
}

/// Returns the rows that the cliques cover: those of the pairs of their original vertices.
fn covered(cliques: &[Clique], ordering: &[u32]) -> BTreeSet<u32> {
    let mut rows = BTreeSet::new();
    for clique in cliques {
        let members: Vec<u32> =
            clique.snode.iter().chain(&clique.separator).map(|&vertex| ordering[vertex as usize]).collect();
        for &i in &members {
            for &j in members.iter().filter(|&&j| i <= j) {
                rows.insert(j * (j + 1) / 2 + i);
            }
        }
    }
    rows
}

impl Load {
    fn in_ranges(&self) -> bool {
        self.seed != 0 && (2..=64).contains(&self.v) && (1..self.v).contains(&self.w) && (1..=64).contains(&self.n)
    }

    // returns the problem, for arguments in their ranges
    fn made(&self) -> Problem {
        let Load { seed, v, w, n } = *self;
        let mut draws = Draws(seed);
        let mut ordering: Vec<u32> = (0..v).collect();
        for i in (1..v as usize).rev() {
            let other = (draws.draw() % (i as u64 + 1)) as usize;
            ordering.swap(i, other);
        }
        let cliques = cliques(v, w);
        let rows = covered(&cliques, &ordering);
        let mut a = Columns { starts: vec![0], ..Columns::default() };
        for _ in 0..n {
            for &row in &rows {
                if draws.draw() % 2 == 1 {
                    a.rows.push(row);
                    a.values.push(draws.value());
                }
            }
            a.starts.push(a.rows.len() as u32);
        }
        let m = v * (v + 1) / 2;
        let mut b = vec![0.0; m as usize];
        for &row in &rows {
            b[row as usize] = draws.value();
        }
        let mut pattern_words = vec![0, v, cliques.len() as u32];
        pattern_words.extend(&ordering);
        for clique in &cliques {
            pattern_words.extend([clique.parent, clique.snode.len() as u32, clique.separator.len() as u32]);
            pattern_words.extend(clique.snode.iter().chain(&clique.separator));
        }
        Problem {
            n,
            m,
            p: Columns { starts: vec![0; n as usize + 1], ..Columns::default() },
            q: vec![0.0; n as usize],
            a,
            b,
            cones: vec![6, v, 0],
            alphas: vec![],
            pattern_count: 1,
            pattern_words,
        }
    }

    /// Returns the problem, for outputs with the lengths `rooms`, or the refusal number.
    pub fn problem(&self, rooms: Option<&[usize; 11]>) -> Result<Problem, u32> {
        if !self.in_ranges() {
            return Err(15);
        }
        let made = self.made();
        if rooms.is_some_and(|rooms| rooms.iter().zip(lengths(&made)).any(|(&room, needed)| room < needed)) {
            return Err(11);
        }
        Ok(made)
    }

    /// Returns the lengths of the problem's tables, for an output with the length `room`, or the refusal number.
    pub fn sizes(&self, room: usize) -> Result<[usize; 11], u32> {
        let made = self.problem(None)?;
        if room < 11 {
            return Err(11);
        }
        Ok(lengths(&made))
    }
}

#[cfg(test)]
mod tests {
    use super::*;

    fn load(seed: u64, v: u32, w: u32, n: u32) -> Load {
        Load { seed, v, w, n }
    }

    fn made(seed: u64, v: u32, w: u32, n: u32) -> Problem {
        load(seed, v, w, n).problem(None).unwrap()
    }

    #[test]
    fn three_steps_make_a_draw() {
        let mut draws = Draws(1);
        assert_eq!(draws.draw(), 1_082_269_761);
        assert_eq!(draws.draw(), 1_152_992_998_833_853_505);
    }

    #[test]
    fn arguments_out_of_range_are_refused() {
        for (seed, v, w, n) in
            [(0, 2, 1, 1), (1, 1, 1, 1), (1, 65, 1, 1), (1, 2, 0, 1), (1, 2, 2, 1), (1, 2, 1, 0), (1, 2, 1, 65)]
        {
            assert_eq!(Load { seed, v, w, n }.problem(Some(&[0; 11])).err(), Some(15));
            assert_eq!(Load { seed, v, w, n }.sizes(0).err(), Some(15));
        }
        assert_eq!(load(1, 2, 1, 1).sizes(10), Err(11));
        assert_eq!(load(1, 2, 1, 1).sizes(11), Ok([2, 0, 0, 1, 2, 3, 3, 3, 3, 0, 10]));
        assert_eq!(load(1, 2, 1, 1).problem(Some(&[2, 0, 0, 1, 2, 3, 3, 3, 3, 0, 9])).err(), Some(11));
    }

    #[test]
    fn the_smallest_problem() {
        let p = made(1, 2, 1, 1);
        assert_eq!(p.a.starts, [0, 3]);
        assert_eq!(p.a.rows, [0, 1, 2]);
        assert_eq!(p.a.values, [56.0, -80.0, -61.0]);
        assert_eq!(p.b, [44.0, -43.0, -32.0]);
        assert_eq!(p.pattern_words, [0, 2, 1, 0, 1, NONE, 2, 0, 0, 1]);
    }

    #[test]
    fn a_full_band_covers_every_row_and_a_narrow_one_does_not() {
        let rows = |w| covered(&cliques(5, w), &made(7, 5, w, 1).pattern_words[3..8]).len();
        assert_eq!(rows(4), 15);
        assert_eq!(rows(1), 9);
    }

    #[test]
    fn uncovered_rows_of_b_are_zero() {
        let p = made(3, 6, 2, 4);
        let rows = covered(&cliques(6, 2), &p.pattern_words[3..9]);
        for (row, value) in p.b.iter().enumerate().filter(|(row, _)| !rows.contains(&(*row as u32))) {
            assert_eq!(value.to_bits(), 0, "row {row}");
        }
        assert!(p.a.rows.iter().all(|row| rows.contains(row)));
    }
}
