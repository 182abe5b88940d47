//! Every clique tree on up to four vertices that passes checks 6 and 7, with every ordering.

use crate::expected::{Clique, Pattern};
use crate::problem::*;
use crate::random::Draws;

fn permutations(n: usize) -> Vec<Vec<u32>> {
    if n == 0 {
        return vec![vec![]];
    }
    let mut out = vec![];
    for p in permutations(n - 1) {
        for at in 0..n {
            let mut q = p.clone();
            q.insert(at, n as u32 - 1);
            out.push(q);
        }
    }
    out
}

// all ways to assign each vertex to one of `count` snodes, none left empty
fn snodes(vertices: usize, count: usize) -> Vec<Vec<Vec<u32>>> {
    let mut out = vec![];
    for code in 0..count.pow(vertices as u32) {
        let mut sets = vec![vec![]; count];
        let mut rest = code;
        for v in 0..vertices {
            sets[rest % count].push(v as u32);
            rest /= count;
        }
        if sets.iter().all(|s| !s.is_empty()) {
            out.push(sets);
        }
    }
    out
}

// cliques from c on have parents and separators; continues with clique c - 1
fn grow(cliques: &mut Vec<Clique>, c: usize, visit: &mut impl FnMut(&[Clique])) {
    if c == 0 {
        visit(cliques);
        return;
    }
    for parent in c..cliques.len() {
        let mut held = cliques[parent].snode.clone();
        held.extend(&cliques[parent].separator);
        for subset in 0..1u32 << held.len() {
            let separator = (0..held.len()).filter(|&i| subset >> i & 1 == 1).map(|i| held[i]).collect();
            cliques[c - 1].parent = parent as u32;
            cliques[c - 1].separator = separator;
            grow(cliques, c - 1, visit);
        }
    }
}

/// Calls `visit` with each clique tree over `vertices` under each ordering, members in a random order from `d`.
pub fn patterns(vertices: usize, d: &mut Draws, visit: &mut impl FnMut(&mut Draws, Pattern)) {
    let orderings = permutations(vertices);
    for count in 1..=vertices {
        for sets in snodes(vertices, count) {
            let mut cliques: Vec<Clique> =
                sets.into_iter().map(|snode| Clique { parent: NONE, snode, separator: vec![] }).collect();
            grow(&mut cliques, count - 1, &mut |tree: &[Clique]| {
                for ordering in &orderings {
                    let mut cliques = tree.to_vec();
                    for c in &mut cliques {
                        d.shuffle(&mut c.snode);
                        d.shuffle(&mut c.separator);
                    }
                    let pattern =
                        Pattern { orig_index: 0, vertices: vertices as u32, ordering: ordering.clone(), cliques };
                    visit(d, pattern);
                }
            });
        }
    }
}

/// Returns a problem with one PSD cone with this pattern and one column with an entry in each covered row.
pub fn problem(d: &mut Draws, pattern: &Pattern) -> Problem {
    let covered = pattern.covered();
    let m = covered.len();
    let rows: Vec<u32> = (0..m).filter(|&r| covered[r]).map(|r| r as u32).collect();
    let values = d.floats(m);
    Problem {
        n: 1,
        m: m as u32,
        p: Columns { starts: vec![0, 0], ..Columns::default() },
        q: vec![0.5],
        a: Columns { starts: vec![0, rows.len() as u32], values: d.floats(rows.len()), rows },
        b: (0..m).map(|r| if covered[r] { values[r] } else { 0.0 }).collect(),
        cones: vec![6, pattern.vertices, 0],
        alphas: vec![],
        pattern_count: 1,
        pattern_words: pattern.words(),
    }
}
