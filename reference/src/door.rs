//! The thin public door: a problem as document 01's flat tables goes in, plain vectors come out.
//!
//! A `ChordalInfo` is built from the pattern words directly, without the clique search. Whatever clarabel
//! panics on comes back as `Err` with the panic's message.

use crate::algebra::*;
use crate::solver::chordal::{
    ChordalInfo, SparsityPattern, SuperNodeTree, INACTIVE_NODE, NO_PARENT,
};
use crate::solver::{DefaultSettings, DefaultVariables, SupportedConeT};
use std::cell::RefCell;
use std::marker::PhantomData;
use std::panic::{catch_unwind, AssertUnwindSafe};
use std::sync::Once;

/// The no-parent mark of the pattern words.
pub const NONE: u32 = u32::MAX;

/// A problem as flat tables, as they are; nothing is checked.
#[derive(Clone, Copy)]
pub struct Tables<'a> {
    pub n: u32,
    pub m: u32,
    pub p_starts: &'a [u32],
    pub p_rows: &'a [u32],
    pub p_values: &'a [f64],
    pub q: &'a [f64],
    pub a_starts: &'a [u32],
    pub a_rows: &'a [u32],
    pub a_values: &'a [f64],
    pub b: &'a [f64],
    pub cones: &'a [u32],
    pub alphas: &'a [f64],
    pub pattern_count: u32,
    pub pattern_words: &'a [u32],
}

/// Compressed columns. Rows are clarabel's own numbers: one that it never set is `usize::MAX`.
#[derive(Clone, Debug, PartialEq)]
pub struct Columns {
    pub starts: Vec<usize>,
    pub rows: Vec<usize>,
    pub values: Vec<f64>,
}

/// What `decomp_augment` answers, and the cone map that it keeps (none on the standard route).
#[derive(Clone, Debug)]
pub struct Cut {
    pub p: Columns,
    pub q: Vec<f64>,
    pub a: Columns,
    pub b: Vec<f64>,
    pub cones: Vec<u32>,
    pub alphas: Vec<f64>,
    pub map: Option<Vec<(usize, Option<(usize, usize)>)>>,
}

/// What `decomp_reverse` answers.
#[derive(Clone, Debug)]
pub struct Joined {
    pub x: Vec<f64>,
    pub s: Vec<f64>,
    pub z: Vec<f64>,
    pub tau: f64,
    pub kappa: f64,
}

/// clarabel's own tables of one problem, ready to be cut.
pub struct Prepared {
    info: ChordalInfo<f64>,
    p: CscMatrix<f64>,
    q: Vec<f64>,
    a: CscMatrix<f64>,
    b: Vec<f64>,
}

/// A cut in clarabel's own types, for timing and for the joining.
pub struct Raw(
    CscMatrix<f64>,
    Vec<f64>,
    CscMatrix<f64>,
    Vec<f64>,
    Vec<SupportedConeT<f64>>,
);

/// A solution in clarabel's own type.
pub struct Vars(DefaultVariables<f64>);

impl Prepared {
    /// Reads the tables. With `storage` above 0 the cliques are stored rotated by that many places behind
    /// one merged (inactive) clique, so that `snode_post` is no identity; no answer depends on it.
    pub fn new(t: &Tables, storage: usize) -> Result<Prepared, String> {
        caught(|| Prepared {
            info: ChordalInfo {
                init_dims: (t.n as usize, t.m as usize),
                init_cones: read_cones(t.cones, t.alphas),
                spatterns: read_patterns(t.pattern_count, t.pattern_words, storage),
                H: None,
                cone_maps: None,
            },
            p: columns(t.n, t.n, t.p_starts, t.p_rows, t.p_values),
            q: t.q.to_vec(),
            a: columns(t.m, t.n, t.a_starts, t.a_rows, t.a_values),
            b: t.b.to_vec(),
        })
    }

    /// `decomp_augment` on either route.
    pub fn cut(&mut self, compact: bool) -> Result<Raw, String> {
        caught(|| self.cut_uncaught(compact))
    }

    /// The same without catching, for timing.
    pub fn cut_uncaught(&mut self, compact: bool) -> Raw {
        self.info.H = None;
        self.info.cone_maps = None;
        let (p, q, a, b, cones) =
            self.info
                .decomp_augment(&self.p, &self.q, &self.a, &self.b, &settings(compact));
        Raw(p, q, a, b, cones)
    }

    /// `decomp_reverse` after a cut on the same route, dual completion off.
    pub fn join(&self, compact: bool, raw: &Raw, vars: &Vars) -> Result<Joined, String> {
        caught(|| {
            let v = self.join_uncaught(compact, raw, vars).0;
            Joined {
                x: v.x,
                s: v.s,
                z: v.z,
                tau: v.τ,
                kappa: v.κ,
            }
        })
    }

    /// The same without catching, for timing.
    pub fn join_uncaught(&self, compact: bool, raw: &Raw, vars: &Vars) -> Vars {
        Vars(
            self.info
                .decomp_reverse(&vars.0, &raw.4, &settings(compact)),
        )
    }

    /// The cut in plain vectors.
    pub fn plain(&self, raw: &Raw) -> Cut {
        let (cones, alphas) = write_cones(&raw.4);
        Cut {
            p: plain(&raw.0),
            q: raw.1.clone(),
            a: plain(&raw.2),
            b: raw.3.clone(),
            cones,
            alphas,
            map: self.info.cone_maps.as_ref().map(|entries| {
                entries
                    .iter()
                    .map(|e| (e.orig_index, e.tree_and_clique))
                    .collect()
            }),
        }
    }
}

impl Vars {
    pub fn new(x: &[f64], s: &[f64], z: &[f64], tau: f64, kappa: f64) -> Vars {
        Vars(DefaultVariables {
            x: x.to_vec(),
            s: s.to_vec(),
            z: z.to_vec(),
            τ: tau,
            κ: kappa,
        })
    }
}

/// `coord_to_upper_triangular_index`.
pub fn pair_index(i: usize, j: usize) -> Result<usize, String> {
    caught(|| coord_to_upper_triangular_index((i, j)))
}

/// `upper_triangular_index_to_coord`.
pub fn pair_back(index: usize) -> Result<(usize, usize), String> {
    caught(|| upper_triangular_index_to_coord(index))
}

/// `isqrt`, through a float root.
pub fn root(v: usize) -> usize {
    isqrt(v)
}

/// `invperm`.
pub fn inverse(p: &[u32]) -> Result<Vec<usize>, String> {
    let p: Vec<usize> = p.iter().map(|&x| x as usize).collect();
    caught(|| invperm(&p))
}

/// `invperm` on its own type, for timing.
pub fn inverse_wide(p: &[usize]) -> Vec<usize> {
    invperm(p)
}

/// What a call of `reorder_snode_consecutively` alone takes by a clock, over `calls` of them on patterns made before.
pub fn renumber_timed(words: &[u32], calls: u32, now: fn() -> f64) -> f64 {
    let mut made: Vec<_> = (0..calls).map(|_| read_patterns(1, words, 0).remove(0)).collect();
    let started = now();
    for pattern in &mut made {
        pattern
            .sntree
            .reorder_snode_consecutively(&mut pattern.ordering);
    }
    (now() - started) / calls as f64
}

/// `reorder_snode_consecutively` on one pattern, written again as words.
pub fn renumber(words: &[u32]) -> Result<Vec<u32>, String> {
    caught(|| {
        let mut pattern = read_patterns(1, words, 0).remove(0);
        let tree = &mut pattern.sntree;
        tree.reorder_snode_consecutively(&mut pattern.ordering);
        let mut out = vec![
            pattern.orig_index as u32,
            pattern.ordering.len() as u32,
            tree.n_cliques as u32,
        ];
        out.extend(pattern.ordering.iter().map(|&v| v as u32));
        for c in 0..tree.n_cliques {
            let parent = tree.get_clique_parent(c);
            out.push(if parent == NO_PARENT {
                NONE
            } else {
                parent as u32
            });
            out.push(tree.get_snode(c).len() as u32);
            out.push(tree.get_separators(c).len() as u32);
            out.extend(tree.get_snode(c).iter().map(|&v| v as u32));
            out.extend(tree.get_separators(c).iter().map(|&v| v as u32));
        }
        out
    })
}

// ---- reading and writing the tables

fn settings(compact: bool) -> DefaultSettings<f64> {
    DefaultSettings {
        chordal_decomposition_merge_method: "none".to_string(),
        chordal_decomposition_compact: compact,
        chordal_decomposition_complete_dual: false,
        phantom: PhantomData,
    }
}

fn columns(m: u32, n: u32, starts: &[u32], rows: &[u32], values: &[f64]) -> CscMatrix<f64> {
    let wide = |xs: &[u32]| xs.iter().map(|&x| x as usize).collect::<Vec<usize>>();
    CscMatrix::new(
        m as usize,
        n as usize,
        wide(starts),
        wide(rows),
        values.to_vec(),
    )
}

fn plain(m: &CscMatrix<f64>) -> Columns {
    Columns {
        starts: m.colptr.clone(),
        rows: m.rowval.clone(),
        values: m.nzval.clone(),
    }
}

fn read_cones(words: &[u32], alphas: &[f64]) -> Vec<SupportedConeT<f64>> {
    let mut rest = alphas;
    let mut taken = |count: usize| {
        let (first, last) = rest.split_at(count);
        rest = last;
        first.to_vec()
    };
    words
        .chunks(3)
        .map(|w| {
            let (first, second) = (w[1] as usize, w[2] as usize);
            match w[0] {
                0 => SupportedConeT::ZeroConeT(first),
                1 => SupportedConeT::NonnegativeConeT(first),
                2 => SupportedConeT::SecondOrderConeT(first),
                3 => SupportedConeT::ExponentialConeT(),
                4 => SupportedConeT::PowerConeT(taken(1)[0]),
                5 => SupportedConeT::GenPowerConeT(taken(first), second),
                6 => SupportedConeT::PSDTriangleConeT(first),
                _ => panic!("no such kind of cone"),
            }
        })
        .collect()
}

fn write_cones(cones: &[SupportedConeT<f64>]) -> (Vec<u32>, Vec<f64>) {
    let mut words = vec![];
    let mut alphas = vec![];
    for cone in cones {
        let record = match cone {
            SupportedConeT::ZeroConeT(d) => [0, *d, 0],
            SupportedConeT::NonnegativeConeT(d) => [1, *d, 0],
            SupportedConeT::SecondOrderConeT(d) => [2, *d, 0],
            SupportedConeT::ExponentialConeT() => [3, 0, 0],
            SupportedConeT::PowerConeT(a) => {
                alphas.push(*a);
                [4, 0, 0]
            }
            SupportedConeT::GenPowerConeT(a, d) => {
                alphas.extend(a);
                [5, a.len(), *d]
            }
            SupportedConeT::PSDTriangleConeT(d) => [6, *d, 0],
        };
        words.extend(record.iter().map(|&x| x as u32));
    }
    (words, alphas)
}

fn read_patterns(count: u32, words: &[u32], storage: usize) -> Vec<SparsityPattern> {
    let length = words.len();
    let mut words = words.iter().map(|&w| w as usize);
    let mut next = || words.next().expect("pattern words end early");
    let mut out = vec![];
    for _ in 0..count {
        let orig_index = next();
        let vertices = next();
        let n_cliques = next();
        assert!(
            vertices <= length && n_cliques <= length,
            "pattern words end early"
        );
        let ordering: Vec<usize> = (0..vertices).map(|_| next()).collect();

        // place of clique c in snode_post: its index in the stored lists
        let extra = (storage > 0) as usize;
        let place = |c: usize| extra + (c + storage) % n_cliques;
        let stored = n_cliques + extra;
        let sets = || (0..stored).map(|_| Default::default()).collect::<Vec<_>>();
        let mut tree = SuperNodeTree {
            snode: sets(),
            snode_post: (0..n_cliques).map(place).collect(),
            snode_parent: vec![INACTIVE_NODE; stored],
            snode_children: sets(),
            post: (0..vertices).collect(),
            separators: sets(),
            nblk: None,
            n_cliques,
        };
        for c in 0..n_cliques {
            let parent = next();
            let (snodes, separators) = (next(), next());
            tree.snode_parent[place(c)] = if parent == NONE as usize {
                NO_PARENT
            } else if parent < n_cliques {
                place(parent)
            } else {
                parent
            };
            for _ in 0..snodes {
                tree.snode[place(c)].insert(next());
            }
            for _ in 0..separators {
                tree.separators[place(c)].insert(next());
            }
        }
        tree.calculate_block_dimensions();
        out.push(SparsityPattern {
            sntree: tree,
            ordering,
            orig_index,
        });
    }
    assert!(words.next().is_none(), "pattern words end late");
    out
}

// ---- panics

thread_local! {
    static CATCHING: RefCell<bool> = const { RefCell::new(false) };
}
static QUIET: Once = Once::new();

// runs f; a panic in it is not printed but comes back as its message
fn caught<T>(f: impl FnOnce() -> T) -> Result<T, String> {
    QUIET.call_once(|| {
        let loud = std::panic::take_hook();
        std::panic::set_hook(Box::new(move |info| {
            if !CATCHING.with(|c| *c.borrow()) {
                loud(info)
            }
        }));
    });
    CATCHING.with(|c| *c.borrow_mut() = true);
    let answer = catch_unwind(AssertUnwindSafe(f));
    CATCHING.with(|c| *c.borrow_mut() = false);
    answer.map_err(|e| {
        e.downcast_ref::<String>()
            .cloned()
            .or_else(|| e.downcast_ref::<&str>().map(|s| s.to_string()))
            .unwrap_or_default()
    })
}

#[test]
fn three_projectors() {
    let t = Tables {
        n: 1,
        m: 6,
        p_starts: &[0, 0],
        p_rows: &[],
        p_values: &[],
        q: &[0.0],
        a_starts: &[0, 5],
        a_rows: &[0, 1, 2, 4, 5],
        a_values: &[10.0, 20.0, 30.0, 40.0, 50.0],
        b: &[1.0, 2.0, 3.0, 0.0, 4.0, 5.0],
        cones: &[6, 3, 0],
        alphas: &[],
        pattern_count: 1,
        pattern_words: &[0, 3, 2, 0, 1, 2, 1, 1, 1, 0, 1, NONE, 2, 0, 1, 2],
    };
    for storage in [0, 1] {
        let mut p = Prepared::new(&t, storage).unwrap();
        let raw = p.cut(true).unwrap();
        let cut = p.plain(&raw);
        assert_eq!(cut.a.starts, [0, 5, 7]);
        assert_eq!(cut.a.rows, [0, 1, 2, 3, 4, 0, 5]);
        assert_eq!(cut.a.values, [30.0, 40.0, 50.0, 10.0, 20.0, -1.0, 1.0]);
        assert_eq!(cut.b, [3.0, 4.0, 5.0, 1.0, 2.0, 0.0]);
        let v = [3.0, 4.0, 5.0, 1.0, 2.0, 7.0];
        let joined = p
            .join(true, &raw, &Vars::new(&[0.0, 0.0], &v, &v, 2.0, 3.0))
            .unwrap();
        assert_eq!(joined.s, [1.0, 2.0, 10.0, 0.0, 4.0, 5.0]);
        assert_eq!(joined.z, [1.0, 2.0, 7.0, 0.0, 4.0, 5.0]);
        assert_eq!((joined.tau, joined.kappa), (1.0, 1.0));
    }
}
