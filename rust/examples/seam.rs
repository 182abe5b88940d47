//! The seam: what stands where clarabel calls `decomp_augment` and `decomp_reverse`.
//!
//! The types are clarabel's, cut down to what the two functions touch, and the functions have clarabel's signatures,
//! save that a refusal comes back where clarabel would panic. `cargo run --example seam` cuts and joins three
//! projectors with one seam on both routes and prints what it did.
#![allow(non_snake_case, mixed_script_confusables)]

use tejiwakpa::{
    cut, join, original_residual, Clique, Columns, Cone, ConeMapEntry, Pattern, Problem, Refusal, Route, Solution,
};

// ---- the solver's side

const NO_PARENT: usize = usize::MAX;

#[allow(dead_code)]
#[derive(Clone, Debug, PartialEq)]
enum SupportedConeT {
    ZeroConeT(usize),
    NonnegativeConeT(usize),
    SecondOrderConeT(usize),
    ExponentialConeT(),
    PowerConeT(f64),
    GenPowerConeT(Vec<f64>, usize),
    PSDTriangleConeT(usize),
}
use SupportedConeT::*;

struct CscMatrix {
    m: usize,
    n: usize,
    colptr: Vec<usize>,
    rowval: Vec<usize>,
    nzval: Vec<f64>,
}

// cliques stand in any order; snode_post lists them each before its parent
struct SuperNodeTree {
    snode: Vec<Vec<usize>>,
    snode_post: Vec<usize>,
    snode_parent: Vec<usize>,
    separators: Vec<Vec<usize>>,
}

struct SparsityPattern {
    sntree: SuperNodeTree,
    ordering: Vec<usize>,
    orig_index: usize,
}

struct DefaultVariables {
    x: Vec<f64>,
    s: Vec<f64>,
    z: Vec<f64>,
    τ: f64,
    κ: f64,
}

struct DefaultSettings {
    chordal_decomposition_compact: bool,
}

struct ChordalInfo {
    init_dims: (usize, usize), // (n, m)
    init_cones: Vec<SupportedConeT>,
    spatterns: Vec<SparsityPattern>,
    cone_maps: Vec<ConeMapEntry>,
}

// ---- the seam

type Parts = (CscMatrix, Vec<f64>, CscMatrix, Vec<f64>, Vec<SupportedConeT>);

impl ChordalInfo {
    fn decomp_augment(
        &mut self,
        P: &CscMatrix,
        q: &[f64],
        A: &CscMatrix,
        b: &[f64],
        settings: &DefaultSettings,
    ) -> Result<Parts, Refusal> {
        let problem = Problem { p: columns(P), q: q.to_vec(), a: columns(A), b: b.to_vec(), ..self.sketch() };
        let augmented = cut(route(settings), &problem)?;
        self.cone_maps = augmented.map;
        let new = augmented.problem;
        let (n, m) = (new.n as usize, new.m as usize);
        let cones = new.cones.iter().map(supported).collect();
        Ok((matrix(n, n, new.p), new.q, matrix(m, n, new.a), new.b, cones))
    }

    fn decomp_reverse(
        &self,
        old_vars: &DefaultVariables,
        _old_cones: &[SupportedConeT], // the original cones and the patterns say as much
        settings: &DefaultSettings,
    ) -> Result<DefaultVariables, Refusal> {
        let DefaultVariables { x, s, z, τ, κ } = old_vars;
        let old = Solution { x: x.clone(), s: s.clone(), z: z.clone(), tau: *τ, kappa: *κ };
        let new = join(route(settings), &self.sketch(), &self.cone_maps, &old)?;
        Ok(DefaultVariables { x: new.x, s: new.s, z: new.z, τ: new.tau, κ: new.kappa })
    }

    // the original problem without its matrices: all that a joining reads
    fn sketch(&self) -> Problem {
        Problem {
            n: narrow(self.init_dims.0),
            m: narrow(self.init_dims.1),
            cones: self.init_cones.iter().map(cone).collect(),
            patterns: self.spatterns.iter().map(pattern).collect(),
            ..Problem::default()
        }
    }
}

fn route(settings: &DefaultSettings) -> Route {
    if settings.chordal_decomposition_compact {
        Route::Compact
    } else {
        Route::Standard
    }
}

// numbers that a u32 cannot hold become the largest, which the checks refuse
fn narrow(number: usize) -> u32 {
    u32::try_from(number).unwrap_or(u32::MAX)
}

fn narrowed(numbers: &[usize]) -> Vec<u32> {
    numbers.iter().map(|&x| narrow(x)).collect()
}

fn widened(numbers: Vec<u32>) -> Vec<usize> {
    numbers.into_iter().map(|x| x as usize).collect()
}

fn columns(M: &CscMatrix) -> Columns {
    Columns { starts: narrowed(&M.colptr), rows: narrowed(&M.rowval), values: M.nzval.clone() }
}

fn matrix(m: usize, n: usize, columns: Columns) -> CscMatrix {
    CscMatrix { m, n, colptr: widened(columns.starts), rowval: widened(columns.rows), nzval: columns.values }
}

fn cone(cone: &SupportedConeT) -> Cone {
    match cone {
        ZeroConeT(dim) => Cone::Zero(narrow(*dim)),
        NonnegativeConeT(dim) => Cone::Nonnegative(narrow(*dim)),
        SecondOrderConeT(dim) => Cone::SecondOrder(narrow(*dim)),
        ExponentialConeT() => Cone::Exponential,
        PowerConeT(alpha) => Cone::Power(*alpha),
        GenPowerConeT(alpha, dim2) => Cone::GenPower(alpha.clone(), narrow(*dim2)),
        PSDTriangleConeT(dim) => Cone::PsdTriangle(narrow(*dim)),
    }
}

fn supported(cone: &Cone) -> SupportedConeT {
    match cone {
        Cone::Zero(dim) => ZeroConeT(*dim as usize),
        Cone::Nonnegative(dim) => NonnegativeConeT(*dim as usize),
        Cone::SecondOrder(dim) => SecondOrderConeT(*dim as usize),
        Cone::Exponential => ExponentialConeT(),
        Cone::Power(alpha) => PowerConeT(*alpha),
        Cone::GenPower(alpha, dim2) => GenPowerConeT(alpha.clone(), *dim2 as usize),
        Cone::PsdTriangle(dim) => PSDTriangleConeT(*dim as usize),
    }
}

// clique numbers are places in snode_post, so a parent passes through it
fn pattern(pattern: &SparsityPattern) -> Pattern {
    let tree = &pattern.sntree;
    let place = |snode: usize| tree.snode_post.iter().position(|&i| i == snode).map_or(u32::MAX, narrow);
    let clique = |&i: &usize| Clique {
        parent: (tree.snode_parent[i] != NO_PARENT).then(|| place(tree.snode_parent[i])),
        snode: narrowed(&tree.snode[i]),
        separator: narrowed(&tree.separators[i]),
    };
    Pattern {
        orig_index: narrow(pattern.orig_index),
        ordering: narrowed(&pattern.ordering),
        cliques: tree.snode_post.iter().map(clique).collect(),
    }
}

// ---- three projectors, one seam

fn three_projectors() -> (CscMatrix, Vec<f64>, CscMatrix, Vec<f64>, ChordalInfo) {
    let P = CscMatrix { m: 1, n: 1, colptr: vec![0, 0], rowval: vec![], nzval: vec![] };
    let A = CscMatrix {
        m: 6,
        n: 1,
        colptr: vec![0, 5],
        rowval: vec![0, 1, 2, 4, 5],
        nzval: vec![10.0, 20.0, 30.0, 40.0, 50.0],
    };
    // the root {1, 2} is stored first, the leaf {0} with separator {1} second
    let sntree = SuperNodeTree {
        snode: vec![vec![1, 2], vec![0]],
        snode_post: vec![1, 0],
        snode_parent: vec![NO_PARENT, 0],
        separators: vec![vec![], vec![1]],
    };
    let info = ChordalInfo {
        init_dims: (1, 6),
        init_cones: vec![PSDTriangleConeT(3)],
        spatterns: vec![SparsityPattern { sntree, ordering: vec![0, 1, 2], orig_index: 0 }],
        cone_maps: vec![],
    };
    (P, vec![0.0], A, vec![1.0, 2.0, 3.0, 0.0, 4.0, 5.0], info)
}

fn print_columns(A: &CscMatrix) {
    for c in 0..A.n {
        let entries: Vec<String> =
            (A.colptr[c]..A.colptr[c + 1]).map(|k| format!("{} at row {}", A.nzval[k], A.rowval[k])).collect();
        println!("  column {c}: {}", entries.join(", "));
    }
}

fn run(compact: bool) -> Result<DefaultVariables, Refusal> {
    let settings = DefaultSettings { chordal_decomposition_compact: compact };
    let (P, q, A, b, mut info) = three_projectors();
    println!("{} route", if compact { "compact" } else { "standard" });

    let (newP, newq, newA, newb, newcones) = info.decomp_augment(&P, &q, &A, &b, &settings)?;
    assert_eq!((newP.m, newP.n, newq.len(), newb.len()), (newA.n, newA.n, newA.n, newA.m));
    println!("  {} rows and {} columns become {} and {}", A.m, A.n, newA.m, newA.n);
    print_columns(&newA);
    println!("  b: {newb:?}");
    println!("  cones: {newcones:?}");
    for (cone, entry) in info.cone_maps.iter().enumerate() {
        let rows = entry.range();
        match entry.tree_and_clique {
            Some((tree, clique)) => println!("  cone {cone}, rows {rows:?}: clique {clique} of pattern {tree}"),
            None => println!("  cone {cone}, rows {rows:?}: cone {} as it was", entry.orig_index),
        }
    }

    // here the solver solves; these values show which rows are joined
    let mut s = vec![3.0, 4.0, 5.0, 1.0, 2.0, 7.0];
    if !compact {
        s = vec![0.0, 0.0, 0.0, 0.0, 0.0, 0.0, 1.0, 2.0, 7.0, 3.0, 4.0, 5.0];
    }
    let solved = DefaultVariables { x: vec![0.5; newA.n], s: s.clone(), z: s, τ: 1.0, κ: 0.0 };
    println!("  solved: s and z {:?}", solved.s);
    let joined = info.decomp_reverse(&solved, &newcones, &settings)?;
    println!("  joined: s {:?}", joined.s);
    println!("          z {:?}", joined.z);
    println!("          x {:?}, τ {}, κ {}", joined.x, joined.τ, joined.κ);
    println!("  original residual of a solution at x = 0.5: {}", watched(&info, &settings, &A, &b, &newA, &newb)?);
    Ok(joined)
}

// what a site watches after each joining, here for slacks that meet the augmented equations
fn watched(
    info: &ChordalInfo,
    settings: &DefaultSettings,
    A: &CscMatrix,
    b: &[f64],
    newA: &CscMatrix,
    newb: &[f64],
) -> Result<f64, Refusal> {
    // any overlap does on the compact route; on the standard one the added unknowns leave the zero cone no slack
    let compact = settings.chordal_decomposition_compact;
    let x = if compact { vec![0.5, 2.0] } else { vec![0.5, -4.0, -8.0, -6.0, -6.0, -16.0, -20.0] };
    let mut s = newb.to_vec();
    for (c, x) in x.iter().enumerate() {
        (newA.colptr[c]..newA.colptr[c + 1]).for_each(|k| s[newA.rowval[k]] -= newA.nzval[k] * x);
    }
    let solved = DefaultVariables { x, s: s.clone(), z: s, τ: 1.0, κ: 0.0 };
    let DefaultVariables { x, s, z, τ, κ } = info.decomp_reverse(&solved, &[], settings)?;
    let original = Problem { a: columns(A), b: b.to_vec(), ..info.sketch() };
    let residual = original_residual(&original, &Solution { x, s, z, tau: τ, kappa: κ });
    assert_eq!(residual, 0.0);
    Ok(residual)
}

fn main() -> Result<(), Refusal> {
    run(false)?;
    run(true)?;
    Ok(())
}

#[test]
fn joins_three_projectors() {
    let joined = run(true).unwrap();
    assert_eq!(joined.s, [1.0, 2.0, 10.0, 0.0, 4.0, 5.0]);
    assert_eq!(joined.z, [1.0, 2.0, 7.0, 0.0, 4.0, 5.0]);
    let joined = run(false).unwrap();
    assert_eq!(joined.s, [1.0, 2.0, 10.0, 0.0, 4.0, 5.0]);
    assert_eq!(joined.z, [1.0, 2.0, 5.0, 0.0, 4.0, 5.0]);
}
