//! A factory-fixed dome: no unknowns, but residuals to split into the projectors' blocks and to join again.

use tejiwakpa::{cut, join, sizes, Columns, Problem, Refusal, Route, Solution};

// three projectors with nothing left to adjust
fn fixed_dome() -> Problem {
    Problem { n: 0, p: Columns::empty(0), q: vec![], a: Columns::empty(0), ..Problem::three_projectors() }
}

#[test]
fn compact_cut() {
    let problem = fixed_dome();
    let lengths = sizes(Route::Compact, &problem).unwrap();
    assert_eq!((lengths.p_starts, lengths.q, lengths.a_starts, lengths.a_rows, lengths.b), (2, 1, 2, 2, 6));
    let augmented = cut(Route::Compact, &problem).unwrap().problem;
    // the overlap's column is the first
    let tie: Vec<(u32, f64)> = augmented.a.column(0).collect();
    assert_eq!(tie, [(0, -1.0), (5, 1.0)]);
    assert_eq!((augmented.n, augmented.m, augmented.p.starts, augmented.q), (1, 6, vec![0, 0], vec![0.0]));
    assert_eq!(augmented.b, [3.0, 4.0, 5.0, 1.0, 2.0, 0.0]);
    // rows, cones and map are those of the dome that can be adjusted
    let adjusted = cut(Route::Compact, &Problem::three_projectors()).unwrap();
    assert_eq!(augmented.cones, adjusted.problem.cones);
    assert_eq!(cut(Route::Compact, &problem).unwrap().map, adjusted.map);
}

#[test]
fn compact_joining() {
    let problem = fixed_dome();
    let map = cut(Route::Compact, &problem).unwrap().map;
    let block = vec![3.0, 4.0, 5.0, 1.0, 2.0, 7.0];
    // x has only the added unknown
    let solution = Solution { x: vec![9.0], s: block.clone(), z: block, tau: 3.0, kappa: 4.0 };
    let joined = join(Route::Compact, &problem, &map, &solution).unwrap();
    assert!(joined.x.is_empty());
    assert_eq!(joined.s, [1.0, 2.0, 10.0, 0.0, 4.0, 5.0]);
    assert_eq!(joined.z, [1.0, 2.0, 7.0, 0.0, 4.0, 5.0]);
    assert_eq!((joined.tau, joined.kappa), (1.0, 1.0));
    // an x with no added unknown is too short
    let short = Solution { x: vec![], ..solution };
    assert_eq!(join(Route::Compact, &problem, &map, &short), Err(Refusal::Solution));
}

#[test]
fn residuals_go_through() {
    let problem = fixed_dome();
    for route in [Route::Standard, Route::Compact] {
        let augmented = cut(route, &problem).unwrap();
        let (n, m) = (augmented.problem.n as usize, augmented.problem.m as usize);
        // on the standard route the blocks' values stand after the original rows
        let mut s = augmented.problem.b.clone();
        if route == Route::Standard {
            s[6..].copy_from_slice(&[1.0, 2.0, 0.0, 3.0, 4.0, 5.0]);
        }
        let solution = Solution { x: vec![0.0; n], s, z: vec![0.0; m], tau: 1.0, kappa: 0.0 };
        assert_eq!(join(route, &problem, &augmented.map, &solution).unwrap().s, problem.b);
    }
}

#[test]
fn other_checks_stay() {
    let mut problem = fixed_dome();
    problem.b[3] = 1.0;
    assert_eq!(cut(Route::Compact, &problem), Err(Refusal::Uncovered));
    assert!(cut(Route::Standard, &problem).is_ok());
    problem.patterns[0].cliques[1].parent = Some(0);
    assert_eq!(cut(Route::Compact, &problem), Err(Refusal::Tree));
}

#[test]
fn nothing_at_all() {
    let nothing = Problem { p: Columns::empty(0), a: Columns::empty(0), ..Problem::default() };
    let augmented = cut(Route::Compact, &nothing).unwrap();
    assert_eq!((augmented.problem.n, augmented.problem.m, augmented.problem.a), (0, 0, Columns::empty(0)));
    assert!(augmented.map.is_empty());
    assert!(join(Route::Compact, &nothing, &[], &Solution::default()).is_ok());
}
