//! A standard solution as a compact one.

use tejiwakpa::{change_route, cut, flat, join, Clique, Cone, Pattern, Problem, Refusal, Route, Solution};

// 1.0, 2.0, .. in every row and unknown of the standard route
fn standard(problem: &Problem) -> Solution {
    let augmented = cut(Route::Standard, problem).unwrap().problem;
    let rising = |count: usize| (1..=count).map(|v| v as f64).collect::<Vec<f64>>();
    Solution {
        x: rising(augmented.q.len()),
        s: rising(augmented.b.len()),
        z: rising(augmented.b.len()),
        tau: 2.0,
        kappa: 3.0,
    }
}

#[test]
fn blocks_move() {
    let problem = Problem::three_projectors();
    let compact = change_route(&problem, &standard(&problem)).unwrap();
    assert_eq!(compact.x, [1.0, 0.0]);
    assert!(compact.x[1].is_sign_positive());
    assert_eq!(compact.s, [10.0, 11.0, 12.0, 7.0, 8.0, 9.0]);
    assert_eq!(compact.z, compact.s);
    assert_eq!((compact.tau, compact.kappa), (2.0, 3.0));
    // a compact joining takes it
    let map = cut(Route::Compact, &problem).unwrap().map;
    assert_eq!(join(Route::Compact, &problem, &map, &compact).unwrap().s, [7.0, 8.0, 19.0, 0.0, 11.0, 12.0]);
}

#[test]
fn bits_are_kept() {
    let problem = Problem::three_projectors();
    let mut solution = standard(&problem);
    (solution.s[6], solution.z[7]) = (-0.0, f64::from_bits(0x7ff0_0000_0000_0001));
    (solution.tau, solution.kappa) = (-0.0, f64::INFINITY);
    let compact = change_route(&problem, &solution).unwrap();
    assert_eq!(compact.s[3].to_bits(), (-0.0f64).to_bits());
    assert_eq!(compact.z[4].to_bits(), 0x7ff0_0000_0000_0001);
    assert_eq!((compact.tau.to_bits(), compact.kappa), ((-0.0f64).to_bits(), f64::INFINITY));
}

#[test]
fn refused() {
    let problem = Problem::three_projectors();
    let mut solution = standard(&problem);
    solution.z.pop();
    assert_eq!(change_route(&problem, &solution), Err(Refusal::Solution));
    let tall = Problem { m: 7, ..problem.clone() };
    assert_eq!(change_route(&tall, &solution), Err(Refusal::Cones));

    // the room comes before the lengths, and nothing is written
    let words = problem.words();
    let given = flat::Joining {
        n: 1,
        m: 6,
        cones: &words.cones,
        pattern_count: words.pattern_count,
        pattern_words: &words.pattern_words,
        ..flat::Joining::default()
    };
    let (mut x, mut s, mut z, mut scalars) = ([7.0; 1], [7.0; 6], [7.0; 6], [7.0; 2]);
    let mut out = flat::JoinOutputs { x: &mut x, s: &mut s, z: &mut z, scalars: &mut scalars };
    assert_eq!(flat::change_route(&given, &mut out), Err(Refusal::Short));
    assert_eq!((x, s, z, scalars), ([7.0; 1], [7.0; 6], [7.0; 6], [7.0; 2]));
}

// Three cliques share a vertex: with fewer values at a row, sums from either end round alike.
#[test]
fn rounded_sums_may_differ() {
    let clique = |parent, snode, separator| Clique { parent, snode, separator };
    let problem = Problem {
        n: 0,
        m: 6,
        p: tejiwakpa::Columns::empty(0),
        a: tejiwakpa::Columns::empty(0),
        q: vec![],
        b: vec![0.0; 6],
        cones: vec![Cone::PsdTriangle(3)],
        patterns: vec![Pattern {
            orig_index: 0,
            ordering: vec![0, 1, 2],
            cliques: vec![
                clique(Some(2), vec![0], vec![2]),
                clique(Some(2), vec![1], vec![2]),
                clique(None, vec![2], vec![]),
            ],
        }],
    };
    let large = 2f64.powi(53);
    let mut s = vec![0.0; 13];
    (s[8], s[11], s[12]) = (large, 1.0, 1.0);
    let solution = Solution { x: vec![0.0; 7], s, z: vec![0.0; 13], tau: 1.0, kappa: 0.0 };
    let compact = change_route(&problem, &solution).unwrap();
    let map = cut(Route::Compact, &problem).unwrap().map;
    assert_eq!(join(Route::Standard, &problem, &[], &solution).unwrap().s[5], large);
    assert_eq!(join(Route::Compact, &problem, &map, &compact).unwrap().s[5], large + 2.0);
    // the exact totals are the same
    let total = |s: &[f64]| s.iter().map(|&v| v as i128).sum::<i128>();
    assert_eq!(total(&solution.s), total(&compact.s));
}
