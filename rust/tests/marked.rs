//! The twelve marked cases, P1 to P12.

use tejiwakpa::{
    cut, inverse, join, pair_back, pair_index, renumber, sizes, Augmented, Clique, Columns, ConeMapEntry, Pattern,
    Problem, Refusal, Route, Solution,
};

#[test]
fn p1_first_pair() {
    assert_eq!(pair_index(0, 0), Ok(0));
}

#[test]
fn p2_pair_in_either_order() {
    assert_eq!(pair_index(0, 1), Ok(1));
    assert_eq!(pair_index(1, 0), Ok(1));
}

#[test]
fn p3_pair_within() {
    assert_eq!(pair_index(2, 5), Ok(17));
}

#[test]
fn p4_last_pair() {
    assert_eq!(pair_index(255, 255), Ok(32_895));
    assert_eq!(pair_index(256, 0), Err(Refusal::Bound));
    assert_eq!(pair_index(0, 256), Err(Refusal::Bound));
}

#[test]
fn p5_first_index() {
    assert_eq!(pair_back(0), Ok((0, 0)));
}

#[test]
fn p6_index_within() {
    assert_eq!(pair_back(3), Ok((0, 2)));
    assert_eq!(pair_back(32_896), Err(Refusal::Bound));
}

#[test]
fn p7_renumbering() {
    let pattern = |ordering, leaf: (u32, u32), root: [u32; 2]| Pattern {
        orig_index: 0,
        ordering,
        cliques: vec![
            Clique { parent: Some(1), snode: vec![leaf.0], separator: vec![leaf.1] },
            Clique { parent: None, snode: root.to_vec(), separator: vec![] },
        ],
    };
    let renumbered = renumber(&pattern(vec![2, 0, 1], (2, 0), [0, 1]));
    assert_eq!(renumbered, Ok(pattern(vec![1, 2, 0], (0, 1), [1, 2])));
    assert_eq!(inverse(&[1, 1]), Err(Refusal::Patterns));
}

fn compact() -> Augmented {
    cut(Route::Compact, &Problem::three_projectors()).unwrap()
}

#[test]
fn p8_compact_columns_and_b() {
    let augmented = compact().problem;
    assert_eq!((augmented.m, augmented.n), (6, 2));
    let column: Vec<(u32, f64)> = augmented.a.column(0).collect();
    assert_eq!(column, [(0, 30.0), (1, 40.0), (2, 50.0), (3, 10.0), (4, 20.0)]);
    assert_eq!(augmented.b, [3.0, 4.0, 5.0, 1.0, 2.0, 0.0]);
}

#[test]
fn p9_compact_overlap() {
    let Augmented { problem, map } = compact();
    let column: Vec<(u32, f64)> = problem.a.column(1).collect();
    assert_eq!(column, [(0, -1.0), (5, 1.0)]);
    let entry = |clique, first_row| {
        let tree_and_clique = Some((0, clique));
        ConeMapEntry { orig_index: 0, tree_and_clique, first_row, rows: 3 }
    };
    assert_eq!(map, [entry(1, 0), entry(0, 3)]);
}

#[test]
fn p10_compact_joining() {
    let block = vec![3.0, 4.0, 5.0, 1.0, 2.0, 7.0];
    let solution = Solution { x: vec![0.5, 9.0], s: block.clone(), z: block, tau: 3.0, kappa: 4.0 };
    let joined = join(Route::Compact, &Problem::three_projectors(), &compact().map, &solution).unwrap();
    assert_eq!(joined.x, [0.5]);
    assert_eq!(joined.s, [1.0, 2.0, 10.0, 0.0, 4.0, 5.0]);
    assert_eq!(joined.z, [1.0, 2.0, 7.0, 0.0, 4.0, 5.0]);
    assert_eq!((joined.tau, joined.kappa), (1.0, 1.0));
}

#[test]
fn p11_standard() {
    let problem = Problem::three_projectors();
    let Augmented { problem: augmented, map } = cut(Route::Standard, &problem).unwrap();
    assert_eq!((augmented.m, augmented.n), (12, 7));
    let mut ones = vec![];
    for c in 1..7 {
        let column: Vec<(u32, f64)> = augmented.a.column(c).collect();
        assert_eq!(column[1], (5 + c as u32, -1.0));
        assert_eq!(column[0].1, 1.0);
        ones.push(column[0].0);
    }
    assert_eq!(ones, [0, 1, 2, 2, 4, 5]);
    assert!(map.is_empty());

    let tail = [0.0, 0.0, 0.0, 0.0, 0.0, 0.0, 1.0, 2.0, 7.0, 3.0, 4.0, 5.0].to_vec();
    let solution = Solution { x: vec![0.0; 7], s: tail.clone(), z: tail, tau: 1.0, kappa: 0.0 };
    let joined = join(Route::Standard, &problem, &map, &solution).unwrap();
    assert_eq!((joined.s[2], joined.z[2]), (10.0, 5.0));
}

#[test]
fn p12_uncovered_row() {
    let mut problem = Problem::three_projectors();
    problem.a = Columns { starts: vec![0, 1], rows: vec![3], values: vec![0.0] };
    assert_eq!(cut(Route::Compact, &problem), Err(Refusal::Uncovered));
    assert!(cut(Route::Standard, &problem).is_ok());

    let mut problem = Problem::three_projectors();
    problem.b[3] = 1.0;
    assert_eq!(sizes(Route::Compact, &problem), Err(Refusal::Uncovered));
    problem.b[3] = -0.0;
    assert!(cut(Route::Compact, &problem).is_ok());
}
