//! The first row and row count of a cone map's entry, and a viewer's use of them.

use tejiwakpa::{cut, join, Cone, ConeMapEntry, Problem, Refusal, Route, Solution};

// three projectors twice, between cones that are not cut, two of them without rows
fn two_domes() -> Problem {
    let one = Problem::three_projectors();
    let mut problem = one.clone();
    problem.cones =
        vec![Cone::Zero(0), Cone::PsdTriangle(3), Cone::SecondOrder(2), Cone::PsdTriangle(3), Cone::PsdTriangle(0)];
    problem.m = 14;
    problem.b = one.b.iter().chain(&[8.0, 9.0]).chain(&one.b).copied().collect();
    let (mut first, mut second) = (one.patterns[0].clone(), one.patterns[0].clone());
    (first.orig_index, second.orig_index) = (1, 3);
    problem.patterns = vec![first, second];
    problem
}

#[test]
fn rows_follow_one_another() {
    let augmented = cut(Route::Compact, &two_domes()).unwrap();
    let mut next = 0;
    for (entry, cone) in augmented.map.iter().zip(&augmented.problem.cones) {
        assert_eq!(entry.range(), next..next + cone.nvars());
        next += cone.nvars();
    }
    assert_eq!((next, augmented.map.len()), (augmented.problem.m as usize, 7));
    // cones without rows have an entry too
    assert_eq!((augmented.map[0].range(), augmented.map[6].range()), (0..0, 14..14));
}

#[test]
fn a_block_by_one_entry() {
    let problem = two_domes();
    let augmented = cut(Route::Compact, &problem).unwrap();
    let blocks = [[1.0, 2.0, 0.0], [3.0, 4.0, 5.0]];
    for pattern in 0..2 {
        for (clique, block) in blocks.iter().enumerate() {
            let entry = augmented.map[problem.map_place(pattern, clique).unwrap()];
            assert_eq!(entry.tree_and_clique, Some((pattern as u32, clique as u32)));
            assert_eq!(&augmented.problem.b[entry.range()], block);
        }
    }
    assert_eq!((problem.map_place(0, 2), problem.map_place(2, 0)), (None, None));
}

#[test]
fn a_joining_compares_them() {
    let problem = two_domes();
    let map = cut(Route::Compact, &problem).unwrap().map;
    let solution = Solution { x: vec![0.0; 3], s: vec![1.0; 14], z: vec![2.0; 14], tau: 1.0, kappa: 0.0 };
    let joined = |map: &[ConeMapEntry]| join(Route::Compact, &problem, map, &solution);
    assert!(joined(&map).is_ok());
    for place in 0..map.len() {
        for change in [|e: &mut ConeMapEntry| e.first_row ^= 1, |e: &mut ConeMapEntry| e.rows ^= 1] {
            let mut wrong = map.clone();
            change(&mut wrong[place]);
            assert_eq!(joined(&wrong), Err(Refusal::Solution));
        }
    }
}
