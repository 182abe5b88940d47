//! The largest number of u32 is no parent and no pattern: where a field holds it, a call refuses it as any other number
//! that names none, and does not take it for the mark of none.

use tejiwakpa::{
    cut, join, renumber, same_layout, sizes, Cone, ConeMapEntry, Pattern, Problem, Refusal, Route, Solution,
};

const ROUTES: [Route; 2] = [Route::Standard, Route::Compact];

// three projectors whose clique has the largest number as its parent
fn marked(clique: usize) -> Problem {
    let mut problem = Problem::three_projectors();
    problem.patterns[0].cliques[clique].parent = Some(u32::MAX);
    problem
}

#[test]
fn a_parent_that_no_clique_has() {
    let right = Problem::three_projectors();
    for clique in 0..2 {
        let problem = marked(clique);
        for route in ROUTES {
            assert_eq!(sizes(route, &problem), Err(Refusal::Tree));
            assert_eq!(cut(route, &problem), Err(Refusal::Tree));
            let map = cut(route, &right).unwrap().map;
            assert_eq!(join(route, &problem, &map, &Solution::default()), Err(Refusal::Tree));
        }
        assert_eq!(renumber(&problem.patterns[0]), Err(Refusal::Tree));
        assert_eq!(same_layout(&problem, &problem), Err(Refusal::Tree));
        assert_eq!(same_layout(&right, &problem), Err(Refusal::Tree));
    }
}

#[test]
fn earlier_checks_come_first() {
    let mut problem = marked(1);
    problem.patterns[0].ordering[0] = u32::MAX;
    assert_eq!(sizes(Route::Compact, &problem), Err(Refusal::Patterns));
    problem.a.rows[0] = 9;
    assert_eq!(sizes(Route::Compact, &problem), Err(Refusal::Rows));
}

#[test]
fn words_keep_the_mark_for_none() {
    let right = Problem::three_projectors().patterns.remove(0);
    assert_eq!(Pattern::from_words(&right.words()), Ok(right.clone()));
    let wrong = marked(1).patterns.remove(0);
    assert_ne!(wrong.words(), right.words());
    assert_eq!(Pattern::from_words(&wrong.words()).unwrap().cliques[1].parent, Some(u32::MAX - 1));
}

#[test]
fn a_pattern_that_no_map_has() {
    // a cone that is not cut, before the one that is
    let mut problem = Problem::three_projectors();
    problem.cones.insert(0, Cone::Zero(1));
    problem.m += 1;
    problem.b.insert(0, 0.0);
    problem.a.rows.iter_mut().for_each(|row| *row += 1);
    problem.patterns[0].orig_index = 1;
    let map = cut(Route::Compact, &problem).unwrap().map;
    assert_eq!(map[0].tree_and_clique, None);

    let solution = Solution { x: vec![0.0; 2], s: vec![0.0; 7], z: vec![0.0; 7], tau: 1.0, kappa: 0.0 };
    let joined = |map: &[ConeMapEntry]| join(Route::Compact, &problem, map, &solution);
    assert!(joined(&map).is_ok());
    for place in 0..map.len() {
        for clique in [0, 1, u32::MAX] {
            let mut wrong = map.clone();
            wrong[place].tree_and_clique = Some((u32::MAX, clique));
            assert_eq!(joined(&wrong), Err(Refusal::Solution));
        }
    }
}
