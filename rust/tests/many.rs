//! The compact cut with many right hand sides.

use tejiwakpa::{cut, cut_many, flat, Columns, Cone, Problem, Refusal, Route};

const FIRST: [f64; 6] = [1.0, 2.0, 3.0, 0.0, 4.0, 5.0];
const SECOND: [f64; 6] = [-0.0, f64::NAN, 6.0, -0.0, 0.0, f64::INFINITY];

fn sides(list: &[[f64; 6]]) -> Vec<Vec<f64>> {
    list.iter().map(|side| side.to_vec()).collect()
}

#[test]
fn what_the_single_cuts_give() {
    let problem = Problem::three_projectors();
    let given = sides(&[FIRST, SECOND, FIRST]);
    let (augmented, made) = cut_many(&problem, &given).unwrap();
    assert_eq!(made.len(), 3);
    for (b, side) in given.into_iter().zip(&made) {
        let single = cut(Route::Compact, &Problem { b, ..problem.clone() }).unwrap();
        let bits = |b: &[f64]| b.iter().map(|v| v.to_bits()).collect::<Vec<u64>>();
        assert_eq!(bits(&single.problem.b), bits(side));
        let first = Problem { b: made[0].clone(), ..single.problem };
        assert_eq!((first, &single.map), (augmented.problem.clone(), &augmented.map));
    }
}

#[test]
fn how_many() {
    let problem = Problem::three_projectors();
    assert_eq!(cut_many(&problem, &sides(&[FIRST; 64])).unwrap().1.len(), 64);
    assert_eq!(cut_many(&problem, &sides(&[FIRST; 65])), Err(Refusal::Bound));
    assert_eq!(cut_many(&problem, &[]), Err(Refusal::Bound));
    // before anything else that is wrong
    let wrong = Problem { m: 7, ..problem };
    assert_eq!(cut_many(&wrong, &[]), Err(Refusal::Bound));
    assert_eq!(cut_many(&wrong, &sides(&[FIRST])), Err(Refusal::Cones));
}

#[test]
fn sides_without_rows() {
    let none = Columns::empty(0);
    let problem = Problem { p: none.clone(), a: none, cones: vec![Cone::Zero(0)], ..Problem::default() };
    let (augmented, made) = cut_many(&problem, &vec![vec![]; 3]).unwrap();
    assert_eq!((augmented.problem.m, made), (0, vec![vec![]; 3]));
    assert_eq!(cut_many(&problem, &[vec![1.0]]), Err(Refusal::Cones));
}

#[test]
fn lengths_that_even_out() {
    let problem = Problem::three_projectors();
    let mut given = sides(&[FIRST, FIRST]);
    let moved = given[0].pop().unwrap();
    assert_eq!(cut_many(&problem, &given), Err(Refusal::Cones));
    given[1].push(moved);
    assert_eq!(cut_many(&problem, &given), Err(Refusal::Cones));
    // and after number 3
    let wrong = Problem { a: Columns { rows: vec![9; 5], ..problem.a.clone() }, ..problem };
    assert_eq!(cut_many(&wrong, &given), Err(Refusal::Rows));
}

#[test]
fn the_first_refused_side_gives_the_number() {
    let problem = Problem::three_projectors();
    let mut uncovered = FIRST;
    uncovered[3] = 1.0;
    for given in [[uncovered, FIRST], [FIRST, uncovered]] {
        assert_eq!(cut_many(&problem, &sides(&given)), Err(Refusal::Uncovered));
    }
    // a further side's 9 comes before 11, and nothing is written
    let words = problem.words();
    let tables = problem.tables(&words);
    let (mut a_starts, mut b) = ([7; 3], [7.0; 12]);
    let mut out = flat::CutOutputs { a_starts: &mut a_starts, b: &mut b, ..flat::CutOutputs::default() };
    let [right, wrong] = [[FIRST, SECOND].concat(), [FIRST, uncovered].concat()];
    assert_eq!(flat::cut_many(2, &flat::Tables { b: &wrong, ..tables }, &mut out), Err(Refusal::Uncovered));
    assert_eq!(flat::cut_many(2, &flat::Tables { b: &right, ..tables }, &mut out), Err(Refusal::Short));
    assert_eq!((a_starts, b), ([7; 3], [7.0; 12]));
}
