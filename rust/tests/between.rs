//! The compact cut with a low and a high limit for each value of b.

use tejiwakpa::{cut, cut_between, flat, Limits, Problem, Refusal, Route};

fn limits(low: [f64; 6], high: [f64; 6]) -> Limits {
    Limits { low: low.into(), high: high.into() }
}

const LOW: [f64; 6] = [-1.0, f64::NEG_INFINITY, 3.0, -0.0, 4.0, 0.0];
const HIGH: [f64; 6] = [1.0, 2.0, 3.0, 0.0, f64::INFINITY, -0.0];

#[test]
fn what_two_cuts_give() {
    let problem = Problem::three_projectors();
    let given = limits(LOW, HIGH);
    let (augmented, between) = cut_between(&problem, &given).unwrap();
    for (list, result) in [(given.low, &between.low), (given.high, &between.high)] {
        let single = cut(Route::Compact, &Problem { b: list, ..problem.clone() }).unwrap();
        assert_eq!(&single.problem.b, result);
        // no zero keeps its sign
        assert!(result.iter().all(|v| *v != 0.0 || v.is_sign_positive()));
        let low = Problem { b: between.low.clone(), ..single.problem };
        assert_eq!((low, &single.map), (augmented.problem.clone(), &augmented.map));
    }
}

#[test]
fn the_problem_s_own_b_is_not_read() {
    let problem = Problem { b: vec![f64::NAN; 3], ..Problem::three_projectors() };
    assert!(cut_between(&problem, &limits(LOW, HIGH)).is_ok());
}

#[test]
fn refused() {
    let problem = Problem::three_projectors();
    let number = |change: &dyn Fn(&mut Limits)| {
        let mut given = limits(LOW, HIGH);
        change(&mut given);
        cut_between(&problem, &given).map(|_| ())
    };
    assert_eq!(number(&|_| ()), Ok(()));
    assert_eq!(number(&|l| l.low[0] = 1.0 + f64::EPSILON), Err(Refusal::Limits));
    assert_eq!(number(&|l| l.low[0] = f64::NAN), Err(Refusal::Limits));
    assert_eq!(number(&|l| l.high[0] = f64::NAN), Err(Refusal::Limits));
    assert_eq!(number(&|l| l.low.truncate(5)), Err(Refusal::Cones));
    assert_eq!(number(&|l| l.high.push(9.0)), Err(Refusal::Cones));
    // no clique covers row 3: both values have to be zero
    assert_eq!(number(&|l| l.high[3] = 1.0), Err(Refusal::Uncovered));
    assert_eq!(number(&|l| l.low[3] = -1.0), Err(Refusal::Uncovered));
}

#[test]
fn sixteen_stands_between_four_and_five() {
    let wrong = limits(HIGH, LOW);
    let mut problem = Problem::three_projectors();
    problem.patterns[0].cliques[1].snode[0] = 0;
    assert_eq!(cut_between(&problem, &limits(LOW, HIGH)), Err(Refusal::Cliques));
    assert_eq!(cut_between(&problem, &wrong), Err(Refusal::Limits));
    problem.m = 7;
    assert_eq!(cut_between(&problem, &wrong), Err(Refusal::Cones));
    problem.a.rows[0] = 9;
    assert_eq!(cut_between(&problem, &wrong), Err(Refusal::Rows));
}

#[test]
fn nothing_is_written_by_a_refused_call() {
    let problem = Problem::three_projectors();
    let words = problem.words();
    let (mut p_starts, mut q, mut a_starts) = ([7; 3], [7.0; 2], [7; 3]);
    let (mut a_rows, mut a_values, mut b_low, mut b_high) = ([7; 7], [7.0; 7], [7.0; 6], [7.0; 6]);
    let (mut cones, mut map) = ([7; 6], [7; 10]);
    let mut out = flat::BetweenOutputs {
        p_starts: &mut p_starts,
        q: &mut q,
        a_starts: &mut a_starts,
        a_rows: &mut a_rows,
        a_values: &mut a_values,
        b_low: &mut b_low,
        // one short
        b_high: &mut b_high[..5],
        cones: &mut cones,
        map: &mut map,
        ..flat::BetweenOutputs::default()
    };
    assert_eq!(flat::cut_between(&problem.tables(&words), &LOW, &HIGH, &mut out), Err(Refusal::Short));
    assert_eq!(flat::cut_between(&problem.tables(&words), &HIGH, &LOW, &mut out), Err(Refusal::Limits));
    assert_eq!((p_starts, q, a_starts, a_rows), ([7; 3], [7.0; 2], [7; 3], [7; 7]));
    assert_eq!((a_values, b_low, b_high, cones, map), ([7.0; 7], [7.0; 6], [7.0; 6], [7; 6], [7; 10]));
}
