//! Repeated entries of A: two cameras see a marker, and the exporter writes its row twice in a column.

use tejiwakpa::{cut, same_layout, sizes, Columns, Cone, Problem, Refusal, Route};

// three projectors and a nonnegative row, with runs in both cones
fn two_cameras() -> Problem {
    let mut problem = Problem::three_projectors();
    problem.cones.push(Cone::Nonnegative(1));
    problem.m += 1;
    problem.b.push(9.0);
    problem.a = Columns {
        starts: vec![0, 8],
        rows: vec![0, 2, 2, 2, 4, 5, 6, 6],
        values: vec![-0.0, 1e16, 1.0, -1e16, 40.0, 50.0, 2.0, -2.0],
    };
    problem
}

fn bits(values: &[f64]) -> Vec<u64> {
    values.iter().map(|v| v.to_bits()).collect()
}

#[test]
fn compact_runs_become_sums() {
    let problem = two_cameras();
    assert_eq!(sizes(Route::Compact, &problem).unwrap().a_rows, 7);
    let a = cut(Route::Compact, &problem).unwrap().problem.a;
    assert_eq!(a.starts, [0, 5, 7]);
    assert_eq!(a.rows, [0, 1, 2, 3, 6, 0, 5]);
    // 1e16 + 1 is 1e16, so the run of row 2 comes to 0; from_left_to_right has other orders of it.
    // An entry alone keeps its bits, and a sum that is 0 stays an entry.
    assert_eq!(bits(&a.values), bits(&[0.0, 40.0, 50.0, -0.0, 0.0, -1.0, 1.0]));
}

#[test]
fn from_left_to_right() {
    let mut problem = two_cameras();
    problem.a.values[1..4].copy_from_slice(&[1e16, -1e16, 1.0]);
    assert_eq!(cut(Route::Compact, &problem).unwrap().problem.a.values[0], 1.0);
    problem.a.values[1..4].copy_from_slice(&[1.0, 1e16, -1e16]);
    assert_eq!(cut(Route::Compact, &problem).unwrap().problem.a.values[0], 0.0);
    // the first is kept as it is, so a run of -0.0 stays -0.0
    problem.a.values[1..4].fill(-0.0);
    assert_eq!(bits(&cut(Route::Compact, &problem).unwrap().problem.a.values[..1]), bits(&[-0.0]));
}

#[test]
fn standard_keeps_them_as_stored() {
    let problem = two_cameras();
    assert_eq!(sizes(Route::Standard, &problem).unwrap().a_rows, 8 + 2 * 7);
    let a = cut(Route::Standard, &problem).unwrap().problem.a;
    assert_eq!(a.rows[..8], problem.a.rows);
    assert_eq!(bits(&a.values[..8]), bits(&problem.a.values));
}

#[test]
fn the_cut_of_the_sums() {
    let problem = two_cameras();
    let once = Columns { starts: vec![0, 5], rows: vec![0, 2, 4, 5, 6], values: vec![-0.0, 0.0, 40.0, 50.0, 0.0] };
    let summed = Problem { a: once, ..problem.clone() };
    assert_eq!(cut(Route::Compact, &problem), cut(Route::Compact, &summed));
    // stored places differ all the same
    assert_eq!(same_layout(&problem, &summed), Ok(false));
}

#[test]
fn what_is_still_refused() {
    let mut falls = two_cameras();
    falls.a.rows.swap(3, 4);
    assert_eq!(cut(Route::Compact, &falls), Err(Refusal::Rows));
    let mut outside = two_cameras();
    outside.a.rows[7] = 7;
    assert_eq!(cut(Route::Standard, &outside), Err(Refusal::Rows));
    let mut in_p = two_cameras();
    in_p.p = Columns { starts: vec![0, 2], rows: vec![0, 0], values: vec![1.0, 2.0] };
    assert_eq!(cut(Route::Compact, &in_p), Err(Refusal::Rows));
    // a run where no clique covers, even one whose sum is 0
    let mut uncovered = two_cameras();
    uncovered.a.rows[1..4].fill(3);
    assert_eq!(cut(Route::Compact, &uncovered), Err(Refusal::Uncovered));
}
