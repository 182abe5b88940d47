//! Many exposures against one dome: one marker set photographed several times. A stays, only b differs.
//!
//! One call cuts the problem with all right hand sides: what a solver works out from A, here the entries of each row,
//! serves all of them. `cargo run --example exposures` prints how far each exposure's slacks reach.

use tejiwakpa::{cut_many, Problem, Refusal};

// the right hand side of each exposure: brighter from one to the next
fn exposures(problem: &Problem, count: usize) -> Vec<Vec<f64>> {
    (1..=count).map(|exposure| problem.b.iter().map(|value| value * exposure as f64).collect()).collect()
}

/// What is worked out once: the entries of each row of the augmented A, as column and value.
fn by_row(problem: &Problem) -> Vec<Vec<(usize, f64)>> {
    let mut rows = vec![vec![]; problem.b.len()];
    for column in 0..problem.q.len() {
        problem.a.column(column).for_each(|(row, value)| rows[row as usize].push((column, value)));
    }
    rows
}

// b less A times x: the slacks that this x has
fn slacks(rows: &[Vec<(usize, f64)>], b: &[f64], x: &[f64]) -> Vec<f64> {
    let product = |row: &Vec<(usize, f64)>| row.iter().map(|&(column, value)| value * x[column]).sum::<f64>();
    rows.iter().zip(b).map(|(row, b)| b - product(row)).collect()
}

fn main() -> Result<(), Refusal> {
    let problem = Problem::three_projectors();
    let (augmented, sides) = cut_many(&problem, &exposures(&problem, 4))?;
    let rows = by_row(&augmented.problem);
    let x = [0.1, 0.0];
    for (exposure, b) in sides.iter().enumerate() {
        let largest = slacks(&rows, b, &x).iter().fold(0.0f64, |most, s| s.abs().max(most));
        println!("exposure {exposure}: slacks up to {largest:.2}");
    }
    Ok(())
}

#[test]
fn each_exposure_is_cut_as_if_alone() {
    use tejiwakpa::{cut, Route};

    let problem = Problem::three_projectors();
    let exposures = exposures(&problem, 64);
    let (augmented, sides) = cut_many(&problem, &exposures).unwrap();
    let rows = by_row(&augmented.problem);
    for (b, side) in exposures.into_iter().zip(sides) {
        let single = cut(Route::Compact, &Problem { b, ..problem.clone() }).unwrap();
        assert_eq!(single.problem.b, side);
        let x = [0.1, 0.2];
        assert_eq!(slacks(&by_row(&single.problem), &single.problem.b, &x), slacks(&rows, &side, &x));
    }
}
