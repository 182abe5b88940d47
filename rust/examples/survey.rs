//! A survey sheet: each marker's position is known only as a low and a high value.
//!
//! One call cuts the problem with both. Whatever b the fit settles on between the limits is then augmented by reading it
//! into place, and stays between the augmented limits. `cargo run --example survey` prints both.

use tejiwakpa::{cut, cut_between, Limits, Problem, Refusal, Route};

/// A line of the sheet: what was read, and how far off it may be.
struct Reading {
    value: f64,
    tolerance: f64,
}

fn sheet(problem: &Problem) -> Vec<Reading> {
    let tolerance = |row: usize| if row.is_multiple_of(2) { 0.01 } else { 0.05 };
    // nothing is measured in the row that no clique covers
    let line =
        |(row, &value): (usize, &f64)| Reading { value, tolerance: if value == 0.0 { 0.0 } else { tolerance(row) } };
    problem.b.iter().enumerate().map(line).collect()
}

fn limits(sheet: &[Reading]) -> Limits {
    Limits {
        low: sheet.iter().map(|r| r.value - r.tolerance).collect(),
        high: sheet.iter().map(|r| r.value + r.tolerance).collect(),
    }
}

// the problem with a b that lies `share` of the way from the low limits to the high ones
fn settled(problem: &Problem, limits: &Limits, share: f64) -> Problem {
    let at = |(low, high): (&f64, &f64)| low + share * (high - low);
    Problem { b: limits.low.iter().zip(&limits.high).map(at).collect(), ..problem.clone() }
}

fn main() -> Result<(), Refusal> {
    let problem = Problem::three_projectors();
    let limits = limits(&sheet(&problem));
    let (_, between) = cut_between(&problem, &limits)?;
    let b = cut(Route::Compact, &settled(&problem, &limits, 0.5))?.problem.b;
    for (row, b) in b.iter().enumerate() {
        println!("  row {row}: {:.2} to {:.2}, settled at {b:.2}", between.low[row], between.high[row]);
    }
    println!("between the limits: {}", between.hold(&b));
    Ok(())
}

#[test]
fn a_settled_side_stays_between() {
    let problem = Problem::three_projectors();
    let limits = limits(&sheet(&problem));
    let (augmented, between) = cut_between(&problem, &limits).unwrap();
    for share in [0.0, 0.25, 0.5, 1.0] {
        let settled = settled(&problem, &limits, share);
        assert!(limits.hold(&settled.b));
        let made = cut(Route::Compact, &settled).unwrap();
        assert!(between.hold(&made.problem.b));
        // all else is as it was cut with the limits
        let other = Problem { b: augmented.problem.b.clone(), ..made.problem };
        assert_eq!((other, made.map), (augmented.problem.clone(), augmented.map.clone()));
    }
}
