//! Two camera passes over one dome: both see the same unknowns, each with its own projectors and measurements.
//!
//! The passes are pooled into one problem, which is cut once. A block of the second pass is found in the pool's cut by
//! its pattern's number, raised by the first's pattern count. `cargo run --example passes` prints where blocks stand.

use tejiwakpa::{cut, pool, Augmented, Problem, Refusal, Route};

// the second camera sees every marker a little higher
fn second_pass(first: &Problem) -> Problem {
    let b = first.b.iter().map(|value| if *value == 0.0 { 0.0 } else { value + 0.25 }).collect();
    Problem { b, ..first.clone() }
}

/// The values of b in a clique's block of a pass, in the pool's compact cut.
fn block<'a>(pooled: &Problem, made: &'a Augmented, first: &Problem, pass: usize, clique: usize) -> &'a [f64] {
    let pattern = if pass == 0 { 0 } else { first.patterns.len() };
    let place = pooled.map_place(pattern, clique).expect("a clique of the pass");
    &made.problem.b[made.map[place].range()]
}

fn main() -> Result<(), Refusal> {
    let first = Problem::three_projectors();
    let pooled = pool(&first, &second_pass(&first))?;
    let made = cut(Route::Compact, &pooled)?;
    println!("{} unknowns and {} rows, cut into {} blocks", pooled.n, pooled.m, made.map.len());
    for pass in 0..2 {
        for clique in 0..2 {
            println!("  pass {pass}, clique {clique}: {:?}", block(&pooled, &made, &first, pass, clique));
        }
    }
    Ok(())
}

#[test]
fn the_cut_is_that_of_the_passes_in_turn() {
    let first = Problem::three_projectors();
    let second = second_pass(&first);
    let pooled = pool(&first, &second).unwrap();
    let made = cut(Route::Compact, &pooled).unwrap();
    let alone = [&first, &second].map(|pass| cut(Route::Compact, pass).unwrap());
    // the first's rows above the second's
    assert_eq!(made.problem.b, [&alone[0].problem.b[..], &alone[1].problem.b].concat());
    let rows = alone[0].problem.b.len() as u32;
    // the shared unknown's column holds both, then come the first's overlap and the second's
    let raised = |pass: usize, column: usize| {
        alone[pass].problem.a.column(column).map(|(row, value)| (row + pass as u32 * rows, value)).collect::<Vec<_>>()
    };
    let column = |c: usize| made.problem.a.column(c).collect::<Vec<_>>();
    assert_eq!(column(0), [raised(0, 0), raised(1, 0)].concat());
    assert_eq!((column(1), column(2)), (raised(0, 1), raised(1, 1)));
    assert_eq!(block(&pooled, &made, &first, 1, 0), [1.25, 2.25, 0.0]);
}
