//! A fit that began on the standard route goes on with the compact one from where it is.
//!
//! The solver here is the plainest that will do: steps down the squared residual of the augmented equations, with no cone.
//! `cargo run --example change_route` prints the largest residual as it goes.

use tejiwakpa::{change_route, cut, join, original_residual, Cone, Problem, Refusal, Route, Solution};

/// A fit of an augmented problem, from any solution of its lengths.
struct Fit<'a> {
    problem: &'a Problem,
    solution: Solution,
}

// short enough for problems whose entries are below 1
const STEP: f64 = 0.2;

impl<'a> Fit<'a> {
    fn from_zero(problem: &'a Problem) -> Fit<'a> {
        let rows = vec![0.0; problem.b.len()];
        Fit {
            problem,
            solution: Solution { x: vec![0.0; problem.q.len()], s: rows.clone(), z: rows, tau: 1.0, kappa: 0.0 },
        }
    }

    // A x + s - b
    fn residual(&self) -> Vec<f64> {
        let mut out: Vec<f64> = self.solution.s.iter().zip(&self.problem.b).map(|(s, b)| s - b).collect();
        for (column, x) in self.solution.x.iter().enumerate() {
            self.problem.a.column(column).for_each(|(row, value)| out[row as usize] += value * x);
        }
        out
    }

    fn largest(&self) -> f64 {
        self.residual().iter().fold(0.0, |most, r| r.abs().max(most))
    }

    fn steps(&mut self, count: usize) {
        // the slacks of a zero cone stay zero
        let fixed = match self.problem.cones.first() {
            Some(Cone::Zero(rows)) => *rows as usize,
            _ => 0,
        };
        for _ in 0..count {
            let residual = self.residual();
            for (column, x) in self.solution.x.iter_mut().enumerate() {
                let slope: f64 = self.problem.a.column(column).map(|(row, value)| value * residual[row as usize]).sum();
                *x -= STEP * slope;
            }
            let free = self.solution.s.iter_mut().zip(&residual).skip(fixed);
            free.for_each(|(s, r)| *s -= STEP * r);
        }
    }
}

// three projectors with one seam, their entries below 1
fn dome() -> Problem {
    let mut problem = Problem::three_projectors();
    problem.a.values = vec![0.1, 0.2, 0.3, 0.4, 0.5];
    problem
}

// the largest residual where the standard fit stops, where the compact one goes on and where it ends, and the joined solution
fn fitted(problem: &Problem) -> Result<([f64; 3], Solution), Refusal> {
    let standard = cut(Route::Standard, problem)?.problem;
    let mut fit = Fit::from_zero(&standard);
    fit.steps(30);
    let stopped = fit.largest();

    let compact = cut(Route::Compact, problem)?;
    let mut fit = Fit { problem: &compact.problem, solution: change_route(problem, &fit.solution)? };
    let started = fit.largest();
    fit.steps(400);
    let joined = join(Route::Compact, problem, &compact.map, &fit.solution)?;
    Ok(([stopped, started, fit.largest()], joined))
}

fn main() -> Result<(), Refusal> {
    let ([stopped, started, ended], joined) = fitted(&dome())?;
    println!("standard route, after 30 steps: {stopped:.2e}");
    println!("compact route, from there: {started:.2e}, after 400 steps: {ended:.2e}");
    println!("slacks {:.3?}, original residual {:.2e}", joined.s, original_residual(&dome(), &joined));
    Ok(())
}

#[test]
fn goes_on() {
    let problem = dome();
    let ([_, started, ended], joined) = fitted(&problem).unwrap();
    // nearer than from zero, and in the end there
    let compact = cut(Route::Compact, &problem).unwrap().problem;
    assert!(started < Fit::from_zero(&compact).largest());
    assert!(ended < 1e-9);
    // the original equations, which a site watches
    assert!(original_residual(&problem, &joined) < 1e-8);
}
