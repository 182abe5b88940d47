//! Reuse: what a solver keeps from one fit to the next, for as long as the problems have the same layout.
//!
//! A fit needs the augmented problem and a symbolic result: here for each row the entries of the augmented A that stand
//! in it, worked out from its starts and rows. Where `same_layout` answers yes, both problems' cuts have the same starts
//! and rows of A, the same cones and the same map. So the buffers of the first cut take the second one, and the symbolic
//! result is right for it: no call of `sizes`, no allocation, no second analysis. Where it answers no, by as little as
//! the sign of an exponent's zero, all of it is made anew. `cargo run --example reuse` prints which is done, and why.

use tejiwakpa::{flat, same_layout, sizes, Cone, Problem, Refusal, Route};

const ROUTE: Route = Route::Compact;

/// The outputs of the cut, kept from one fit to the next.
struct Buffers {
    p_starts: Vec<u32>,
    p_rows: Vec<u32>,
    p_values: Vec<f64>,
    q: Vec<f64>,
    a_starts: Vec<u32>,
    a_rows: Vec<u32>,
    a_values: Vec<f64>,
    b: Vec<f64>,
    cones: Vec<u32>,
    alphas: Vec<f64>,
    map: Vec<u32>,
}

impl Buffers {
    fn new(problem: &Problem) -> Result<Buffers, Refusal> {
        let lengths = sizes(ROUTE, problem)?;
        Ok(Buffers {
            p_starts: vec![0; lengths.p_starts],
            p_rows: vec![0; lengths.p_rows],
            p_values: vec![0.0; lengths.p_values],
            q: vec![0.0; lengths.q],
            a_starts: vec![0; lengths.a_starts],
            a_rows: vec![0; lengths.a_rows],
            a_values: vec![0.0; lengths.a_values],
            b: vec![0.0; lengths.b],
            cones: vec![0; lengths.cones],
            alphas: vec![0.0; lengths.alphas],
            map: vec![0; lengths.map],
        })
    }

    // cuts the problem into the buffers; a refused cut leaves them as they are
    fn cut(&mut self, problem: &Problem) -> Result<(), Refusal> {
        let mut out = flat::CutOutputs {
            p_starts: &mut self.p_starts,
            p_rows: &mut self.p_rows,
            p_values: &mut self.p_values,
            q: &mut self.q,
            a_starts: &mut self.a_starts,
            a_rows: &mut self.a_rows,
            a_values: &mut self.a_values,
            b: &mut self.b,
            cones: &mut self.cones,
            alphas: &mut self.alphas,
            map: &mut self.map,
        };
        flat::cut(ROUTE.number(), &problem.tables(&problem.words()), &mut out)
    }
}

/// The symbolic result: each row's entries, as their column and their place among A's values.
struct ByRow(Vec<Vec<(usize, usize)>>);

impl ByRow {
    fn new(cut: &Buffers) -> ByRow {
        let mut rows = vec![vec![]; cut.b.len()];
        for column in 0..cut.q.len() {
            for place in cut.a_starts[column] as usize..cut.a_starts[column + 1] as usize {
                rows[cut.a_rows[place] as usize].push((column, place));
            }
        }
        ByRow(rows)
    }

    // b less A times x: the slacks that this x has
    fn slacks(&self, cut: &Buffers, x: &[f64]) -> Vec<f64> {
        let row = |(entries, b): (&Vec<(usize, usize)>, &f64)| {
            entries.iter().fold(*b, |sum, &(column, place)| sum - cut.a_values[place] * x[column])
        };
        self.0.iter().zip(&cut.b).map(row).collect()
    }
}

/// What is kept: the problem that it was made from, the buffers and the symbolic result.
struct Kept {
    problem: Problem,
    buffers: Buffers,
    by_row: ByRow,
}

#[derive(Default)]
struct Solver {
    kept: Option<Kept>,
    analyses: usize,
}

impl Solver {
    // the slacks of one x; the kept result is used where it serves
    fn slacks(&mut self, problem: &Problem, x: &dyn Fn(usize) -> f64) -> Result<Vec<f64>, Refusal> {
        let serves = match &self.kept {
            Some(kept) => same_layout(&kept.problem, problem)?,
            None => false,
        };
        if !serves {
            // nothing kept is touched before the new cut is there
            let mut buffers = Buffers::new(problem)?;
            buffers.cut(problem)?;
            let by_row = ByRow::new(&buffers);
            self.kept = Some(Kept { problem: problem.clone(), buffers, by_row });
            self.analyses += 1;
        }
        let kept = self.kept.as_mut().expect("kept just now or before");
        if serves {
            kept.buffers.cut(problem)?;
        }
        let x: Vec<f64> = (0..kept.buffers.q.len()).map(x).collect();
        Ok(kept.by_row.slacks(&kept.buffers, &x))
    }
}

// three projectors, and a power cone with this exponent
fn dome(alpha: f64) -> Problem {
    let mut problem = Problem::three_projectors();
    problem.cones.push(Cone::Power(alpha));
    problem.m += 3;
    problem.b.extend([6.0, 7.0, 8.0]);
    problem
}

// fits one after the other; how many analyses each has made
fn run() -> Result<Vec<usize>, Refusal> {
    let first = dome(0.0);
    let mut brighter = first.clone();
    brighter.a.values.iter_mut().for_each(|v| *v *= 2.0);
    brighter.b[0] = -1.0;
    let mut moved = brighter.clone();
    moved.a.rows[4] = 6;
    let mut refused = moved.clone();
    refused.b[3] = 1.0;

    let fits = [
        ("the first dome", first),
        ("other values", brighter),
        ("another exponent, -0.0", dome(-0.0)),
        ("the same again", dome(-0.0)),
        ("an entry in another row", moved.clone()),
        ("a value where no clique covers", refused),
        ("that entry again", moved),
    ];
    let mut solver = Solver::default();
    let mut made = vec![];
    for (name, problem) in fits {
        let before = solver.analyses;
        let answer = solver.slacks(&problem, &|column| if column == 0 { 0.5 } else { 1.0 });
        let how = if solver.analyses > before { "analysed" } else { "kept buffers and analysis" };
        match &answer {
            Ok(slacks) => println!("{name}: {how}, slacks {slacks:?}"),
            Err(refusal) => println!("{name}: {refusal}"),
        }
        // the same as from an analysis of its own
        assert_eq!(answer, Solver::default().slacks(&problem, &|column| if column == 0 { 0.5 } else { 1.0 }));
        made.push(solver.analyses);
    }
    Ok(made)
}

fn main() -> Result<(), Refusal> {
    run().map(|_| ())
}

#[test]
fn analyses_no_more_than_it_must() {
    assert_eq!(run(), Ok(vec![1, 1, 2, 2, 3, 3, 3]));
}
