//! Tests document 02, Q-9: how far the s of a compact joining is from the exact sums, and what one moved block
//! value changes. Exact sums are whole counts; the joining is the door's if it is linked, otherwise the plain reading's.

use crate::case_draws;
use crate::door;
use crate::exact::Exact;
use crate::expected::{self, Row};
use crate::problem::*;
use crate::random::{self, Draws, Scale};
use crate::report::*;
use std::cmp::Ordering;

/// How close the worst error came to the bound, by the number of blocks at the row.
#[derive(Default)]
pub struct Nearest(std::collections::BTreeMap<usize, f64>);

impl Nearest {
    pub fn print(&self) {
        for (k, share) in &self.0 {
            println!("{k:>4} blocks at a row: the worst error is {share:.4} of the bound");
        }
    }
}

// a finite double from the whole range, or one whose sums round often
fn value(d: &mut Draws) -> f64 {
    loop {
        let v = match d.below(4) {
            0 => f64::from_bits(d.next()),
            1 => (d.next() as f64 / u64::MAX as f64 - 0.5) * 2f64.powi(d.below(60) as i32 - 30),
            2 => f64::from_bits(d.next() & 0x801f_ffff_ffff_ffff),
            _ => d.float(),
        };
        if v.is_finite() {
            return v;
        }
    }
}

fn joined_s(p: &Problem, solution: &Solution) -> Option<Vec<f64>> {
    let input = expected::join_input(p, solution);
    if door::LINKED {
        let mut out = door::JoinOutputs {
            x: vec![f64::NAN; p.n as usize],
            s: vec![f64::NAN; p.m as usize],
            z: vec![f64::NAN; p.m as usize],
            scalars: vec![f64::NAN; 2],
        };
        (door::join(Route::Compact.code(), &input, &mut out) == 0).then_some(out.s)
    } else {
        expected::join(Route::Compact, &input, None).ok().map(|j| j.s)
    }
}

struct Sums {
    blocks: usize,
    exact: Exact,
    magnitudes: Exact,
}

// returns the sums over the blocks' values that are added at an original row
fn sums(rows: &[Row], s: &[f64], original: usize) -> Sums {
    let mut out = Sums { blocks: 0, exact: Exact::zero(), magnitudes: Exact::zero() };
    for (row, &v) in rows.iter().zip(s) {
        if !row.is_kept() && row.original() == original {
            out.blocks += 1;
            out.exact = out.exact.plus(&Exact::of(v));
            out.magnitudes = out.magnitudes.plus(&Exact::of(v.abs()));
        }
    }
    out
}

// returns k times the sum of the magnitudes; errors times 2 to the 53 are compared with it
fn bound(sums: &Sums) -> Exact {
    sums.magnitudes.times(sums.blocks as i64)
}

fn case(report: &mut Report, nearest: &mut Nearest, d: &mut Draws, scale: Scale) {
    let p = random::problem(d, scale);
    let (Ok(layout), Some(shape)) = (expected::first_seven(&p), expected::solution_shape(Route::Compact, &p)) else {
        return;
    };
    let rows = layout.compact_rows();
    let mut solution = random::solution(d, &shape);
    solution.s = (0..shape.1).map(|_| value(d)).collect();
    let Some(before) = joined_s(&p, &solution) else {
        return;
    };
    let text = |p: &Problem, s: &Solution| format!("{}\n{}", problem_text(p), solution_text(s));
    for (o, &s) in before.iter().enumerate() {
        if rows.iter().any(|r| r.is_kept() && r.original() == o) {
            let at = rows.iter().position(|r| r.original() == o).unwrap();
            report.count("rows of undecomposed cones");
            if s.to_bits() != solution.s[at].to_bits() {
                report.fail("a row of an undecomposed cone is no copy", p.weight(), || text(&p, &solution));
            }
            continue;
        }
        if !s.is_finite() {
            continue;
        }
        let at = sums(&rows, &solution.s, o);
        let error = Exact::of(s).minus(&at.exact).magnitude().times_two_to_53();
        let allowed = bound(&at);
        report.count("sums of blocks");
        if error.compare(&allowed) == Ordering::Greater {
            report.fail("an error above its bound", p.weight(), || text(&p, &solution));
        }
        if allowed != Exact::zero() {
            let share = error.over(&allowed);
            let worst = nearest.0.entry(at.blocks).or_insert(0.0);
            *worst = worst.max(share);
        }
    }
    if rows.is_empty() {
        return;
    }
    // one block value is re-estimated
    let moved = d.below(rows.len());
    if rows[moved].is_kept() {
        return;
    }
    let mut other = solution.clone();
    other.s[moved] = value(d);
    let Some(after) = joined_s(&p, &other) else {
        report.fail("a solution with one value moved is refused", p.weight(), || text(&p, &other));
        return;
    };
    let row = rows[moved].original();
    for o in (0..before.len()).filter(|&o| o != row) {
        if before[o].to_bits() != after[o].to_bits() && !(before[o].is_nan() && after[o].is_nan()) {
            report.fail("another row of s changed", p.weight(), || text(&p, &other));
        }
    }
    report.count("block values moved");
    if before[row].is_finite() && after[row].is_finite() {
        let change = Exact::of(after[row]).minus(&Exact::of(before[row])).magnitude().times_two_to_53();
        let by = Exact::of(other.s[moved]).minus(&Exact::of(solution.s[moved])).magnitude().times_two_to_53();
        let allowed = by.plus(&bound(&sums(&rows, &solution.s, row))).plus(&bound(&sums(&rows, &other.s, row)));
        report.count("block values moved, finite before and after");
        if change.compare(&allowed) == Ordering::Greater {
            report.fail("s moved further than its bound", p.weight(), || text(&p, &other));
        }
    }
}

/// Tests `cases` random solutions.
pub fn compare(report: &mut Report, cases: u64, seed: u64) -> Nearest {
    let mut nearest = Nearest::default();
    for index in 0..cases {
        let mut d = case_draws(seed, index);
        let scale = if index % 20 == 19 { random::LARGE } else { random::SMALL };
        case(report, &mut nearest, &mut d, scale);
    }
    nearest
}
