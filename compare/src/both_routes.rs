//! Tests document 02, Q-13: x and blocks that satisfy the equations of one route's written A and b satisfy the other's,
//! and damaged ones satisfy neither. All sums are whole counts, over a denominator.

use crate::case_draws;
use crate::door;
use crate::exact::Exact;
use crate::expected::{self, Row};
use crate::problem::*;
use crate::random::{self, Draws};
use crate::report::*;

// returns the written A and b of a route
fn written(route: Route, p: &Problem) -> Option<(Columns, Vec<f64>)> {
    let out = door::cut_made(route, p).ok()?;
    Some((Columns { starts: out.a_starts, rows: out.a_rows, values: out.a_values }, out.b))
}

// returns whether the columns before n times x, those from n on (+1 and -1) times y, and the slacks sum to d times b
fn meets(a: &Columns, b: &[f64], d: i64, x: &[i64], y: &[Exact], slacks: &[Exact]) -> bool {
    let mut left = slacks.to_vec();
    for column in 0..a.starts.len() - 1 {
        for at in a.starts[column] as usize..a.starts[column + 1] as usize {
            let row = a.rows[at] as usize;
            let term = match column.checked_sub(x.len()) {
                None => Exact::of(a.values[at]).times(x[column]),
                Some(k) => y[k].times(a.values[at] as i64),
            };
            left[row] = left[row].plus(&term);
        }
    }
    left.iter().zip(b).all(|(l, &v)| *l == Exact::of(v).times(d))
}

// returns the only added unknowns that can satisfy the compact equations: an overlap's own row gives its unknown, the last first
fn compact_unknowns(rows: &[Row], b: &[f64], d: i64, slacks: &[Exact]) -> Vec<Exact> {
    let overlaps: Vec<(usize, usize)> =
        rows.iter().enumerate().filter_map(|(r, row)| row.parent_row().map(|parent| (r, parent))).collect();
    let mut y = vec![Exact::zero(); overlaps.len()];
    for k in (0..overlaps.len()).rev() {
        let own = overlaps[k].0;
        let mut value = Exact::of(b[own]).times(d).minus(&slacks[own]);
        for (j, &(_, parent)) in overlaps.iter().enumerate() {
            if parent == own {
                value = value.plus(&y[j]);
            }
        }
        y[k] = value;
    }
    y
}

// small numbers, some of them halves
fn small(d: &mut Draws) -> f64 {
    (d.below(41) as f64 - 20.0) / 2.0
}

fn case(report: &mut Report, d: &mut Draws) {
    let mut p = random::problem(d, random::SMALL);
    for v in p.a.values.iter_mut().chain(p.b.iter_mut().filter(|v| **v != 0.0)) {
        *v = small(d);
    }
    let (Some((standard_a, standard_b)), Some((compact_a, compact_b))) =
        (written(Route::Standard, &p), written(Route::Compact, &p))
    else {
        return;
    };
    let layout = expected::first_seven(&p).ok().expect("an accepted problem");
    let rows = layout.compact_rows();
    let order = layout.standard_order();
    let denominator = 1 + d.below(5) as i64;
    let mut x: Vec<i64> = (0..p.n).map(|_| d.below(21) as i64 - 10).collect();
    // what remains of each original row, to be divided among its blocks
    let mut left: Vec<Exact> = p.b.iter().map(|&v| Exact::of(v).times(denominator)).collect();
    for column in 0..p.n as usize {
        for at in p.a.starts[column] as usize..p.a.starts[column + 1] as usize {
            let row = p.a.rows[at] as usize;
            left[row] = left[row].minus(&Exact::of(p.a.values[at]).times(x[column]));
        }
    }
    let mut slacks = vec![Exact::zero(); rows.len()];
    for (r, row) in rows.iter().enumerate() {
        let o = row.original();
        let last = !rows[r + 1..].iter().any(|later| later.original() == o);
        slacks[r] = if last { left[o].clone() } else { Exact::of(small(d)) };
        left[o] = left[o].minus(&slacks[r]);
    }
    let damaged = d.chance(50) && !(rows.is_empty() && x.is_empty());
    if damaged {
        if !rows.is_empty() && (x.is_empty() || d.chance(70)) {
            let at = d.below(rows.len());
            slacks[at] = slacks[at].plus(&Exact::of(1.0));
        } else {
            let at = d.below(x.len());
            x[at] += 1;
        }
    }
    // the same blocks in standard order, after m slacks that are zero; the added unknowns can only be the blocks
    let blocks: Vec<Exact> = order.iter().map(|&r| slacks[r].clone()).collect();
    let mut standard_slacks = vec![Exact::zero(); p.m as usize];
    standard_slacks.extend(blocks.iter().cloned());
    let on_standard = meets(&standard_a, &standard_b, denominator, &x, &blocks, &standard_slacks);
    let unknowns = compact_unknowns(&rows, &compact_b, denominator, &slacks);
    let on_compact = meets(&compact_a, &compact_b, denominator, &x, &unknowns, &slacks);
    if on_standard != on_compact {
        report.fail("one route's equations are met and the other's are not", p.weight(), || problem_text(&p));
    }
    if !damaged && !on_standard {
        report.fail("a solution meets neither route's equations", p.weight(), || problem_text(&p));
    }
    report.count(if on_standard { "solutions that meet both routes" } else { "solutions that meet neither route" });
}

/// Tests `cases` random problems, each with a solution, which is damaged about half of the time.
pub fn compare(report: &mut Report, cases: u64, seed: u64) {
    for index in 0..cases {
        case(report, &mut case_draws(seed, index));
    }
}
