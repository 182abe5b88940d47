//! Test loads (document 02, Q-5): compares the door's generator with the plain reading, and both cuts and joinings of its
//! problems with clarabel's; and prints what crate test_load prints, from the plain reading.
#![cfg_attr(not(door), allow(dead_code))]

use crate::added::as_tables;
use crate::door::*;
use crate::generated::Load;
use crate::pool::lengths;
use crate::problem::*;
use crate::random::{self, Draws};
use crate::report::*;
use crate::{added, against, case_draws, expected};
use std::fmt::Write;

#[cfg(door)]
#[allow(clippy::too_many_arguments)]
mod c {
    extern "C" {
        pub fn chordal_generate_sizes(seed: u64, v: u32, w: u32, n: u32, out: *mut u32, out_len: usize) -> u32;
        pub fn chordal_generate(
            seed: u64,
            v: u32,
            w: u32,
            n: u32,
            p_starts_out: *mut u32,
            p_starts_out_len: usize,
            p_rows_out: *mut u32,
            p_rows_out_len: usize,
            p_values_out: *mut f64,
            p_values_out_len: usize,
            q_out: *mut f64,
            q_out_len: usize,
            a_starts_out: *mut u32,
            a_starts_out_len: usize,
            a_rows_out: *mut u32,
            a_rows_out_len: usize,
            a_values_out: *mut f64,
            a_values_out_len: usize,
            b_out: *mut f64,
            b_out_len: usize,
            cones_out: *mut u32,
            cones_out_len: usize,
            alphas_out: *mut f64,
            alphas_out_len: usize,
            pattern_words_out: *mut u32,
            pattern_words_out_len: usize,
        ) -> u32;
    }
}

// ---- the door's calls

pub fn generate_sizes(l: Load, out: &mut [u32]) -> u32 {
    #[cfg(not(door))]
    {
        let _ = (l, out);
        unreachable!("the door is not linked")
    }
    #[cfg(door)]
    unsafe {
        c::chordal_generate_sizes(l.seed, l.v, l.w, l.n, out.as_mut_ptr(), out.len())
    }
}

/// The door's generator. The pattern words are in the map's place.
pub fn generate(l: Load, o: &mut CutOutputs) -> u32 {
    #[cfg(not(door))]
    {
        let _ = (l, o);
        unreachable!("the door is not linked")
    }
    #[cfg(door)]
    unsafe {
        c::chordal_generate(
            l.seed,
            l.v,
            l.w,
            l.n,
            o.p_starts.as_mut_ptr(),
            o.p_starts.len(),
            o.p_rows.as_mut_ptr(),
            o.p_rows.len(),
            o.p_values.as_mut_ptr(),
            o.p_values.len(),
            o.q.as_mut_ptr(),
            o.q.len(),
            o.a_starts.as_mut_ptr(),
            o.a_starts.len(),
            o.a_rows.as_mut_ptr(),
            o.a_rows.len(),
            o.a_values.as_mut_ptr(),
            o.a_values.len(),
            o.b.as_mut_ptr(),
            o.b.len(),
            o.cones.as_mut_ptr(),
            o.cones.len(),
            o.alphas.as_mut_ptr(),
            o.alphas.len(),
            o.map.as_mut_ptr(),
            o.map.len(),
        )
    }
}

// ---- comparison

/// Compares the door's sizes and problem with the plain reading's.
pub fn compare_load(report: &mut Report, d: &mut Draws, load: Load) {
    let short = d.chance(10);
    let space = room(d, 11, short);
    let mut out = words(space);
    let number = generate_sizes(load, &mut out);
    let expected = load.sizes(space);
    let front: Vec<u32> = expected.iter().flatten().map(|&length| length as u32).collect();
    let wrong = (out != words_after(&front, space)).then_some("sizes");
    let weight = load.v as usize + load.n as usize;
    judge(report, "generated sizes", expected.err().unwrap_or(0), number, wrong, weight, || {
        format!("  {load:?} room {space} expected {expected:?} got {out:?}")
    });

    let mut rooms = load.problem(None).map_or([3; 11], |p| lengths(&p));
    let short = if d.chance(20) { d.below(11) } else { 11 };
    for (i, space) in rooms.iter_mut().enumerate() {
        *space = room(d, *space, i == short);
    }
    let mut out = cut_outputs(&rooms);
    let number = generate(load, &mut out);
    let expected = load.problem(Some(&rooms));
    let refusal = expected.as_ref().err().copied().unwrap_or(0);
    let wrong = cut_wrong(&out, &expected.map(as_tables).unwrap_or_default(), &rooms);
    let wrong = wrong.map(|what| if what == "map" { "pattern words" } else { what });
    judge(report, "generated problem", refusal, number, wrong, weight, || format!("  {load:?} rooms {rooms:?}"));
}

// cuts and joins a problem on both routes, by clarabel and by the door; no call may refuse it
fn compare_routes(report: &mut Report, d: &mut Draws, load: Load) {
    let Ok(p) = load.problem(None) else { return };
    for route in [Route::Standard, Route::Compact] {
        match expected::accepted(route, &p) {
            Ok(_) => report.count(format!("{}: a load is accepted", route.name())),
            Err(number) => {
                let what = format!("{}: a load is refused, {number}", route.name());
                report.fail(what, p.weight(), || format!("  {load:?}"));
                continue;
            }
        }
        let shape = expected::solution_shape(route, &p).unwrap_or_default();
        let solution = random::solution(d, &shape);
        against::compare(report, route, &p, Some(&solution), d.below(4));
        if LINKED {
            compare_cut(report, d, route, &p);
            compare_join(report, d, route, &p, &solution);
            if route == Route::Standard {
                added::compare_change_route(report, d, &p, &solution);
            }
        }
    }
}

// numbers within their ranges, at the ends and beyond
fn some_load(d: &mut Draws) -> Load {
    let most = if d.chance(10) { 64 } else { 16 };
    let v = 2 + d.below(most - 1) as u32;
    let mut load =
        Load { seed: d.next().max(1), v, w: 1 + d.below(v as usize - 1) as u32, n: 1 + d.below(most.min(9)) as u32 };
    let far = |d: &mut Draws| [0, 1, 2, 63, 64, 65, 1 << 31, u32::MAX, d.next() as u32][d.below(9)];
    if d.chance(25) {
        for _ in 0..1 + d.below(2) {
            match d.below(7) {
                0 => load.seed = 0,
                1 => load.seed = [1, 1 << 63, u64::MAX, 1 << 32][d.below(4)],
                2 => load.v = far(d),
                3 => load.w = far(d),
                4 => load.w = load.v,
                5 => load.w = load.v.saturating_sub(1),
                _ => load.n = far(d),
            }
        }
    }
    load
}

/// Runs every vertex count with every band through both routes, then `cases` random loads, which are cut if they are
/// small, and now and then if they are not.
pub fn compare(report: &mut Report, cases: u64, seed: u64) {
    let mut d = case_draws(seed, 0);
    let mut pairs = 0;
    for v in 2..=64 {
        for w in 1..v {
            // clarabel panics on a problem without entries and overlaps
            let load = std::iter::repeat_with(|| Load { seed: d.next().max(1), v, w, n: 1 })
                .find(|load| load.problem(None).is_ok_and(|p| !p.a.rows.is_empty()))
                .unwrap();
            if LINKED {
                compare_load(report, &mut d, load);
            }
            compare_routes(report, &mut d, load);
            pairs += 1;
        }
    }
    println!("{pairs} pairs of a vertex count and a band");
    for index in 0..cases {
        let d = &mut case_draws(seed, index + 1);
        let load = some_load(d);
        if LINKED {
            compare_load(report, d, load);
        }
        if load.v <= 6 || index % 64 == 0 {
            compare_routes(report, d, load);
        }
    }
}

// ---- what crate test_load prints

const TEST_LOADS: [(u64, u32, u32, u32); 19] = [
    (1, 2, 1, 1),
    (1, 3, 1, 1),
    (2, 3, 2, 2),
    (3, 8, 2, 4),
    (u64::MAX, 8, 7, 1),
    (20_261_116, 16, 5, 8),
    (1 << 63, 20, 4, 64),
    (5, 32, 31, 4),
    (88_172_645_463_325_252, 48, 8, 16),
    (7, 64, 1, 32),
    (11, 64, 24, 2),
    (13, 64, 63, 3),
    (0, 8, 2, 4),
    (1, 1, 1, 1),
    (1, 65, 2, 4),
    (1, 8, 0, 4),
    (1, 8, 8, 4),
    (1, 8, 2, 0),
    (1, 8, 2, 65),
];

// tables of u32 and of f64, one after the other; each number is combined by exclusive or, and the three steps of a draw follow
fn checksum(t: &Cut) -> u64 {
    let words = |list: &[u32]| list.iter().map(|&x| x as u64).collect::<Vec<u64>>();
    let bits = |list: &[f64]| list.iter().map(|x| x.to_bits()).collect::<Vec<u64>>();
    let tables = [
        words(&t.p.starts),
        words(&t.p.rows),
        bits(&t.p.values),
        bits(&t.q),
        words(&t.a.starts),
        words(&t.a.rows),
        bits(&t.a.values),
        bits(&t.b),
        words(&t.cones),
        bits(&t.alphas),
        words(&t.map),
    ];
    tables.iter().flatten().fold(1, |sum, number| {
        let mut s: u64 = sum ^ number;
        s ^= s << 13;
        s ^= s >> 7;
        s ^ s << 17
    })
}

fn tables_text(t: &Cut) -> String {
    let lengths = [
        t.p.starts.len(),
        t.p.rows.len(),
        t.p.values.len(),
        t.q.len(),
        t.a.starts.len(),
        t.a.rows.len(),
        t.a.values.len(),
        t.b.len(),
        t.cones.len(),
        t.alphas.len(),
        t.map.len(),
    ];
    let shown: String = lengths.iter().map(|length| format!(" {length}")).collect();
    format!(": lengths{shown}, checksum {:016x}", checksum(t))
}

/// Returns what crate test_load prints.
pub fn test_load_text() -> String {
    let mut out = String::new();
    for (seed, v, w, n) in TEST_LOADS {
        let _ = writeln!(out, "seed {seed}, v {v}, w {w}, n {n}");
        let p = match (Load { seed, v, w, n }.problem(None)) {
            Err(number) => {
                let _ = writeln!(out, "  generate {number}");
                continue;
            }
            Ok(p) => p,
        };
        let _ = writeln!(out, "  generate 0{}", tables_text(&as_tables(p.clone())));
        for route in [Route::Standard, Route::Compact] {
            let cut = expected::cut(route, &p, None);
            let text = cut.as_ref().map(tables_text).unwrap_or_default();
            let _ = writeln!(out, "  {} {}{text}", route.name(), cut.err().unwrap_or(0));
        }
    }
    out
}

#[test]
fn what_test_load_prints() {
    assert_eq!(test_load_text(), include_str!("../../crates/test_load/stdout"));
}
