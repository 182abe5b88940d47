//! Times each call on the inputs of docs/SPEED.md: clarabel's, the door's if it is linked, and copying of as many bytes.
//!
//! clarabel's time is that of `decomp_augment` and `decomp_reverse` alone, on tables already in its own types; the
//! door's is the whole call, checks included, with outputs already allocated.

use crate::added;
use crate::against::{join_input, tables};
use crate::change_route;
use crate::copying::{self, Copying};
use crate::door;
use crate::expected::{self, Clique, Pattern};
use crate::files;
use crate::generated::Load;
use crate::loads;
use crate::pool;
use crate::problem::*;
use crate::problem_file;
use crate::random::{self, band_pattern, Draws};
use crate::sides;
use reference::door::{Prepared, Raw, Vars};
use std::hint::black_box;
use std::sync::atomic::{AtomicUsize, Ordering};
use std::time::Instant;

// returns the rows that the patterns' cliques cover, and those of undecomposed cones
fn open_rows(cones: &[u32], patterns: &[Pattern]) -> Vec<u32> {
    let mut out = vec![];
    let mut first = 0;
    for (i, cone) in expected::records(cones).iter().enumerate() {
        let rows = cone.rows() as usize;
        let cut = patterns.iter().find(|p| p.orig_index as usize == i);
        let covered = cut.map_or(vec![true; rows], Pattern::covered);
        out.extend((0..rows).filter(|&r| covered[r]).map(|r| (first + r) as u32));
        first += rows;
    }
    out
}

// returns a problem with n columns, each with `entries` entries spread evenly over the open rows (or one in each, if there are fewer)
fn made(d: &mut Draws, n: usize, entries: usize, cones: Vec<u32>, patterns: Vec<Pattern>) -> Problem {
    let open = open_rows(&cones, &patterns);
    let m: u64 = expected::records(&cones).iter().map(|c| c.rows()).sum();
    let mut a = Columns { starts: vec![0], ..Columns::default() };
    let entries = entries.min(open.len());
    for _ in 0..n {
        let mut rows: Vec<u32> = if entries == open.len() {
            open.clone()
        } else {
            let shift = d.below(open.len());
            (0..entries).map(|e| open[(shift + e * open.len() / entries) % open.len()]).collect()
        };
        rows.sort();
        rows.dedup();
        a.rows.extend(rows);
        a.starts.push(a.rows.len() as u32);
    }
    a.values = (0..a.rows.len()).map(|_| d.below(201) as f64 - 100.0).collect();
    let mut b = vec![0.0; m as usize];
    for &r in &open {
        b[r as usize] = d.below(201) as f64 - 100.0;
    }
    Problem {
        n: n as u32,
        m: m as u32,
        p: Columns { starts: vec![0; n + 1], ..Columns::default() },
        q: vec![0.0; n],
        a,
        b,
        cones,
        alphas: vec![],
        pattern_count: patterns.len() as u32,
        pattern_words: patterns.iter().flat_map(|p| p.words()).collect(),
    }
}

fn shuffled(d: &mut Draws, mut p: Pattern) -> Pattern {
    p.ordering = d.permutation(p.vertices as usize);
    p
}

// `count` cliques over 256 vertices, each of which shares the same 10 vertices with the root
fn star(count: u32) -> Pattern {
    let leaves = count - 1;
    let each = (240 / leaves.max(1)).max(1);
    let mut cliques: Vec<Clique> = (0..leaves)
        .map(|c| Clique {
            parent: leaves,
            snode: (c * each..(c + 1) * each).collect(),
            separator: (246..256).collect(),
        })
        .collect();
    cliques.push(Clique { parent: NONE, snode: (leaves * each..256).collect(), separator: vec![] });
    Pattern { orig_index: 0, vertices: 256, ordering: (0..256).collect(), cliques }
}

/// Returns the named inputs of docs/SPEED.md.
pub fn named() -> Vec<(String, Problem)> {
    let d = &mut Draws::new(11);
    let mut out: Vec<(String, Problem)> = vec![];
    let band = shuffled(d, band_pattern(0, 256, 10));
    let psd = vec![6, 256, 0];
    out.push((
        "PSD 256, band 10, n 10,000, one entry a column".into(),
        made(d, 10_000, 1, psd.clone(), vec![band.clone()]),
    ));
    for n in [10, 90] {
        out.push((format!("PSD 256, band 10, n {n}, dense"), made(d, n, 1 << 20, psd.clone(), vec![band.clone()])));
    }
    let seam = Pattern {
        orig_index: 0,
        vertices: 3,
        ordering: vec![0, 1, 2],
        cliques: vec![
            Clique { parent: 1, snode: vec![0], separator: vec![1] },
            Clique { parent: NONE, snode: vec![1, 2], separator: vec![] },
        ],
    };
    out.push(("three projectors".into(), made(d, 1, 8, vec![6, 3, 0], vec![seam])));
    let small: Vec<Pattern> = (0..500).map(|i| shuffled(d, band_pattern(i, 6, 2))).collect();
    out.push((
        "500 cones PSD 6, band 2, n 200, 100 entries a column".into(),
        made(d, 200, 100, [6, 6, 0].repeat(500), small),
    ));
    for (v, w, n) in [(8, 2, 4), (64, 10, 64)] {
        let load = Load { seed: 1, v, w, n };
        out.push((format!("generated, seed 1, v {v}, w {w}, n {n}"), load.problem(None).expect("a load")));
    }
    out.push((
        "undecomposed, m 65,536, n 1,000, 250 entries a column".into(),
        made(d, 1_000, 250, vec![1, 65_536, 0], vec![]),
    ));
    out
}

// returns problems of which one count is doubled up to its bound in check 1
fn doubled() -> Vec<(String, Problem)> {
    let d = &mut Draws::new(12);
    let mut out: Vec<(String, Problem)> = vec![];
    let psd = vec![6, 256, 0];
    let band = shuffled(d, band_pattern(0, 256, 10));
    for n in [2_500, 5_000, 10_000, 20_000, 40_000, 65_536] {
        out.push((format!("n doubled: {n}, one entry a column"), made(d, n, 1, psd.clone(), vec![band.clone()])));
    }
    for count in [2, 4, 8, 16, 31] {
        let patterns = (0..count).map(|i| shuffled(d, band_pattern(i, 64, 6))).collect();
        let mut cones = [6, 64, 0].repeat(count as usize);
        let (mut m, mut rest) = (count * 2_080, "");
        if count == 31 {
            cones.extend([1, 65_536 - m, 0]);
            (m, rest) = (65_536, ", and rows not cut");
        }
        out.push((format!("m doubled: {m} (PSD 64, band 6{rest})"), made(d, 50, 100, cones, patterns)));
    }
    for each in [16, 32, 64, 128, 256] {
        let name = format!("entries doubled: {} (PSD 256, band 10, n 1,024)", 1_024 * each);
        out.push((name, made(d, 1_024, each, psd.clone(), vec![band.clone()])));
    }
    for count in [64, 128, 256, 512, 1_024] {
        let patterns = (0..count).map(|i| shuffled(d, band_pattern(i, 10, 2))).collect();
        let name = format!("cones doubled: {count} (PSD 10, band 2, {} cliques)", 8 * count);
        out.push((name, made(d, 200, 100, [6, 10, 0].repeat(count as usize), patterns)));
    }
    for count in [16, 31, 61, 121, 241] {
        let p = shuffled(d, star(count));
        out.push((format!("cliques doubled: {count} of PSD 256"), made(d, 50, 100, psd.clone(), vec![p])));
    }
    out
}

fn inputs() -> Vec<(String, Problem)> {
    let mut out = named();
    out.extend(doubled());
    out
}

// the thread's CPU time in microseconds, so that other programs on the machine do not count
pub fn now() -> f64 {
    #[repr(C)]
    struct Timespec {
        seconds: i64,
        nanos: i64,
    }
    extern "C" {
        fn clock_gettime(clock: i32, time: *mut Timespec) -> i32;
    }
    const CLOCK_THREAD_CPUTIME_ID: i32 = 3;
    let mut t = Timespec { seconds: 0, nanos: 0 };
    let failed = unsafe { clock_gettime(CLOCK_THREAD_CPUTIME_ID, &mut t) };
    assert_eq!(failed, 0);
    t.seconds as f64 * 1e6 + t.nanos as f64 / 1e3
}

// returns how many calls are timed in one batch: as many as take 100 microseconds
fn batch(f: &mut dyn FnMut()) -> u32 {
    let mut calls = 1;
    while calls < 1 << 16 && timed(f, calls) * (calls as f64) < 100.0 {
        calls *= 2;
    }
    calls
}

// returns the microseconds of a call, averaged over one batch, after one call that is not timed and leaves the tables in the caches
fn timed(f: &mut dyn FnMut(), batch: u32) -> f64 {
    f();
    let started = now();
    for _ in 0..batch {
        f();
    }
    (now() - started) / batch as f64
}

/// Returns the median.
pub fn middle(mut times: Vec<f64>) -> f64 {
    times.sort_by(f64::total_cmp);
    times[times.len() / 2]
}

/// The largest number of rounds; `--rounds` sets it.
pub static MOST_ROUNDS: AtomicUsize = AtomicUsize::new(101);

/// Returns the times of each in at least five rounds, and more for as many seconds; in a round each is timed in turn, so that other load
/// on the machine affects all alike.
pub fn all_rounds(seconds: f64, fs: &mut [&mut dyn FnMut()]) -> Vec<Vec<f64>> {
    let most = MOST_ROUNDS.load(Ordering::Relaxed);
    let batches: Vec<u32> = fs.iter_mut().map(|f| batch(f)).collect();
    let mut times: Vec<Vec<f64>> = vec![vec![]; fs.len()];
    let all = Instant::now();
    while times[0].len() < most.min(5) || (all.elapsed().as_secs_f64() < seconds && times[0].len() < most) {
        for (i, f) in fs.iter_mut().enumerate() {
            times[i].push(timed(f, batches[i]));
        }
    }
    times
}

// the median of each over such rounds
fn rounds(seconds: f64, fs: &mut [&mut dyn FnMut()]) -> Vec<f64> {
    all_rounds(seconds, fs).into_iter().map(middle).collect()
}

const SECONDS: f64 = 0.8;

/// Copying of as many bytes as a call is given and writes, in microseconds.
struct Copied {
    bytes: usize,
    time: f64,
}

impl Copied {
    // returns a line's last three cells
    fn shown(&self, door: Option<f64>) -> String {
        let ratio = door.map_or("-".into(), |d| format!("{:.2}", d / self.time));
        format!("{} | {} | {ratio}", self.bytes, fine(self.time))
    }
}

// the median of each, and of copying `bytes` bytes in the same rounds
fn medians<const K: usize>(bytes: usize, fs: [&mut dyn FnMut(); K]) -> ([f64; K], Copied) {
    let mut buffers = Copying::new(bytes);
    let mut copy = || buffers.copy();
    let mut all: Vec<&mut dyn FnMut()> = vec![];
    for f in fs {
        all.push(f);
    }
    all.push(&mut copy);
    let times = rounds(SECONDS, &mut all);
    (std::array::from_fn(|i| times[i]), Copied { bytes, time: times[K] })
}

// the door alone
fn alone(bytes: usize, door: &mut dyn FnMut()) -> Line {
    let ([door], copied) = medians(bytes, [door]);
    Line { clarabel: None, door: Some(door), copied }
}

// clarabel, and the door if it is linked
fn beside(bytes: usize, clarabel: &mut dyn FnMut(), door: &mut dyn FnMut()) -> Line {
    if !door::LINKED {
        let ([clarabel], copied) = medians(bytes, [clarabel]);
        return Line { clarabel: Some(clarabel), door: None, copied };
    }
    let ([clarabel, door], copied) = medians(bytes, [clarabel, door]);
    Line { clarabel: Some(clarabel), door: Some(door), copied }
}

pub fn shown(micros: Option<f64>) -> String {
    match micros {
        None => "-".into(),
        Some(t) if t < 100.0 => format!("{t:.2} us"),
        Some(t) if t < 100_000.0 => format!("{:.3} ms", t / 1e3),
        Some(t) => format!("{:.3} s", t / 1e6),
    }
}

// a time that may be only some nanoseconds
fn fine(micros: f64) -> String {
    if micros < 1.0 {
        format!("{micros:.4} us")
    } else {
        shown(Some(micros))
    }
}

/// The times of a line, in microseconds.
struct Line {
    clarabel: Option<f64>,
    door: Option<f64>,
    copied: Copied,
}

impl Line {
    fn print(&self, input: &str, call: &str) {
        let ratio = match (self.clarabel, self.door) {
            (Some(c), Some(d)) if d > 0.0 => format!("{:.2}", c / d),
            _ => "-".into(),
        };
        let [clarabel, door] = [self.clarabel, self.door].map(shown);
        println!("| {input} | {call} | {clarabel} | {door} | {ratio} | {} |", self.copied.shown(self.door));
    }
}

/// Returns a solution of ordinary values: NaNs and subnormals take other times.
pub fn plain_solution(d: &mut Draws, shape: &(usize, usize, Vec<u32>)) -> Solution {
    let mut solution = random::solution(d, shape);
    for v in [&mut solution.x, &mut solution.s, &mut solution.z] {
        v.iter_mut().for_each(|x| *x = d.below(201) as f64 - 100.0);
    }
    solution
}

// the cut and the sizes
fn cut_lines(name: &str, route: Route, p: &Problem, lengths: &[usize; 11], prepared: &mut Prepared) {
    let mut outputs = door::cut_outputs(lengths);
    if door::LINKED {
        assert_eq!(door::cut(route.code(), p, &mut outputs), 0, "the door refuses {name}");
    }
    let bytes = copying::problem(p) + copying::cut_outputs(&outputs);
    beside(
        bytes,
        &mut || {
            black_box(prepared.cut_uncaught(route == Route::Compact));
        },
        &mut || {
            black_box(door::cut(route.code(), p, &mut outputs));
        },
    )
    .print(name, &format!("{} cut", route.name()));
    if door::LINKED {
        let mut sizes = [0; 11];
        alone(copying::problem(p) + copying::table(&sizes), &mut || {
            black_box(door::sizes(route.code(), p, &mut sizes));
        })
        .print(name, &format!("{} sizes", route.name()));
    }
}

fn join_line(name: &str, route: Route, p: &Problem, solution: &Solution, prepared: &Prepared, raw: &Raw) {
    let vars = Vars::new(&solution.x, &solution.s, &solution.z, 1.0, 1.0);
    let input = join_input(p, solution);
    let mut outputs = door::join_outputs(&[p.n as usize, p.m as usize, p.m as usize, 2]);
    if door::LINKED {
        assert_eq!(door::join(route.code(), &input, &mut outputs), 0, "the door refuses {name}");
    }
    let bytes = copying::join_input(&input) + copying::join_outputs(&outputs);
    beside(
        bytes,
        &mut || {
            black_box(prepared.join_uncaught(route == Route::Compact, raw, &vars));
        },
        &mut || {
            black_box(door::join(route.code(), &input, &mut outputs));
        },
    )
    .print(name, &format!("{} joining", route.name()));
}

fn same_layout_line(name: &str, p: &Problem) {
    let second = p.clone();
    let mut out = [0];
    alone(2 * copying::problem(p) + copying::table(&out), &mut || {
        black_box(door::same_layout(p, &second, &mut out));
    })
    .print(name, "same layout");
}

fn one(name: &str, p: &Problem) {
    let d = &mut Draws::new(5);
    for route in [Route::Compact, Route::Standard] {
        let lengths = match expected::sizes(route, p, 11) {
            Ok(lengths) => lengths,
            Err(number) => {
                println!("| {name} | {} | refused {number} | | | | | |", route.name());
                continue;
            }
        };
        let mut prepared = Prepared::new(&tables(p), 0).expect("a problem that clarabel reads");
        let raw = prepared.cut(route == Route::Compact).expect("a problem that clarabel cuts");
        cut_lines(name, route, p, &lengths, &mut prepared);
        let solution = plain_solution(d, &expected::solution_shape(route, p).unwrap());
        join_line(name, route, p, &solution, &prepared, &raw);
    }
    if door::LINKED {
        same_layout_line(name, p);
    }
}

/// The lengths of the inverted permutations.
pub const PERMUTATIONS: [usize; 8] = [1_000, 32_768, 65_536, 131_072, 262_144, 524_288, 1_048_576, 16_777_216];

/// Returns the words of the renumbered patterns.
pub fn patterns() -> Vec<(String, Vec<u32>)> {
    let d = &mut Draws::new(8);
    [(64, 6), (256, 10), (1_024, 10), (4_096, 10)]
        .map(|(v, w)| (format!("{v} vertices, band {w}"), shuffled(d, band_pattern(0, v, w)).words()))
        .to_vec()
}

// Two permutations are inverted in turn, on both sides: the door writes a long inverse only where the output differs from it, so that a
// second inverse of the same permutation would write nothing.
fn inverses(d: &mut Draws, length: usize) {
    let pair = [0; 2].map(|_| d.permutation(length));
    let wide = pair.each_ref().map(|p| p.iter().map(|&x| x as usize).collect::<Vec<usize>>());
    let mut out = vec![0; length];
    let [mut wide_turn, mut turn] = [0; 2];
    beside(
        copying::table(&pair[0]) + copying::table(&out),
        &mut || {
            wide_turn ^= 1;
            black_box(reference::door::inverse_wide(&wide[wide_turn]));
        },
        &mut || {
            turn ^= 1;
            black_box(door::inverse(&pair[turn], &mut out));
        },
    )
    .print(&format!("{length} numbers"), "inverse");
}

fn small_calls() {
    let d = &mut Draws::new(7);
    for length in PERMUTATIONS {
        inverses(d, length);
    }
    for (name, words) in patterns() {
        renumbering(&name, &words);
    }
}

// clarabel renumbers in place, so each of its calls gets a pattern that was made before the timing
fn renumbering(name: &str, words: &[u32]) {
    const CALLS: u32 = 16;
    let mut out = vec![0; words.len()];
    let bytes = copying::table(words) + copying::table(&out);
    let mut buffers = Copying::new(bytes);
    let mut copy = || buffers.copy();
    let copies = batch(&mut copy);
    let [mut clarabel, mut door, mut copied] = [const { vec![] }; 3];
    for _ in 0..MOST_ROUNDS.load(Ordering::Relaxed).min(31) {
        clarabel.push(reference::door::renumber_timed(words, CALLS, now));
        if door::LINKED {
            door.push(timed(
                &mut || {
                    black_box(door::renumber(words, &mut out));
                },
                CALLS,
            ));
        }
        copied.push(timed(&mut copy, copies));
    }
    let copied = Copied { bytes, time: middle(copied) };
    Line { clarabel: Some(middle(clarabel)), door: door::LINKED.then(|| middle(door)), copied }
        .print(name, "renumbering");
}

// ---- the requests: a call of the door compared with a measure for it

fn beside_line(input: &str, call: &str, measure: &str, times: [f64; 2], copied: &Copied) {
    let [call_time, measure_time] = times.map(|t| shown(Some(t)));
    let (ratio, limit) = (times[0] / times[1], copied.shown(Some(times[0])));
    println!("| {input} | {call} | {call_time} | {measure} | {measure_time} | {ratio:.2} | {limit} |");
}

// compared with comparing only the tables that Q-10 added, α and the starts and rows of A and P
fn same_layout_tables(name: &str, p: &Problem) {
    let second = p.clone();
    let mut out = [0];
    let bytes = 2 * copying::problem(p) + copying::table(&out);
    let (times, copied) = medians(
        bytes,
        [
            &mut || {
                black_box(door::same_layout(p, &second, &mut out));
            },
            &mut || {
                let [a, b] = black_box([p, &second]);
                let places = |a: &Columns, b: &Columns| a.starts == b.starts && a.rows == b.rows;
                black_box(all_same(&a.alphas, &b.alphas) && places(&a.a, &b.a) && places(&a.p, &b.p));
            },
        ],
    );
    assert_eq!(out, [1]);
    beside_line(name, "same layout", "its added tables compared alone, in Rust", times, &copied);
}

// every entry twice compared with every entry once
fn doubled_entries(name: &str, p: &Problem) {
    let mut doubled = p.clone();
    doubled.a.starts.iter_mut().for_each(|start| *start *= 2);
    doubled.a.rows = p.a.rows.iter().flat_map(|&row| [row, row]).collect();
    doubled.a.values = p.a.values.iter().flat_map(|&value| [value, value]).collect();
    for route in [Route::Compact, Route::Standard] {
        let lengths = [&doubled, p].map(|p| expected::sizes(route, p, 11));
        let [Ok(twice), Ok(once)] = lengths else { continue };
        let (mut two, mut one) = (door::cut_outputs(&twice), door::cut_outputs(&once));
        let answers = [door::cut(route.code(), &doubled, &mut two), door::cut(route.code(), p, &mut one)];
        assert_eq!(answers, [0, 0], "the door refuses {name}");
        let bytes = copying::problem(&doubled) + copying::cut_outputs(&two);
        let (times, copied) = medians(
            bytes,
            [
                &mut || {
                    black_box(door::cut(route.code(), &doubled, &mut two));
                },
                &mut || {
                    black_box(door::cut(route.code(), p, &mut one));
                },
            ],
        );
        beside_line(
            name,
            &format!("{} cut, every entry doubled", route.name()),
            "the same, every entry once",
            times,
            &copied,
        );
    }
}

// compared with copying its outputs
fn changed_route(name: &str, p: &Problem) {
    let shape = expected::solution_shape(Route::Standard, p).expect("a problem that a joining takes");
    let solution = plain_solution(&mut Draws::new(5), &shape);
    let input = join_input(p, &solution);
    let Ok(lengths) = change_route::lengths(&input) else { return };
    let (mut out, mut copy) = (door::join_outputs(&lengths), door::join_outputs(&lengths));
    assert_eq!(added::change_route(&input, &mut out), 0, "the door refuses {name}");
    let given = out.clone();
    let bytes = copying::join_input(&input) + copying::join_outputs(&out);
    let (times, copied) = medians(
        bytes,
        [
            &mut || {
                black_box(added::change_route(&input, &mut out));
            },
            &mut || {
                let given = black_box(&given);
                copy.x.copy_from_slice(&given.x);
                copy.s.copy_from_slice(&given.s);
                copy.z.copy_from_slice(&given.z);
                copy.scalars.copy_from_slice(&given.scalars);
                black_box(&mut copy);
            },
        ],
    );
    beside_line(name, "change of route", "its outputs copied (memcpy)", times, &copied);
}

// compared with one cut
fn limits(name: &str, p: &Problem) {
    let Ok(lengths) = expected::sizes(Route::Compact, p, 11) else { return };
    let high: Vec<f64> = p.b.iter().map(|&v| if v == 0.0 { v } else { v + 1.0 }).collect();
    let [mut two, mut one] = [(); 2].map(|()| door::cut_outputs(&lengths));
    let mut b_high = vec![0.0; lengths[7]];
    let answers =
        [added::cut_between(p, &p.b, &high, &mut two, &mut b_high), door::cut(Route::Compact.code(), p, &mut one)];
    assert_eq!(answers, [0, 0], "the door refuses {name}");
    let given = copying::problem(p) + copying::table(&high);
    let bytes = given + copying::cut_outputs(&two) + copying::table(&b_high);
    let (times, copied) = medians(
        bytes,
        [
            &mut || {
                black_box(added::cut_between(p, &p.b, &high, &mut two, &mut b_high));
            },
            &mut || {
                black_box(door::cut(Route::Compact.code(), p, &mut one));
            },
        ],
    );
    beside_line(name, "cut between limits", "one compact cut", times, &copied);
}

// as many sides as are accepted, compared with as many cuts
fn many_sides(name: &str, p: &Problem) {
    const SIDES: usize = 64;
    let Ok(mut lengths) = expected::sizes(Route::Compact, p, 11) else { return };
    let mut one = door::cut_outputs(&lengths);
    lengths[7] *= SIDES;
    let mut all = door::cut_outputs(&lengths);
    let sides = sides::with_b(p, &p.b.repeat(SIDES));
    let answers = [added::cut_many(SIDES as u32, &sides, &mut all), door::cut(Route::Compact.code(), p, &mut one)];
    assert_eq!(answers, [0, 0], "the door refuses {name}");
    let bytes = copying::problem(&sides) + copying::cut_outputs(&all);
    let (times, copied) = medians(
        bytes,
        [
            &mut || {
                black_box(added::cut_many(SIDES as u32, &sides, &mut all));
            },
            &mut || {
                for _ in 0..SIDES {
                    black_box(door::cut(Route::Compact.code(), p, &mut one));
                }
            },
        ],
    );
    beside_line(name, "cut of 64 sides", "64 compact cuts", times, &copied);
}

/// Returns a pass without rows over as many columns.
pub fn no_rows(p: &Problem) -> Problem {
    let no_entries = Columns { starts: vec![0; p.n as usize + 1], ..Columns::default() };
    Problem { n: p.n, p: no_entries.clone(), q: p.q.clone(), a: no_entries, ..Problem::default() }
}

// the problem pooled with itself, or with a pass without rows if the pool would exceed a bound, compared with copying
// its outputs
fn pooled(name: &str, p: &Problem) {
    let no_rows = no_rows(p);
    let (second, call) = match pool::pool(p, p, None) {
        Ok(_) => (p, "pooling with itself"),
        Err(_) => (&no_rows, "pooling with a pass without rows"),
    };
    let Ok(pool) = pool::pool(p, second, None) else { return };
    let lengths = pool::lengths(&pool);
    let (mut out, mut copy) = (door::cut_outputs(&lengths), door::cut_outputs(&lengths));
    assert_eq!(added::pool(p, second, &mut out), 0, "the door refuses {name}");
    let given = out.clone();
    let bytes = copying::problem(p) + copying::problem(second) + copying::cut_outputs(&out);
    let (times, copied) = medians(
        bytes,
        [
            &mut || {
                black_box(added::pool(p, second, &mut out));
            },
            &mut || {
                let given = black_box(&given);
                copy.p_starts.copy_from_slice(&given.p_starts);
                copy.p_rows.copy_from_slice(&given.p_rows);
                copy.p_values.copy_from_slice(&given.p_values);
                copy.q.copy_from_slice(&given.q);
                copy.a_starts.copy_from_slice(&given.a_starts);
                copy.a_rows.copy_from_slice(&given.a_rows);
                copy.a_values.copy_from_slice(&given.a_values);
                copy.b.copy_from_slice(&given.b);
                copy.cones.copy_from_slice(&given.cones);
                copy.alphas.copy_from_slice(&given.alphas);
                copy.map.copy_from_slice(&given.map);
                black_box(&mut copy);
            },
        ],
    );
    beside_line(name, call, "its outputs copied (memcpy)", times, &copied);
}

// compared with the plain reading in Rust, which allocates its results
fn generated(load: Load) {
    let lengths = load.sizes(11).expect("a load");
    let mut out = door::cut_outputs(&lengths);
    assert_eq!(loads::generate(load, &mut out), 0, "the door refuses {load:?}");
    let (times, copied) = medians(
        copying::cut_outputs(&out),
        [
            &mut || {
                black_box(loads::generate(black_box(load), &mut out));
            },
            &mut || {
                let _ = black_box(black_box(load).problem(None));
            },
        ],
    );
    let name = format!("seed {}, v {}, w {}, n {}", load.seed, load.v, load.w, load.n);
    beside_line(&name, "generated problem", "the plain reading, in Rust", times, &copied);
}

// a file of some megabytes compared with copying its bytes
fn files(name: &str, p: &Problem) {
    let file = problem_file::laid_out(p, 8);
    let mut words = vec![0; file.len() / 4];
    let mut read = files::outputs(files::needed(&problem_file::counts(p)));
    let mut written = vec![0; file.len()];
    let mut copy = file.clone();
    assert_eq!(files::file_words(&file, &mut words), 0);
    assert_eq!(files::read_file(&words, file.len(), &mut read), 0, "the door refuses {name}");
    let (lent, given) = (words.clone(), read.clone());
    assert_eq!(files::write_file(&given, &mut written), 0, "the door refuses {name}");
    assert!(written == file);
    let bytes = [2 * file.len(), file.len() + copying::file_tables(&given)];
    let [mut words_copying, mut tables_copying] = bytes.map(Copying::new);
    let times = rounds(
        SECONDS,
        &mut [
            &mut || {
                black_box(files::file_words(&file, &mut words));
            },
            &mut || {
                black_box(files::read_file(&lent, file.len(), &mut read));
            },
            &mut || {
                black_box(files::write_file(&given, &mut written));
            },
            &mut || {
                copy.copy_from_slice(black_box(&file));
                black_box(&mut copy);
            },
            &mut || words_copying.copy(),
            &mut || tables_copying.copy(),
        ],
    );
    let name = format!("{name}: a file of {:.1} MB", file.len() as f64 / 1e6);
    let [words, tables] = [0, 1].map(|i| Copied { bytes: bytes[i], time: times[4 + i] });
    let both = Copied { bytes: words.bytes + tables.bytes, time: words.time + tables.time };
    for (call, time, copied) in [
        ("words of the file", times[0], &words),
        ("reading its words", times[1], &tables),
        ("both", times[0] + times[1], &both),
        ("writing it", times[2], &tables),
    ] {
        beside_line(&name, call, "its bytes copied (memcpy)", [time, times[3]], copied);
    }
}

/// Returns problems whose files are nearly as large as possible: as many entries of P as of A.
pub fn large() -> Vec<(String, Problem)> {
    let d = &mut Draws::new(13);
    let band = shuffled(d, band_pattern(0, 256, 10));
    let (n, entries) = (1_000, 262);
    [("PSD 256, band 10", vec![6, 256, 0], vec![band]), ("undecomposed, m 65,536", vec![1, 65_536, 0], vec![])]
        .map(|(name, cones, patterns)| {
            let mut p = made(d, n, entries, cones, patterns);
            p.p = Columns {
                starts: (0..=n).map(|c| (c * entries) as u32).collect(),
                rows: (0..n).flat_map(|_| 0..entries as u32).collect(),
                values: (0..n * entries).map(|_| d.below(201) as f64 - 100.0).collect(),
            };
            (name.to_string(), p)
        })
        .to_vec()
}

fn requests() {
    println!("\n{REQUESTS_HEADING}");
    for (name, p) in inputs() {
        same_layout_tables(&name, &p);
        doubled_entries(&name, &p);
        changed_route(&name, &p);
        limits(&name, &p);
        pooled(&name, &p);
        if name.contains("dense") || p.m < 10 {
            many_sides(&name, &p);
        }
    }
    for (v, w, n) in [(2, 1, 1), (8, 2, 4), (16, 5, 8), (64, 1, 64), (64, 10, 64), (64, 63, 64)] {
        generated(Load { seed: 1, v, w, n });
    }
    for (name, p) in large() {
        files(&name, &p);
    }
}

// bytes: of all inputs and outputs; copying: of those bytes (memcpy)
const HEADING: &str = "| input | call | clarabel | door | clarabel / door | bytes | copying | door / copying |
|---|---|---|---|---|---|---|---|";

const REQUESTS_HEADING: &str = "\
| input | call | door | beside (another way, or its outputs or file alone copied) | time | door / beside | bytes | copying | door / copying |
|---|---|---|---|---|---|---|---|---|";

pub fn print() {
    println!("door: {}\n", if door::LINKED { "linked" } else { "not linked" });
    println!("{HEADING}");
    for (name, p) in inputs() {
        one(&name, &p);
    }
    small_calls();
    if door::LINKED {
        requests();
    }
}

#[test]
fn doubled_up_to_the_bounds() {
    let all = doubled();
    for (name, p) in &all {
        for route in [Route::Compact, Route::Standard] {
            assert!(expected::accepted(route, p).is_ok(), "{name}, {}", route.name());
        }
    }
    let largest = |count: fn(&Problem) -> usize| all.iter().map(|(_, p)| count(p)).max();
    assert_eq!(largest(|p| p.n as usize), Some(65_536));
    assert_eq!(largest(|p| p.m as usize), Some(65_536));
    assert_eq!(largest(|p| p.a.rows.len()), Some(262_144));
    assert_eq!(largest(|p| p.cones.len() / 3), Some(1_024));
}
