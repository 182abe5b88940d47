//! A soak: damaged inputs through all calls.
//!
//!     cargo run --release --example soak -- [COUNT] [SEED] [--exact]
//!
//! Each of the COUNT inputs (10,000,000 unless given) is a call whose arguments were right and then were damaged, in
//! one place or several. The call has to answer as document 01's plain reading does (compare/src/expected.rs); where it
//! is refused it must not have written a byte, and where it is done none behind its results. It runs on a thread with
//! 2 MB of stack. The exit status is 1 if anything failed. With --exact each table ends where its memory ends, so that
//! memcheck sees the first byte beyond it.

#[allow(dead_code)]
#[path = "../../compare/src/change_route.rs"]
mod change_route;
#[allow(dead_code)]
#[path = "../../compare/src/expected.rs"]
mod expected;
#[path = "../tests/lend/mod.rs"]
mod lend;
#[allow(dead_code)]
#[path = "../../compare/src/pool.rs"]
mod pool;
#[allow(dead_code)]
#[path = "../../compare/src/problem.rs"]
mod problem;
#[allow(dead_code)]
#[path = "../../compare/src/random.rs"]
mod random;
#[allow(dead_code)]
#[path = "../../compare/src/sides.rs"]
mod sides;

use lend::{joining, number, tables};
use problem::{Columns, Problem, Route, Solution};
use random::Draws;
use std::io::Write;
use std::time::Instant;
use tejiwakpa::flat::{self, BetweenOutputs, CutOutputs, JoinOutputs, TableOutputs};

const CALLS: [&str; 12] = [
    "pair index",
    "pair back",
    "inverse",
    "renumbering",
    "sizes",
    "cut",
    "joining",
    "same layout",
    "change of route",
    "cut between",
    "cut of many",
    "pooling",
];
const ROUTES: [Route; 2] = [Route::Standard, Route::Compact];

// refusals are below this
const NUMBERS: usize = 18;

// how many inputs are damaged from one right one
const FROM_ONE: u64 = 16;

// ---- outputs

trait Element: Copy {
    // what an output holds before a call
    const HELD: Self;
    fn bits(self) -> u64;
}
impl Element for u32 {
    const HELD: u32 = 0xdead_beef;
    fn bits(self) -> u64 {
        self.into()
    }
}
impl Element for f64 {
    const HELD: f64 = f64::from_bits(0x7ff8_1234_5678_9abc);
    fn bits(self) -> u64 {
        self.to_bits()
    }
}

/// An output, with a few elements behind the part that is lent to a call.
#[derive(Default)]
struct Room<T> {
    held: Vec<T>,
}

impl<T: Element> Room<T> {
    fn lend(&mut self, length: usize, exact: bool) -> &mut [T] {
        if exact {
            self.held = vec![T::HELD; length];
        } else if self.held.len() < length + 8 {
            self.held.resize(length + 8, T::HELD);
        }
        &mut self.held[..length]
    }

    // whether all behind the result is as it was; as it was from now on
    fn kept(&mut self, result: usize) -> bool {
        let rest = self.held.get(result..).unwrap_or_default();
        let kept = rest.iter().all(|x| x.bits() == T::HELD.bits());
        if result > 0 || !kept {
            self.held.fill(T::HELD);
        }
        kept
    }
}

// ---- inputs

fn copy(to: &mut Problem, from: &Problem) {
    let columns = |to: &mut Columns, from: &Columns| {
        to.starts.clone_from(&from.starts);
        to.rows.clone_from(&from.rows);
        to.values.clone_from(&from.values);
    };
    (to.n, to.m, to.pattern_count) = (from.n, from.m, from.pattern_count);
    columns(&mut to.p, &from.p);
    columns(&mut to.a, &from.a);
    to.q.clone_from(&from.q);
    to.b.clone_from(&from.b);
    to.cones.clone_from(&from.cones);
    to.alphas.clone_from(&from.alphas);
    to.pattern_words.clone_from(&from.pattern_words);
}

fn copy_solution(to: &mut Solution, from: &Solution) {
    to.x.clone_from(&from.x);
    to.s.clone_from(&from.s);
    to.z.clone_from(&from.z);
    to.map.clone_from(&from.map);
    (to.tau, to.kappa) = (from.tau, from.kappa);
}

// tables that end where their memory ends
fn fit(p: &mut Problem) {
    for words in [&mut p.p.starts, &mut p.p.rows, &mut p.a.starts, &mut p.a.rows, &mut p.cones, &mut p.pattern_words] {
        words.shrink_to_fit();
    }
    for values in [&mut p.p.values, &mut p.q, &mut p.a.values, &mut p.b, &mut p.alphas] {
        values.shrink_to_fit();
    }
}

fn fit_solution(s: &mut Solution) {
    for values in [&mut s.x, &mut s.s, &mut s.z] {
        values.shrink_to_fit();
    }
    s.map.shrink_to_fit();
}

// a whole table made anything: cut off, filled with any words, or another one
fn scramble(d: &mut Draws, p: &mut Problem) {
    let values = [&mut p.p.values, &mut p.q, &mut p.a.values, &mut p.b, &mut p.alphas];
    let words = [&mut p.p.starts, &mut p.p.rows, &mut p.a.starts, &mut p.a.rows, &mut p.cones, &mut p.pattern_words];
    if d.chance(20) {
        let table = &mut *values[d.below(5)];
        let length = d.below(table.len() + 3);
        table.resize(length, 0.5);
        return;
    }
    let other = words[d.below(6)].clone();
    let table = &mut *words[d.below(6)];
    match d.below(3) {
        0 => table.truncate(d.below(table.len() + 1)),
        1 => table.iter_mut().for_each(|word| *word = if d.chance(50) { d.next() as u32 } else { d.below(4) as u32 }),
        _ => *table = other,
    }
}

/// A right problem, with what the calls on it ask for on either route.
#[derive(Default)]
struct Right {
    problem: Problem,
    rooms: [[usize; 11]; 2],
    solutions: [Solution; 2],
    // of the outputs of the change of route
    changed: [usize; 4],
    pattern: Problem,
    permutation: Vec<u32>,
}

impl Right {
    fn new(d: &mut Draws) -> Right {
        let scale = if d.chance(60) { random::TINY } else { random::SMALL };
        let mut problem = random::problem(d, scale);
        if d.chance(25) {
            random::repeat_entries(d, &mut problem);
        }
        let rooms = ROUTES.map(|route| expected::sizes(route, &problem, 11).unwrap_or([3; 11]));
        let solutions =
            ROUTES.map(|route| random::solution(d, &expected::solution_shape(route, &problem).unwrap_or_default()));
        let changed = change_route::lengths(&expected::join_input(&problem, &solutions[0])).unwrap_or([3; 4]);
        let (cone, vertices, length) = (d.next() as u32, 1 + d.below(scale.psd), d.below(9));
        let words = random::pattern(d, cone, vertices).words();
        let pattern = Problem { pattern_count: 1, pattern_words: words, ..Problem::default() };
        Right { problem, rooms, solutions, changed, pattern, permutation: d.permutation(length) }
    }
}

// ---- calls

#[derive(Default)]
struct Soak {
    exact: bool,
    // counts by call and number
    counts: [[u64; NUMBERS]; CALLS.len()],
    failures: u64,
    // the damaged input
    problem: Problem,
    second: Problem,
    solution: Solution,
    words: Vec<u32>,
    // the outputs of u32 and of f64
    u: [Room<u32>; 6],
    f: [Room<f64>; 6],
}

// how many places are damaged
fn places(d: &mut Draws) -> usize {
    1 + d.below(3).saturating_sub(d.below(2))
}

// what is damaged for check 10 is large, so it is seldom
fn large(d: &mut Draws) -> bool {
    d.below(10_000) == 0
}

fn route(d: &mut Draws) -> (u32, Route) {
    let route = ROUTES[d.below(2)];
    (if d.chance(2) { 2 + d.below(3) as u32 } else { route.code() }, route)
}

// an output's length: one of them is short now and then
fn room(d: &mut Draws, needed: usize, short: bool) -> usize {
    if short {
        needed.saturating_sub(1 + d.below(2))
    } else {
        needed + d.below(3)
    }
}

// the outputs of a cut, and of the high limits
fn cut_rooms<'a>(
    u: &'a mut [Room<u32>; 6],
    f: &'a mut [Room<f64>; 6],
    lengths: &[usize; 11],
    high: usize,
    exact: bool,
) -> (CutOutputs<'a>, &'a mut [f64]) {
    let [u0, u1, u2, u3, u4, u5] = u;
    let [f0, f1, f2, f3, f4, f5] = f;
    let out = CutOutputs {
        p_starts: u0.lend(lengths[0], exact),
        p_rows: u1.lend(lengths[1], exact),
        p_values: f0.lend(lengths[2], exact),
        q: f1.lend(lengths[3], exact),
        a_starts: u2.lend(lengths[4], exact),
        a_rows: u3.lend(lengths[5], exact),
        a_values: f2.lend(lengths[6], exact),
        b: f3.lend(lengths[7], exact),
        cones: u4.lend(lengths[8], exact),
        alphas: f4.lend(lengths[9], exact),
        map: u5.lend(lengths[10], exact),
    };
    (out, f5.lend(high, exact))
}

// the lengths of the results in those outputs
fn cut_results(needed: &[usize; 11]) -> ([usize; 6], [usize; 6]) {
    ([0, 1, 4, 5, 8, 10].map(|k| needed[k]), [2, 3, 6, 7, 9, 7].map(|k| needed[k]))
}

// the four outputs of a solution
fn join_rooms<'a>(f: &'a mut [Room<f64>; 6], lengths: &[usize; 4], exact: bool) -> JoinOutputs<'a> {
    let [x, s, z, scalars, ..] = f;
    JoinOutputs {
        x: x.lend(lengths[0], exact),
        s: s.lend(lengths[1], exact),
        z: z.lend(lengths[2], exact),
        scalars: scalars.lend(lengths[3], exact),
    }
}

impl Soak {
    // Holds a call's number to the one that is due, and its outputs to what they held: all of them, or where it is done
    // what lies behind the results, whose lengths are given for the outputs of u32 and of f64.
    fn judge(&mut self, call: usize, input: u64, got: u32, want: u32, results: (&[usize], &[usize])) {
        let result = |lengths: &[usize], k: usize| if got == 0 { lengths.get(k).copied().unwrap_or(0) } else { 0 };
        let mut kept = true;
        self.u.iter_mut().enumerate().for_each(|(k, room)| kept &= room.kept(result(results.0, k)));
        self.f.iter_mut().enumerate().for_each(|(k, room)| kept &= room.kept(result(results.1, k)));
        self.counts[call][got as usize] += 1;
        if got == want && kept {
            return;
        }
        self.failures += 1;
        if self.failures <= 10 {
            let written = if kept { "" } else { ", and has written what it must not" };
            println!("\ninput {input}, {}: answers {got}, expected {want}{written}", CALLS[call]);
        }
    }

    fn pair_index(&mut self, d: &mut Draws, input: u64) {
        let wrong = [256, 257, 65_536, u32::MAX, d.next() as u32][d.below(5)];
        let (i, j) = (d.below(256) as u32, if d.chance(80) { wrong } else { d.below(256) as u32 });
        let (i, j) = if d.chance(50) { (i, j) } else { (j, i) };
        let short = d.chance(20);
        let length = room(d, 1, short);
        let got = number(flat::pair_index(i, j, self.u[0].lend(length, self.exact)));
        self.judge(0, input, got, expected::pair_index(i, j, length).err().unwrap_or(0), (&[1], &[]));
    }

    fn pair_back(&mut self, d: &mut Draws, input: u64) {
        let wrong = [32_896, 65_536, u32::MAX, d.next() as u32][d.below(4)];
        let index = if d.chance(80) { wrong } else { d.below(32_896) as u32 };
        let short = d.chance(20);
        let length = room(d, 2, short);
        let got = number(flat::pair_back(index, self.u[0].lend(length, self.exact)));
        self.judge(1, input, got, expected::pair_back(index, length).err().unwrap_or(0), (&[2], &[]));
    }

    fn inverse(&mut self, d: &mut Draws, input: u64, right: &Right) {
        self.words.clone_from(&right.permutation);
        let mut short = false;
        for _ in 0..places(d) {
            let at = d.below(self.words.len() + 1);
            let wrong = [0, self.words.len() as u32, u32::MAX, d.next() as u32][d.below(4)];
            match d.below(4) {
                0 => self.words.insert(at, wrong),
                1 if at < self.words.len() => drop(self.words.remove(at)),
                2 if at < self.words.len() => self.words[at] = wrong,
                _ => short = true,
            }
        }
        if self.exact {
            self.words.shrink_to_fit();
        }
        let length = room(d, self.words.len(), short);
        let got = number(flat::inverse(&self.words, self.u[0].lend(length, self.exact)));
        let want = expected::inverse(&self.words, length).err().unwrap_or(0);
        self.judge(2, input, got, want, (&[self.words.len()], &[]));
    }

    fn renumber(&mut self, d: &mut Draws, input: u64, right: &Right) {
        copy(&mut self.problem, &right.pattern);
        let mut short = false;
        for _ in 0..places(d) {
            if d.chance(10) {
                short = true;
            } else {
                let check = 5 + d.below(3);
                random::damage(d, &mut self.problem, check);
            }
        }
        if self.exact {
            fit(&mut self.problem);
        }
        let words = &self.problem.pattern_words;
        let length = room(d, words.len(), short);
        let got = number(flat::renumber(words, self.u[0].lend(length, self.exact)));
        let (want, result) = (expected::renumber(words, length).err().unwrap_or(0), words.len());
        self.judge(3, input, got, want, (&[result], &[]));
    }

    // a damaged problem, and the output that is short, if one is
    fn damage(&mut self, d: &mut Draws, right: &Right, outputs: usize) -> usize {
        copy(&mut self.problem, &right.problem);
        let mut short = outputs;
        for _ in 0..places(d) {
            match d.below(20) {
                0..=1 => short = d.below(outputs),
                2 => scramble(d, &mut self.problem),
                _ => {
                    let check = if large(d) { 10 } else { 1 + d.below(9) };
                    random::damage(d, &mut self.problem, check);
                }
            }
        }
        if self.exact {
            fit(&mut self.problem);
        }
        short
    }

    fn sizes(&mut self, d: &mut Draws, input: u64, right: &Right) {
        let (code, route) = route(d);
        let short = self.damage(d, right, 1) == 0;
        let length = room(d, 11, short);
        let got = number(flat::sizes(code, &tables(&self.problem), self.u[0].lend(length, self.exact)));
        let want = if code > 1 { 1 } else { expected::sizes(route, &self.problem, length).err().unwrap_or(0) };
        self.judge(4, input, got, want, (&[11], &[]));
    }

    fn cut(&mut self, d: &mut Draws, input: u64, right: &Right) {
        let (code, route) = route(d);
        let short = self.damage(d, right, 11);
        let mut lengths = right.rooms[route.code() as usize];
        lengths.iter_mut().enumerate().for_each(|(k, length)| *length = room(d, *length, k == short));
        let (mut out, _) = cut_rooms(&mut self.u, &mut self.f, &lengths, 0, self.exact);
        let got = number(flat::cut(code, &tables(&self.problem), &mut out));
        let sizes = expected::sizes(route, &self.problem, 11);
        let want = match &sizes {
            _ if code > 1 => 1,
            Err(number) => *number,
            Ok(needed) if lengths.iter().zip(needed).any(|(length, needed)| length < needed) => 11,
            Ok(_) => 0,
        };
        let (u, f) = cut_results(&sizes.unwrap_or_default());
        self.judge(5, input, got, want, (&u, &f[..5]));
    }

    // what a joining takes, damaged, and the output that is short, if one is
    fn damage_joining(&mut self, d: &mut Draws, right: &Right, route: Route) -> usize {
        copy(&mut self.problem, &right.problem);
        copy_solution(&mut self.solution, &right.solutions[route.code() as usize]);
        let mut short = 4;
        for _ in 0..places(d) {
            match d.below(20) {
                0..=1 => short = d.below(4),
                2 => scramble(d, &mut self.problem),
                3..=7 => random::damage_solution(d, &mut self.solution),
                _ => {
                    let check = if large(d) { 10 } else { [1, 4, 5, 6, 7, 8][d.below(6)] };
                    random::damage(d, &mut self.problem, check);
                }
            }
        }
        if self.exact {
            fit(&mut self.problem);
            fit_solution(&mut self.solution);
        }
        short
    }

    fn join(&mut self, d: &mut Draws, input: u64, right: &Right) {
        let (code, route) = route(d);
        let short = self.damage_joining(d, right, route);
        let (n, m) = (right.problem.n as usize, right.problem.m as usize);
        let mut lengths = [n, m, m, 2];
        lengths.iter_mut().enumerate().for_each(|(k, length)| *length = room(d, *length, k == short));
        let (p, solution) = (&self.problem, &self.solution);
        let got = number(flat::join(code, &joining(p, solution), &mut join_rooms(&mut self.f, &lengths, self.exact)));
        let plain = expected::join_input(p, solution);
        let want = if code > 1 { 1 } else { expected::join(route, &plain, Some(&lengths)).err().unwrap_or(0) };
        let (n, m) = (p.n as usize, p.m as usize);
        self.judge(6, input, got, want, (&[], &[n, m, m, 2]));
    }

    fn change_route(&mut self, d: &mut Draws, input: u64, right: &Right) {
        let short = self.damage_joining(d, right, Route::Standard);
        let mut lengths = right.changed;
        lengths.iter_mut().enumerate().for_each(|(k, length)| *length = room(d, *length, k == short));
        let (p, solution) = (&self.problem, &self.solution);
        let out = &mut join_rooms(&mut self.f, &lengths, self.exact);
        let got = number(flat::change_route(&joining(p, solution), out));
        let plain = expected::join_input(p, solution);
        let want = change_route::change_route(&plain, Some(&lengths)).err().unwrap_or(0);
        let needed = change_route::lengths(&plain).unwrap_or_default();
        self.judge(8, input, got, want, (&[], &needed));
    }

    fn cut_between(&mut self, d: &mut Draws, input: u64, right: &Right) {
        let short = self.damage(d, right, 11);
        let [mut low, mut high] = random::limits(d, &self.problem);
        if self.exact {
            low.shrink_to_fit();
            high.shrink_to_fit();
        }
        let mut lengths = right.rooms[1];
        let short_high = d.chance(3);
        let high_room = room(d, lengths[7], short_high);
        lengths.iter_mut().enumerate().for_each(|(k, length)| *length = room(d, *length, k == short));
        let (o, b_high) = cut_rooms(&mut self.u, &mut self.f, &lengths, high_room, self.exact);
        let mut out = BetweenOutputs::of(o, b_high);
        let got = number(flat::cut_between(&tables(&self.problem), &low, &high, &mut out));
        let sizes = sides::lengths_between(&self.problem, &low, &high);
        let want = match &sizes {
            Err(number) => *number,
            Ok(needed) if high_room < needed[7] || lengths.iter().zip(needed).any(|(length, n)| length < n) => 11,
            Ok(_) => 0,
        };
        let (u, f) = cut_results(&sizes.unwrap_or_default());
        self.judge(9, input, got, want, (&u, &f));
    }

    fn cut_many(&mut self, d: &mut Draws, input: u64, right: &Right) {
        let short = self.damage(d, right, 11);
        let (count, sides) = random::sides(d, &self.problem);
        self.problem.b = sides;
        if self.exact {
            fit(&mut self.problem);
        }
        let mut lengths = right.rooms[1];
        lengths[7] *= count.min(66) as usize;
        lengths.iter_mut().enumerate().for_each(|(k, length)| *length = room(d, *length, k == short));
        let (mut out, _) = cut_rooms(&mut self.u, &mut self.f, &lengths, 0, self.exact);
        let got = number(flat::cut_many(count, &tables(&self.problem), &mut out));
        let sizes = sides::lengths_many(count, &self.problem);
        let want = match &sizes {
            Err(number) => *number,
            Ok(needed) if lengths.iter().zip(needed).any(|(length, needed)| length < needed) => 11,
            Ok(_) => 0,
        };
        let (u, f) = cut_results(&sizes.unwrap_or_default());
        self.judge(10, input, got, want, (&u, &f[..5]));
    }

    fn same_layout(&mut self, d: &mut Draws, input: u64, right: &Right) {
        let short = self.damage(d, right, 1) == 0;
        copy(&mut self.second, if d.chance(20) { &self.problem } else { &right.problem });
        if d.chance(50) {
            std::mem::swap(&mut self.problem, &mut self.second);
        }
        if self.exact {
            fit(&mut self.second);
        }
        let length = room(d, 1, short);
        let out = self.u[0].lend(length, self.exact);
        let got = number(flat::same_layout(&tables(&self.problem), &tables(&self.second), out));
        let want = expected::same_layout(&self.problem, &self.second, length).err().unwrap_or(0);
        self.judge(7, input, got, want, (&[1], &[]));
    }

    fn pool(&mut self, d: &mut Draws, input: u64, right: &Right) {
        let short = self.damage(d, right, 11);
        let second = random::second_pass(d, &right.problem, random::TINY);
        copy(&mut self.second, &second);
        if d.chance(50) {
            std::mem::swap(&mut self.problem, &mut self.second);
        }
        if self.exact {
            fit(&mut self.second);
            fit(&mut self.problem);
        }
        let pooled = pool::pool(&self.problem, &self.second, None);
        let needed = pooled.as_ref().map_or([3; 11], pool::lengths);
        let mut lengths = needed;
        lengths.iter_mut().enumerate().for_each(|(k, length)| *length = room(d, *length, k == short));
        let (o, _) = cut_rooms(&mut self.u, &mut self.f, &lengths, 0, self.exact);
        let mut out = TableOutputs {
            p_starts: o.p_starts,
            p_rows: o.p_rows,
            p_values: o.p_values,
            q: o.q,
            a_starts: o.a_starts,
            a_rows: o.a_rows,
            a_values: o.a_values,
            b: o.b,
            cones: o.cones,
            alphas: o.alphas,
            pattern_words: o.map,
        };
        let got = number(flat::pool(&tables(&self.problem), &tables(&self.second), &mut out));
        let want = match pooled {
            Err(number) => number,
            Ok(_) if lengths.iter().zip(&needed).any(|(length, needed)| length < needed) => 11,
            Ok(_) => 0,
        };
        let (u, f) = cut_results(&needed);
        self.judge(11, input, got, want, (&u, &f[..5]));
    }

    fn one(&mut self, d: &mut Draws, input: u64, right: &Right) {
        match d.below(48) {
            0 => self.pair_index(d, input),
            1 => self.pair_back(d, input),
            2..=3 => self.inverse(d, input, right),
            4..=7 => self.renumber(d, input, right),
            8..=12 => self.sizes(d, input, right),
            13..=20 => self.cut(d, input, right),
            21..=28 => self.join(d, input, right),
            29..=31 => self.same_layout(d, input, right),
            32..=35 => self.change_route(d, input, right),
            36..=39 => self.cut_between(d, input, right),
            40..=43 => self.cut_many(d, input, right),
            _ => self.pool(d, input, right),
        }
    }
}

fn run(count: u64, seed: u64, exact: bool) -> bool {
    let started = Instant::now();
    let mut soak = Soak { exact, ..Soak::default() };
    let mut right = Right::default();
    let mut d = Draws::new(seed);
    for input in 0..count {
        if input.is_multiple_of(FROM_ONE) {
            right = Right::new(&mut d);
        }
        soak.one(&mut d, input, &right);
        if input % 65_536 == 65_535 {
            let seconds = started.elapsed().as_secs_f64();
            eprint!("\r{} of {count} inputs, {} failed, {seconds:.0} s ", input + 1, soak.failures);
            let _ = std::io::stderr().flush();
        }
    }
    eprintln!();
    let refused: u64 = soak.counts.iter().flat_map(|numbers| &numbers[1..]).sum();
    println!("{count} inputs from seed {seed}: {refused} refused, {} done, {} failed", count - refused, soak.failures);
    for (call, numbers) in CALLS.iter().zip(&soak.counts) {
        let counts = numbers.iter().enumerate().filter(|(_, &count)| count > 0);
        let text: Vec<String> = counts.map(|(number, count)| format!("{number}: {count}")).collect();
        println!("  {call:<15} {}", text.join("  "));
    }
    soak.failures == 0
}

fn main() {
    let mut numbers = [10_000_000, 1];
    let (mut given, mut exact) = (0, false);
    for arg in std::env::args().skip(1) {
        match arg.replace(['_', ','], "").parse() {
            _ if arg == "--exact" => exact = true,
            Ok(number) if given < 2 => {
                numbers[given] = number;
                given += 1;
            }
            _ => {
                eprintln!("soak [COUNT] [SEED] [--exact]");
                std::process::exit(2);
            }
        }
    }
    let [count, seed] = numbers;
    let thread = std::thread::Builder::new().stack_size(2 << 20).spawn(move || run(count, seed, exact)).unwrap();
    std::process::exit(!thread.join().unwrap_or(false) as i32);
}

#[test]
fn a_short_soak() {
    assert!(run(20_000, 1, false));
    assert!(run(2_000, 2, true));
}
