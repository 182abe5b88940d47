//! Stored answers in the form of crate `stored`, which crate `replay` runs: a file for each family.
//!
//! A file is text of hexadecimal numbers: how many cases; for each case how many lists of u32 and those lists, then how
//! many lists of f64 and those lists, as bits; each list is its length and its numbers. An output's list is what the
//! whole output holds after the call; before it, index k of the output holds 0xF0000000 + k % 65536, or -0.5 - k % 65536.
//! A case of pooling is stored as two: the first problem, then the second and the outputs, at the places that a cut has.

use crate::added::as_tables;
use crate::change_route;
use crate::expected::{self, Clique, Pattern};
use crate::pool;
use crate::problem::*;
use crate::random::{self, Draws};
use crate::sides;
use std::fmt::Write as _;
use std::{fs, io, path::Path};

struct Case {
    words: Vec<Vec<u32>>,
    values: Vec<Vec<f64>>,
}

// how many numbers crate replay can hold for one output, and for a case's lists of either kind with their starts
const OUTPUT: usize = 4_096;
const LISTS: usize = 16_384 - 32;

impl Case {
    // any list may be an output's, except the pattern words and the values of b
    fn fits(&self) -> bool {
        let lengths = |each: Vec<usize>, long: usize| {
            each.iter().filter(|&&l| l > OUTPUT).count() <= long && each.iter().sum::<usize>() <= LISTS
        };
        lengths(self.words.iter().map(Vec::len).collect(), 1) && lengths(self.values.iter().map(Vec::len).collect(), 2)
    }
}

fn text(cases: &[Vec<Case>]) -> String {
    let mut out = format!("{:08x}\n", cases.len());
    for case in cases.iter().flatten() {
        let _ = writeln!(out, "{:08x}", case.words.len());
        for list in &case.words {
            let _ = write!(out, "{:08x}", list.len());
            list.iter().for_each(|x| _ = write!(out, " {x:08x}"));
            out.push('\n');
        }
        let _ = writeln!(out, "{:08x}", case.values.len());
        for list in &case.values {
            let _ = write!(out, "{:08x}", list.len());
            list.iter().for_each(|x| _ = write!(out, " {:016x}", x.to_bits()));
            out.push('\n');
        }
    }
    out
}

/// Returns what an output of u32 holds after a call: the result at its front if nothing is refused, the rest unchanged.
fn after(answer: &Result<Vec<u32>, u32>, length: usize) -> Vec<u32> {
    let mut room: Vec<u32> = (0..length).map(|k| 0xF000_0000 + (k % 65536) as u32).collect();
    if let Ok(new) = answer {
        room[..new.len()].copy_from_slice(new);
    }
    room
}

fn number<T>(answer: &Result<T, u32>) -> u32 {
    answer.as_ref().err().copied().unwrap_or(0)
}

fn problem_words(p: &Problem) -> Vec<Vec<u32>> {
    [&p.p.starts, &p.p.rows, &p.a.starts, &p.a.rows, &p.cones, &p.pattern_words].map(|l| l.clone()).to_vec()
}

fn problem_values(p: &Problem) -> Vec<Vec<f64>> {
    [&p.p.values, &p.q, &p.a.values, &p.b, &p.alphas].map(|l| l.clone()).to_vec()
}

/// Returns a valid problem, or one with one or several faults.
fn some_problem(d: &mut Draws, index: u64) -> Problem {
    let mut p = random::problem(d, random::SMALL);
    for _ in 0..index % 4 {
        let check = 1 + d.below(7);
        random::damage(d, &mut p, check);
    }
    p
}

fn renumber(d: &mut Draws, index: u64) -> Case {
    let vertices = 1 + d.below(9);
    let origin = d.below(5) as u32;
    let mut words = random::pattern(d, origin, vertices).words();
    for _ in 0..index % 3 {
        match d.below(4) {
            0 => drop(words.pop()),
            1 => words.push(d.below(3) as u32),
            _ if words.is_empty() => {}
            _ => {
                let at = d.below(words.len());
                words[at] = if d.chance(20) { NONE } else { d.below(vertices + 1) as u32 };
            }
        }
    }
    let room = (words.len() + d.below(3)).saturating_sub(d.below(2));
    let answer = expected::renumber(&words, room);
    Case { words: vec![vec![number(&answer)], words, after(&answer, room)], values: vec![] }
}

fn check_problem(d: &mut Draws, index: u64) -> Case {
    let mut p = some_problem(d, index);
    if index % 10 == 4 {
        random::repeat_entries(d, &mut p);
    }
    let mut words = vec![vec![p.n, p.m, p.pattern_count], vec![number(&expected::first_seven(&p))]];
    words.extend(problem_words(&p));
    Case { words, values: problem_values(&p) }
}

fn same_layout(d: &mut Draws, index: u64) -> Case {
    let mut p = some_problem(d, index & 1);
    let mut q = p.clone();
    if index % 3 == 2 {
        random::nearly_same(d, &mut p, &mut q);
    } else if d.chance(30) {
        q = some_problem(d, 0);
    } else if d.chance(50) {
        let check = 1 + d.below(7);
        random::damage(d, &mut q, check);
    }
    let room = d.below(4);
    let answer = expected::same_layout(&p, &q, room).map(|same| vec![same as u32]);
    let mut words = vec![vec![p.n, p.m, p.pattern_count, q.n, q.m, q.pattern_count], vec![number(&answer)]];
    words.extend(problem_words(&p));
    words.extend(problem_words(&q));
    words.push(after(&answer, room));
    let mut values = problem_values(&p);
    values.extend(problem_values(&q));
    Case { words, values }
}

/// The same for an output of f64.
fn values_after(new: Option<&[f64]>, length: usize) -> Vec<f64> {
    let mut room: Vec<f64> = (0..length).map(|k| -0.5 - (k % 65536) as f64).collect();
    if let Some(new) = new {
        room[..new.len()].copy_from_slice(new);
    }
    room
}

fn words_after(new: Option<&[u32]>, length: usize) -> Vec<u32> {
    after(&new.map(<[u32]>::to_vec).ok_or(0), length)
}

fn some_route(d: &mut Draws) -> Route {
    if d.chance(50) {
        Route::Compact
    } else {
        Route::Standard
    }
}

/// Returns a valid problem, or one with faults for any check that a route makes; some have no columns, some repeat entries.
fn some_problem_on(d: &mut Draws, index: u64) -> Problem {
    let mut p = random::problem(d, random::SMALL);
    match index % 10 {
        8 => random::no_columns(&mut p),
        1 | 6 => random::repeat_entries(d, &mut p),
        _ => {}
    }
    for _ in 0..(index % 4) / 2 {
        let check = 1 + d.below(9);
        random::damage(d, &mut p, check);
    }
    p
}

/// Returns an output length, now and then one too short, otherwise up to two longer than needed.
fn some_room(d: &mut Draws, need: usize) -> usize {
    if d.chance(2) {
        need.saturating_sub(1)
    } else {
        need + d.below(3)
    }
}

fn sizes(d: &mut Draws, index: u64) -> Case {
    let (route, p) = (some_route(d), some_problem_on(d, index));
    let room = some_room(d, 11);
    sizes_case(route.code(), &p, room, expected::sizes(route, &p, room))
}

fn sizes_case(route: u32, p: &Problem, room: usize, answer: Result<[usize; 11], u32>) -> Case {
    let answer = answer.map(|lengths| lengths.map(|k| k as u32).to_vec());
    let mut words = vec![vec![route, p.n, p.m, p.pattern_count], vec![number(&answer)]];
    words.extend(problem_words(p));
    words.push(after(&answer, room));
    Case { words, values: problem_values(p) }
}

// returns what the outputs of a cut hold after the call: those of u32, and those of f64
fn cut_after(c: Option<&Cut>, rooms: &[usize; 11]) -> ([Vec<u32>; 6], [Vec<f64>; 5]) {
    let words = [
        words_after(c.map(|c| &c.p.starts[..]), rooms[0]),
        words_after(c.map(|c| &c.p.rows[..]), rooms[1]),
        words_after(c.map(|c| &c.a.starts[..]), rooms[4]),
        words_after(c.map(|c| &c.a.rows[..]), rooms[5]),
        words_after(c.map(|c| &c.cones[..]), rooms[8]),
        words_after(c.map(|c| &c.map[..]), rooms[10]),
    ];
    let values = [
        values_after(c.map(|c| &c.p.values[..]), rooms[2]),
        values_after(c.map(|c| &c.q[..]), rooms[3]),
        values_after(c.map(|c| &c.a.values[..]), rooms[6]),
        values_after(c.map(|c| &c.b[..]), rooms[7]),
        values_after(c.map(|c| &c.alphas[..]), rooms[9]),
    ];
    (words, values)
}

// returns a case of a call that takes these numbers and a problem and returns a cut
fn cut_case(given: Vec<u32>, p: &Problem, rooms: &[usize; 11], answer: &Result<Cut, u32>) -> Case {
    let after = cut_after(answer.as_ref().ok(), rooms);
    let mut words = vec![given, vec![number(answer)]];
    words.extend(problem_words(p));
    words.extend(after.0);
    let mut values = problem_values(p);
    values.extend(after.1);
    Case { words, values }
}

fn cut(d: &mut Draws, index: u64) -> Case {
    let (route, p) = (some_route(d), some_problem_on(d, index));
    let needs = expected::sizes(route, &p, 11).unwrap_or([3; 11]);
    let rooms = needs.map(|need| some_room(d, need));
    let answer = expected::cut(route, &p, Some(&rooms));
    cut_case(vec![route.code(), p.n, p.m, p.pattern_count], &p, &rooms, &answer)
}

// the low limits are in b's place, the high limits and their output come last
fn cut_between(d: &mut Draws, index: u64) -> Case {
    let p = some_problem_on(d, index);
    let [low, high] = random::limits(d, &p);
    let needs = sides::lengths_between(&p, &low, &high).unwrap_or([3; 11]);
    let rooms = needs.map(|need| some_room(d, need));
    let high_room = some_room(d, needs[7]);
    let answer = sides::cut_between(&p, &low, &high, Some((&rooms, high_room)));
    let high_after = values_after(answer.as_ref().ok().map(|(_, b_high)| &b_high[..]), high_room);
    let answer = answer.map(|(cut, _)| cut);
    let mut case = cut_case(vec![p.n, p.m, p.pattern_count], &sides::with_b(&p, &low), &rooms, &answer);
    case.values.extend([high, high_after]);
    case
}

fn cut_many(d: &mut Draws, index: u64) -> Case {
    let p = some_problem_on(d, index);
    let (count, b) = random::sides(d, &p);
    let p = sides::with_b(&p, &b);
    let needs = sides::lengths_many(count, &p).unwrap_or([3; 11]);
    let rooms = needs.map(|need| some_room(d, need));
    let answer = sides::cut_many(count, &p, Some(&rooms));
    cut_case(vec![count, p.n, p.m, p.pattern_count], &p, &rooms, &answer)
}

// the second problem and the outputs have the places of a cut's, the pattern words that of its map
fn pooled(d: &mut Draws, index: u64) -> Vec<Case> {
    let first = some_problem(d, (index % 4) / 3);
    let second = random::second_pass(d, &first, random::SMALL);
    let needs = pool::pool(&first, &second, None).map_or([3; 11], |pool| pool::lengths(&pool));
    let rooms = needs.map(|need| some_room(d, need));
    let answer = pool::pool(&first, &second, Some(&rooms));
    let given = vec![first.n, first.m, first.pattern_count, second.n, second.m, second.pattern_count];
    let mut words = vec![given, vec![number(&answer)]];
    words.extend(problem_words(&first));
    let one = Case { words, values: problem_values(&first) };
    let after = cut_after(answer.ok().map(as_tables).as_ref(), &rooms);
    let mut words = vec![vec![]; 2];
    words.extend(problem_words(&second));
    words.extend(after.0);
    let mut values = problem_values(&second);
    values.extend(after.1);
    vec![one, Case { words, values }]
}

fn join(d: &mut Draws, index: u64) -> Case {
    let (route, mut p) = (some_route(d), random::problem(d, random::SMALL));
    if index % 10 == 8 {
        random::no_columns(&mut p);
    }
    let shape = expected::solution_shape(route, &p).unwrap_or((p.n as usize, p.m as usize, vec![]));
    let mut solution = random::solution(d, &shape);
    match index % 4 {
        2 => random::damage_solution(d, &mut solution),
        3 => {
            let check = 4 + d.below(5);
            random::damage(d, &mut p, check);
        }
        _ => {}
    }
    let rooms = [p.n as usize, p.m as usize, p.m as usize, 2].map(|need| some_room(d, need.min(4096)));
    let answer = expected::join(route, &expected::join_input(&p, &solution), Some(&rooms));
    solution_case(route.code(), &p, &solution, &rooms, &answer)
}

// a case with a standard solution, and no map
fn changed_route(d: &mut Draws, index: u64) -> Case {
    let mut p = random::problem(d, random::SMALL);
    if index % 10 == 8 {
        random::no_columns(&mut p);
    }
    let shape = expected::solution_shape(Route::Standard, &p).unwrap_or((p.n as usize, p.m as usize, vec![]));
    let mut solution = random::solution(d, &shape);
    match index % 4 {
        2 => random::damage_solution(d, &mut solution),
        3 => {
            let check = 4 + d.below(4);
            random::damage(d, &mut p, check);
        }
        _ => {}
    }
    solution.map.clear();
    let needs = change_route::lengths(&expected::join_input(&p, &solution)).unwrap_or([3; 4]);
    let rooms = needs.map(|need| some_room(d, need));
    let answer = change_route::change_route(&expected::join_input(&p, &solution), Some(&rooms));
    solution_case(Route::Standard.code(), &p, &solution, &rooms, &answer)
}

// returns a case of a call that takes a solution and returns one
fn solution_case(
    route: u32,
    p: &Problem,
    solution: &Solution,
    rooms: &[usize; 4],
    answer: &Result<Joined, u32>,
) -> Case {
    let j = answer.as_ref().ok();
    let scalars = j.map(|j| [j.tau, j.kappa]);
    let words = vec![
        vec![route, p.n, p.m, p.pattern_count],
        vec![number(answer)],
        p.cones.clone(),
        p.pattern_words.clone(),
        solution.map.clone(),
    ];
    let values = vec![
        solution.x.clone(),
        solution.s.clone(),
        solution.z.clone(),
        vec![solution.tau, solution.kappa],
        values_after(j.map(|j| &j.x[..]), rooms[0]),
        values_after(j.map(|j| &j.s[..]), rooms[1]),
        values_after(j.map(|j| &j.z[..]), rooms[2]),
        values_after(scalars.as_ref().map(|s| &s[..]), rooms[3]),
    ];
    Case { words, values }
}

// ---- the refusals that few random problems reach

const NO_ROUTE: u32 = 2;

/// Returns a problem without columns whose PSD cone has a clique for each vertex, made of it and all later ones. From 93 vertices
/// on it has more overlaps than the compact route accepts, from 115 on more rows than the standard route accepts.
fn crowded(vertices: u32) -> Problem {
    let clique = |v: u32| Clique {
        parent: if v + 1 < vertices { v + 1 } else { NONE },
        snode: vec![v],
        separator: (v + 1..vertices).collect(),
    };
    let cliques = (0..vertices).map(clique).collect();
    let pattern = Pattern { orig_index: 0, vertices, ordering: (0..vertices).collect(), cliques };
    let rows = expected::triangle(vertices as u64) as usize;
    let no_entries = Columns { starts: vec![0], ..Columns::default() };
    Problem {
        m: rows as u32,
        p: no_entries.clone(),
        a: no_entries,
        b: vec![0.0; rows],
        cones: vec![6, vertices, 0],
        pattern_count: 1,
        pattern_words: pattern.words(),
        ..Problem::default()
    }
}

fn sizes_corners() -> Vec<Case> {
    let (p, small) = (crowded(93), crowded(2));
    vec![
        sizes_case(Route::Compact.code(), &p, 11, expected::sizes(Route::Compact, &p, 11)),
        sizes_case(NO_ROUTE, &small, 11, Err(1)),
    ]
}

fn cut_corners() -> Vec<Case> {
    let (p, small, rooms) = (crowded(93), crowded(2), [3; 11]);
    let given = |route: u32, p: &Problem| vec![route, p.n, p.m, p.pattern_count];
    let answer = expected::cut(Route::Compact, &p, Some(&rooms));
    vec![
        cut_case(given(Route::Compact.code(), &p), &p, &rooms, &answer),
        cut_case(given(NO_ROUTE, &small), &small, &[20; 11], &Err(1)),
    ]
}

fn cut_between_corners() -> Vec<Case> {
    let (p, rooms) = (crowded(93), [3; 11]);
    let answer = sides::cut_between(&p, &p.b, &p.b, Some((&rooms, 3))).map(|(cut, _)| cut);
    let mut case = cut_case(vec![p.n, p.m, p.pattern_count], &p, &rooms, &answer);
    case.values.extend([p.b.clone(), values_after(None, 3)]);
    vec![case]
}

fn cut_many_corners() -> Vec<Case> {
    let (p, rooms) = (crowded(93), [3; 11]);
    let answer = sides::cut_many(1, &p, Some(&rooms));
    vec![cut_case(vec![1, p.n, p.m, p.pattern_count], &p, &rooms, &answer)]
}

// returns a case without a solution and with short outputs, for a problem that is refused before these are checked
fn refused_solution(
    route: Route,
    p: &Problem,
    call: fn(&expected::JoinInput, &[usize; 4]) -> Result<Joined, u32>,
) -> Case {
    let (solution, rooms) = (Solution::default(), [1; 4]);
    let answer = call(&expected::join_input(p, &solution), &rooms);
    assert!(number(&answer) < 11);
    solution_case(route.code(), p, &solution, &rooms, &answer)
}

fn faulty() -> [Problem; 2] {
    let wide = Problem { n: 65_537, ..crowded(2) };
    let unknown = Problem { cones: vec![7, 2, 0], ..crowded(2) };
    [wide, unknown]
}

fn join_corners() -> Vec<Case> {
    let compact = |j: &expected::JoinInput, rooms: &[usize; 4]| expected::join(Route::Compact, j, Some(rooms));
    let standard = |j: &expected::JoinInput, rooms: &[usize; 4]| expected::join(Route::Standard, j, Some(rooms));
    let [wide, unknown] = faulty();
    vec![
        refused_solution(Route::Compact, &wide, compact),
        refused_solution(Route::Compact, &crowded(93), compact),
        refused_solution(Route::Standard, &wide, standard),
        refused_solution(Route::Standard, &unknown, standard),
        refused_solution(Route::Standard, &crowded(115), standard),
        solution_case(NO_ROUTE, &crowded(2), &Solution::default(), &[9; 4], &Err(1)),
    ]
}

fn change_route_corners() -> Vec<Case> {
    let call = |j: &expected::JoinInput, rooms: &[usize; 4]| change_route::change_route(j, Some(rooms));
    let [wide, unknown] = faulty();
    [wide, unknown, crowded(93)].iter().map(|p| refused_solution(Route::Standard, p, call)).collect()
}

/// Writes, for each family, a file of `cases` answers and some corner cases into a folder.
pub fn write(folder: &Path, cases: u64, seed: u64) -> io::Result<()> {
    type Family = fn(&mut Draws, u64) -> Vec<Case>;
    let families: [(&str, Family, Vec<Case>); 10] = [
        ("renumber", |d, index| vec![renumber(d, index)], vec![]),
        ("check_problem", |d, index| vec![check_problem(d, index)], vec![]),
        ("same_layout", |d, index| vec![same_layout(d, index)], vec![]),
        ("sizes", |d, index| vec![sizes(d, index)], sizes_corners()),
        ("cut", |d, index| vec![cut(d, index)], cut_corners()),
        ("join", |d, index| vec![join(d, index)], join_corners()),
        ("cut_between", |d, index| vec![cut_between(d, index)], cut_between_corners()),
        ("cut_many", |d, index| vec![cut_many(d, index)], cut_many_corners()),
        ("pool", pooled, vec![]),
        ("change_route", |d, index| vec![changed_route(d, index)], change_route_corners()),
    ];
    for (k, (name, family, corners)) in families.into_iter().enumerate() {
        let mut made: Vec<Vec<Case>> =
            (0..cases).map(|index| family(&mut crate::case_draws(seed + k as u64, index), index)).collect();
        made.extend(corners.into_iter().map(|corner| vec![corner]));
        assert!(made.iter().flatten().all(Case::fits), "a case of {name} has more than crate replay has room for");
        fs::write(folder.join(name), text(&made))?;
    }
    Ok(())
}
