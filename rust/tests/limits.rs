//! Threads with 1.5 MB of stack, each calling at the limits at the same time as the others.
//!
//! Every problem is cut and joined on both routes, cut with its b as both limits and with its b as each of two sides, and
//! pooled with a pass that has no rows, by every thread; what comes out is held to document 01's plain reading
//! (compare/src/expected.rs).

#[allow(dead_code)]
#[path = "../../compare/src/expected.rs"]
mod expected;
mod lend;
#[allow(dead_code)]
#[path = "../../compare/src/problem.rs"]
mod problem;
#[allow(dead_code)]
#[path = "../../compare/src/random.rs"]
mod random;

use expected::{join_input, triangle, Clique, Pattern};
use lend::{cut_outputs, join_outputs, joining, number, table_outputs, tables};
use problem::{all_bits, all_same, Columns, Cut, Joined, Problem, Route, Solution, NONE};
use random::{band_pattern, Draws};
use std::sync::{Arc, Barrier};
use tejiwakpa::flat::{self, BetweenOutputs, Tables};

const THREADS: usize = 4;

// 1.5 MB, for the calls and for the test itself
const STACK: usize = 3 << 19;

// ---- problems at several limits at once

// A PSD cone of `shared` + 1 vertices, cut into one vertex with all the others as its separator and those others: as
// many overlaps as the triangle of `shared`, and no row uncovered.
fn pair_of_cliques(orig_index: u32, shared: u32) -> Pattern {
    let root: Vec<u32> = (1..=shared).collect();
    let cliques = vec![
        Clique { parent: 1, snode: vec![0], separator: root.clone() },
        Clique { parent: NONE, snode: root, separator: vec![] },
    ];
    Pattern { orig_index, vertices: shared + 1, ordering: (0..=shared).rev().collect(), cliques }
}

/// n = m = 65,536, 262,144 entries of A and of P, and a PSD cone of 256 whose band has cliques of `width` + 1 vertices.
/// Pairs of cliques bring `extra` overlaps more, and a nonnegative cone fills up the rows.
fn large(width: usize, extra: u64) -> Problem {
    let mut cones = vec![6, 256, 0];
    let mut patterns = vec![band_pattern(0, 256, width)];
    let (mut m, mut left) = (triangle(256), extra);
    while left > 0 {
        let shared = (1..256).take_while(|&k| triangle(k) <= left).last().unwrap();
        patterns.push(pair_of_cliques(cones.len() as u32 / 3, shared as u32));
        cones.extend([6, shared as u32 + 1, 0]);
        m += triangle(shared + 1);
        left -= triangle(shared);
    }
    let fill = 65_536 - m as u32;
    cones.extend([1, fill, 0]);

    // rows that the band covers, and rows of the nonnegative cone; P's are anywhere
    let diagonal = |k: u32| triangle(k as u64) as u32 + k;
    let entries = |rows: &dyn Fn(u32) -> [u32; 4]| {
        let rows: Vec<u32> = (0..65_536).flat_map(rows).collect();
        let values = (0..rows.len()).map(|k| k as f64 - 0.25).collect();
        Columns { starts: (0..=65_536).map(|c| 4 * c).collect(), rows, values }
    };
    let first = m as u32;
    let a = entries(&|c| {
        [diagonal(c % 255), diagonal(c % 255 + 1) - 1, first + c % (fill - 1), first + c % (fill - 1) + 1]
    });
    let p = entries(&|c| [c % 65_533, c % 65_533 + 1, c % 65_533 + 2, c % 65_533 + 3]);
    let mut b = vec![0.0; 65_536];
    (0..256).for_each(|k| b[diagonal(k) as usize] = k as f64 + 0.5);
    b[first as usize..].fill(-0.0);
    Problem {
        n: 65_536,
        m: 65_536,
        p,
        q: (0..65_536).map(f64::from).collect(),
        a,
        b,
        cones,
        alphas: vec![],
        pattern_count: patterns.len() as u32,
        pattern_words: patterns.iter().flat_map(Pattern::words).collect(),
    }
}

/// As [`large`], with 131,072 overlaps.
fn most_overlaps() -> Problem {
    large(33, 131_072 - 222 * triangle(33))
}

/// As [`large`], with 262,144 augmented rows on the standard route.
fn most_rows() -> Problem {
    let band = 219 * triangle(38);
    large(37, 262_144 - 65_536 - (65_536 - triangle(256)) - band)
}

// ---- what each thread does

struct Case {
    name: String,
    route: Route,
    problem: Problem,
    cut: Result<Cut, u32>,
    solution: Solution,
    joined: Result<Joined, u32>,
}

impl Case {
    fn new(d: &mut Draws, name: &str, route: Route, problem: Problem) -> Case {
        let solution = random::solution(d, &expected::solution_shape(route, &problem).unwrap_or_default());
        let cut = expected::cut(route, &problem, None);
        let joined = expected::join(route, &join_input(&problem, &solution), None);
        Case { name: format!("{name}, {}", route.name()), route, problem, cut, solution, joined }
    }

    fn check(&self) {
        self.check_cut();
        self.check_join();
        if self.route == Route::Compact {
            self.check_between();
            self.check_many();
        }
        let tables = tables(&self.problem);
        let answer = number(flat::same_layout(&tables, &tables, &mut [0]));
        let want = expected::first_seven(&self.problem).err().unwrap_or(0);
        assert_eq!(answer, want, "{}: same layout", self.name);
        self.check_pool();
    }

    // the pool is the problem itself
    fn check_pool(&self) {
        let p = &self.problem;
        let no_entries = Columns { starts: vec![0; p.n as usize + 1], ..Columns::default() };
        let none = Problem { n: p.n, p: no_entries.clone(), q: p.q.clone(), a: no_entries, ..Problem::default() };
        let mut got = p.clone();
        for list in [&mut got.p.values, &mut got.q, &mut got.a.values, &mut got.b, &mut got.alphas] {
            list.fill(0.5);
        }
        for list in [&mut got.p.starts, &mut got.p.rows, &mut got.a.starts, &mut got.a.rows] {
            list.fill(7);
        }
        got.cones.fill(7);
        got.pattern_words.fill(7);
        let answer = number(flat::pool(&tables(p), &tables(&none), &mut table_outputs(&mut got)));
        let want = expected::first_seven(p).err().unwrap_or(0);
        assert_eq!(answer, want, "{}: pooling", self.name);
        if answer == 0 {
            let words = |p: &Problem| {
                [&p.p.starts, &p.p.rows, &p.a.starts, &p.a.rows, &p.cones, &p.pattern_words].map(Vec::clone)
            };
            let values = |p: &Problem| [&p.p.values, &p.q, &p.a.values, &p.b, &p.alphas].map(Vec::clone);
            let same = values(&got).iter().zip(&values(p)).all(|(got, want)| all_bits(got, want));
            assert!(words(&got) == words(p) && same, "{}: the pooled tables", self.name);
        }
    }

    // room for the cut, as long as the sizes call says
    fn cut_room(&self) -> Cut {
        let mut sizes = [0; 11];
        let answer = number(flat::sizes(self.route.code(), &tables(&self.problem), &mut sizes));
        assert_eq!(answer, refusal(&self.cut), "{}: sizes", self.name);
        let words = |k: usize| vec![0; sizes[k] as usize];
        let values = |k: usize| vec![0.0; sizes[k] as usize];
        Cut {
            p: Columns { starts: words(0), rows: words(1), values: values(2) },
            q: values(3),
            a: Columns { starts: words(4), rows: words(5), values: values(6) },
            b: values(7),
            cones: words(8),
            alphas: values(9),
            map: words(10),
            ..Cut::default()
        }
    }

    // whether a call's answer and tables are those of the cut
    fn check_tables(&self, call: &str, answer: u32, got: &Cut) {
        assert_eq!(answer, refusal(&self.cut), "{}: {call}", self.name);
        if let Ok(want) = &self.cut {
            let words = |c: &Cut| [&c.p.starts, &c.p.rows, &c.a.starts, &c.a.rows, &c.cones, &c.map].map(Vec::clone);
            assert!(words(got) == words(want), "{}: the tables of the {call}", self.name);
            // no problem here has a NaN, so sums too are compared bit by bit
            let values = |c: &Cut| [&c.p.values, &c.q, &c.a.values, &c.b, &c.alphas].map(Vec::clone);
            let same = values(got).iter().zip(&values(want)).all(|(got, want)| all_bits(got, want));
            assert!(same, "{}: the values of the {call}", self.name);
        }
    }

    fn check_cut(&self) {
        let mut got = self.cut_room();
        let answer = number(flat::cut(self.route.code(), &tables(&self.problem), &mut cut_outputs(&mut got)));
        self.check_tables("cut", answer, &got);
    }

    fn check_between(&self) {
        let (mut got, b) = (self.cut_room(), &self.problem.b);
        let mut b_high = got.b.clone();
        let mut out = BetweenOutputs::of(cut_outputs(&mut got), &mut b_high);
        let answer = number(flat::cut_between(&tables(&self.problem), b, b, &mut out));
        self.check_tables("cut between limits", answer, &got);
        assert!(all_bits(&b_high, &got.b), "{}: the high limits", self.name);
    }

    fn check_many(&self) {
        let (mut got, b) = (self.cut_room(), self.problem.b.repeat(2));
        got.b = got.b.repeat(2);
        let sides = Tables { b: &b, ..tables(&self.problem) };
        let answer = number(flat::cut_many(2, &sides, &mut cut_outputs(&mut got)));
        let second = got.b.split_off(got.b.len() / 2);
        self.check_tables("cut of two sides", answer, &got);
        assert!(all_bits(&second, &got.b), "{}: the second side", self.name);
    }

    fn check_join(&self) {
        let p = &self.problem;
        let room = |size: u32| vec![0.0; size as usize];
        let mut got = Joined { x: room(p.n), s: room(p.m), z: room(p.m), ..Joined::default() };
        let mut scalars = [0.0; 2];
        let mut out = join_outputs(&mut got, &mut scalars);
        let answer = number(flat::join(self.route.code(), &joining(p, &self.solution), &mut out));
        assert_eq!(answer, refusal(&self.joined), "{}: joining", self.name);
        if let Ok(want) = &self.joined {
            let same = all_bits(&got.x, &want.x) && all_same(&got.s, &want.s) && all_same(&got.z, &want.z);
            assert!(same && scalars == [1.0, 1.0], "{}: the joined values", self.name);
        }
    }
}

fn refusal<T>(answer: &Result<T, u32>) -> u32 {
    answer.as_ref().err().copied().unwrap_or(0)
}

/// Runs the work of each thread on `STACK` bytes of stack, once all are ready for it.
fn on_threads<W: FnOnce() + Send + 'static>(prepare: impl Fn(usize) -> W + Send + Sync + 'static) {
    let (prepare, ready) = (Arc::new(prepare), Arc::new(Barrier::new(THREADS)));
    let threads = (0..THREADS).map(|thread| {
        let (prepare, ready) = (prepare.clone(), ready.clone());
        let run = move || {
            let work = prepare(thread);
            ready.wait();
            work();
        };
        std::thread::Builder::new().stack_size(STACK).spawn(run).unwrap()
    });
    let ended: Vec<bool> = threads.collect::<Vec<_>>().into_iter().map(|thread| thread.join().is_ok()).collect();
    assert_eq!(ended, [true; THREADS]);
}

// each thread begins with another case
fn check_on_threads(cases: Vec<Case>) {
    let cases = Arc::new(cases);
    on_threads(move |thread| {
        let cases = cases.clone();
        move || (0..cases.len()).for_each(|k| cases[(k + thread) % cases.len()].check())
    });
}

fn cases(problems: Vec<(String, Problem)>) -> Vec<Case> {
    let mut d = Draws::new(1);
    let each = |(name, problem): (String, Problem)| {
        [Route::Standard, Route::Compact].map(|route| Case::new(&mut d, &name, route, problem.clone()))
    };
    problems.into_iter().flat_map(each).collect()
}

#[test]
fn all_limits_at_once() {
    let problems = vec![("most overlaps".to_string(), most_overlaps()), ("most rows".to_string(), most_rows())];
    let cases = cases(problems);
    let lengths: Vec<(usize, usize)> = cases.iter().flat_map(|c| &c.cut).map(|c| (c.b.len(), c.q.len())).collect();
    // most rows has more overlaps than the compact route takes
    assert_eq!(cases.iter().map(|c| refusal(&c.cut)).collect::<Vec<_>>(), [0, 0, 0, 10]);
    assert_eq!(lengths[1].1, 65_536 + 131_072);
    assert_eq!(lengths[2].0, 262_144);
    check_on_threads(cases);
}

#[test]
fn each_limit_and_one_over() {
    check_on_threads(cases(random::at_limits()));
}

#[test]
fn long_permutations_and_patterns() {
    on_threads(|thread| {
        let mut d = Draws::new(thread as u64);
        let tables = [16, 64, 256, 1_024, 4_096, 16_384, 65_536, 262_144];
        let lengths = tables.into_iter().flat_map(|n| [n, n + 1]).chain([600_000]);
        let permutations: Vec<_> = lengths.map(|n| d.permutation(n)).collect();
        let patterns = [256, 1_000, 3_000].map(|vertices| random::pattern(&mut d, 0, vertices).words());
        move || {
            for permutation in permutations {
                let mut got = vec![0; permutation.len()];
                assert_eq!(number(flat::inverse(&permutation, &mut got)), 0);
                assert!(Ok(got) == expected::inverse(&permutation, permutation.len()), "{}", permutation.len());
            }
            for words in patterns {
                let mut got = vec![0; words.len()];
                assert_eq!(number(flat::renumber(&words, &mut got)), 0);
                assert!(Ok(got) == expected::renumber(&words, words.len()), "{} vertices", words[1]);
            }
        }
    });
}
