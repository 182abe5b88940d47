//! The stored answers that crate replay runs too (crates/replay/data), through the door.
//!
//! A file is text of hexadecimal numbers: how many cases; for each case how many lists of u32 and those lists, then how
//! many lists of f64 and those lists, as bits; each list is its length and its numbers. A case's lists of u32 are the
//! call's numbers, its answer, its inputs and its outputs; its lists of f64 are its inputs and its outputs. An output's
//! list is what the whole of its room holds after the call. A case of pooling stands as two: the first problem, then the
//! second and the outputs.

use std::path::Path;
use tejiwakpa::flat::{self, BetweenOutputs, CutOutputs, JoinOutputs, Joining, TableOutputs, Tables};
use tejiwakpa::Refusal;

struct Case {
    words: Vec<Vec<u32>>,
    values: Vec<Vec<f64>>,
}

// the cases of a file, each as so many
fn read(text: &str, parts: u64) -> Vec<Case> {
    let mut numbers = text.split_ascii_whitespace().map(|n| u64::from_str_radix(n, 16).unwrap());
    let lists = |numbers: &mut dyn Iterator<Item = u64>| -> Vec<Vec<u64>> {
        let count = numbers.next().unwrap();
        let mut list = || {
            let length = numbers.next().unwrap();
            (0..length).map(|_| numbers.next().unwrap()).collect()
        };
        (0..count).map(|_| list()).collect()
    };
    let count = numbers.next().unwrap();
    let mut case = || Case {
        words: lists(&mut numbers).into_iter().map(|l| l.into_iter().map(|x| x as u32).collect()).collect(),
        values: lists(&mut numbers).into_iter().map(|l| l.into_iter().map(f64::from_bits).collect()).collect(),
    };
    let cases = (0..parts * count).map(|_| case()).collect();
    assert_eq!(numbers.next(), None);
    cases
}

// what an output holds before a call
fn words(like: &[u32]) -> Vec<u32> {
    (0..like.len()).map(|k| 0xf000_0000 + (k % 65_536) as u32).collect()
}
fn values(like: &[f64]) -> Vec<f64> {
    (0..like.len()).map(|k| -0.5 - (k % 65_536) as f64).collect()
}

fn number(answer: Result<(), Refusal>) -> u32 {
    answer.err().map_or(0, Refusal::number)
}

// bit for bit, save for which NaN
fn same(got: &[f64], want: &[f64]) -> bool {
    let alike = |(x, y): (&f64, &f64)| x.to_bits() == y.to_bits() || (x.is_nan() && y.is_nan());
    got.len() == want.len() && got.iter().zip(want).all(alike)
}

impl Case {
    // the problem whose lists of u32 and of f64 begin at these places
    fn tables(&self, n: u32, m: u32, pattern_count: u32, w: usize, v: usize) -> Tables<'_> {
        Tables {
            n,
            m,
            p_starts: &self.words[w],
            p_rows: &self.words[w + 1],
            p_values: &self.values[v],
            q: &self.values[v + 1],
            a_starts: &self.words[w + 2],
            a_rows: &self.words[w + 3],
            a_values: &self.values[v + 2],
            b: &self.values[v + 3],
            cones: &self.words[w + 4],
            alphas: &self.values[v + 4],
            pattern_count,
            pattern_words: &self.words[w + 5],
        }
    }

    // an answer and one output, given the places of both among the lists of u32
    fn agrees(&self, answer: usize, output: usize, call: impl FnOnce(&mut [u32]) -> Result<(), Refusal>) -> bool {
        let mut out = words(&self.words[output]);
        self.words[answer] == [number(call(&mut out))] && out == self.words[output]
    }

    // whether a call gives this answer and leaves what is stored in a cut's outputs
    fn agrees_with_cut(&self, answer: &[u32], call: impl FnOnce(&mut CutOutputs) -> Result<(), Refusal>) -> bool {
        let [mut p_starts, mut p_rows, mut a_starts, mut a_rows, mut cones, mut map] =
            [8, 9, 10, 11, 12, 13].map(|k| words(&self.words[k]));
        let [mut p_values, mut q, mut a_values, mut b, mut alphas] = [5, 6, 7, 8, 9].map(|k| values(&self.values[k]));
        let mut out = CutOutputs {
            p_starts: &mut p_starts,
            p_rows: &mut p_rows,
            p_values: &mut p_values,
            q: &mut q,
            a_starts: &mut a_starts,
            a_rows: &mut a_rows,
            a_values: &mut a_values,
            b: &mut b,
            cones: &mut cones,
            alphas: &mut alphas,
            map: &mut map,
        };
        answer == [number(call(&mut out))]
            && [p_starts, p_rows, a_starts, a_rows, cones, map] == self.words[8..14]
            && [p_values, q, a_values, b, alphas].iter().zip(&self.values[5..10]).all(|(got, want)| same(got, want))
    }

    // the low limits stand in b's place, the high ones and their output last
    fn cut_between(&self) -> bool {
        let (given, mut b_high) = (&self.words[0], values(&self.values[11]));
        let tables = self.tables(given[0], given[1], given[2], 2, 0);
        let agrees = self.agrees_with_cut(&self.words[1], |out| {
            let mut out = BetweenOutputs::of(std::mem::take(out), &mut b_high);
            flat::cut_between(&tables, tables.b, &self.values[10], &mut out)
        });
        agrees && same(&b_high, &self.values[11])
    }

    // the second problem and the outputs stand in a case of their own, the pattern words in the place of a cut's map
    fn pool(&self, more: &Case) -> bool {
        let given = &self.words[0];
        let first = self.tables(given[0], given[1], given[2], 2, 0);
        let second = more.tables(given[3], given[4], given[5], 2, 0);
        more.agrees_with_cut(&self.words[1], |o| {
            let mut out = TableOutputs {
                p_starts: o.p_starts,
                p_rows: o.p_rows,
                p_values: o.p_values,
                q: o.q,
                a_starts: o.a_starts,
                a_rows: o.a_rows,
                a_values: o.a_values,
                b: o.b,
                cones: o.cones,
                alphas: o.alphas,
                pattern_words: o.map,
            };
            flat::pool(&first, &second, &mut out)
        })
    }

    // the joining or, which looks at no route and no map, the change of route
    fn on_solution(&self, call: impl FnOnce(u32, &Joining, &mut JoinOutputs) -> Result<(), Refusal>) -> bool {
        let given = &self.words[0];
        let joining = Joining {
            n: given[1],
            m: given[2],
            cones: &self.words[2],
            pattern_count: given[3],
            pattern_words: &self.words[3],
            x: &self.values[0],
            s: &self.values[1],
            z: &self.values[2],
            tau: self.values[3][0],
            kappa: self.values[3][1],
            map: &self.words[4],
        };
        let [mut x, mut s, mut z, mut scalars] = [4, 5, 6, 7].map(|k| values(&self.values[k]));
        let mut out = JoinOutputs { x: &mut x, s: &mut s, z: &mut z, scalars: &mut scalars };
        self.words[1] == [number(call(given[0], &joining, &mut out))]
            && [x, s, z, scalars].iter().zip(&self.values[4..8]).all(|(got, want)| same(got, want))
    }
}

fn agrees(family: &str, parts: &[Case]) -> bool {
    let case = &parts[0];
    let given = &case.words[0];
    let on_route = || case.tables(given[1], given[2], given[3], 2, 0);
    match family {
        "pair_index" => case.agrees(1, 2, |out| flat::pair_index(given[0], given[1], out)),
        "pair_back" => case.agrees(1, 2, |out| flat::pair_back(given[0], out)),
        "inverse" => case.agrees(0, 2, |out| flat::inverse(&case.words[1], out)),
        "renumber" => case.agrees(0, 2, |out| flat::renumber(&case.words[1], out)),
        // checks 1 to 7, which same layout makes of either problem
        "check_problem" => {
            let tables = case.tables(given[0], given[1], given[2], 2, 0);
            case.words[1] == [number(flat::same_layout(&tables, &tables, &mut [0]))]
        }
        "same_layout" => case.agrees(1, 14, |out| {
            let first = case.tables(given[0], given[1], given[2], 2, 0);
            let second = case.tables(given[3], given[4], given[5], 8, 5);
            flat::same_layout(&first, &second, out)
        }),
        "sizes" => case.agrees(1, 8, |out| flat::sizes(given[0], &on_route(), out)),
        "cut" => case.agrees_with_cut(&case.words[1], |out| flat::cut(given[0], &on_route(), out)),
        "join" => case.on_solution(flat::join),
        "change_route" => case.on_solution(|_, joining, out| flat::change_route(joining, out)),
        "cut_between" => case.cut_between(),
        "cut_many" => case.agrees_with_cut(&case.words[1], |out| flat::cut_many(given[0], &on_route(), out)),
        "pool" => case.pool(&parts[1]),
        _ => panic!("no call is known for the stored answers of {family}"),
    }
}

#[test]
fn stored_answers() {
    let folder = Path::new(env!("CARGO_MANIFEST_DIR")).join("../crates/replay/data");
    let mut families = 0;
    for file in std::fs::read_dir(folder).unwrap() {
        let path = file.unwrap().path();
        let family = path.file_name().unwrap().to_str().unwrap();
        let parts = if family == "pool" { 2 } else { 1 };
        let cases = read(&std::fs::read_to_string(&path).unwrap(), parts);
        for (place, case) in cases.chunks(parts as usize).enumerate() {
            assert!(agrees(family, case), "{family}: case {} differs", place + 1);
        }
        println!("{family}: {} cases, all equal", cases.len() / parts as usize);
        families += 1;
    }
    assert_eq!(families, 13, "a family of stored answers for each call and for checks 1 to 7");
}
