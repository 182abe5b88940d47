//! Times the checks on malformed tables of 10,000, 100,000 and 1,000,000 words: a call that refuses must take time in
//! proportion to its words, whatever they hold.

use crate::door;
use crate::expected::JoinInput;
use crate::problem::{Columns, Problem, Solution, NONE};
use crate::speed::now;

const LENGTHS: [usize; 3] = [10_000, 100_000, 1_000_000];

/// How many times longer a word may take in the longest table than in the shortest. Tables of a million words do not fit the
/// caches, and the inverse walks them in windows.
const GROWTH: f64 = 8.0;

const VERTICES: u32 = 100;

// a pattern's words up to its cliques, with the identity as ordering
fn head(vertices: u32, cliques: u32) -> Vec<u32> {
    let mut words = vec![0, vertices, cliques];
    words.extend(0..vertices);
    words
}

// two cliques, the first with this snode and separator, the second with all vertices except 0
fn two_cliques(snode: &[u32], separator: &[u32]) -> Vec<u32> {
    let mut words = head(VERTICES, 2);
    words.extend([1, snode.len() as u32, separator.len() as u32]);
    words.extend(snode);
    words.extend(separator);
    words.extend([NONE, VERTICES - 1, 0]);
    words.extend(1..VERTICES);
    words
}

/// Malformed patterns of about `length` words.
fn patterns(length: usize) -> Vec<(&'static str, Vec<u32>)> {
    let count = length as u32;
    let numbers = |f: &dyn Fn(u32) -> u32| (0..count).map(f).collect::<Vec<u32>>();
    // cliques with the next or the last as parent, and a last one with neither parent nor separator
    let (thirds, quarters) = (count / 3, count / 4);
    let mut many_cliques = head(VERTICES, thirds);
    let mut one_vertex_each = head(VERTICES, quarters);
    let mut same_parent = head(VERTICES, quarters);
    for k in 1..thirds {
        many_cliques.extend([k, 0, 0]);
    }
    many_cliques.extend([NONE, 0, 0]);
    for k in 1..quarters {
        one_vertex_each.extend([k, 1, 0, k % VERTICES]);
        same_parent.extend([quarters - 1, 0, 1, k % VERTICES]);
    }
    one_vertex_each.extend([NONE, 1, 0, 0]);
    same_parent.extend([NONE, 1, 0, 0]);
    let mut huge_snode = head(VERTICES, 1);
    huge_snode.extend([NONE, u32::MAX, 0]);
    huge_snode.extend(numbers(&|k| k));
    let mut huge_cliques = head(VERTICES, u32::MAX);
    huge_cliques.extend(numbers(&|_| 0));
    let mut repeated_ordering = head(count, 1);
    repeated_ordering[2 + length] = 0;
    repeated_ordering.extend([NONE, 0, 0]);
    let mut trailing = two_cliques(&[0], &[1]);
    trailing.extend(numbers(&|k| k));
    vec![
        ("a separator of foreign members", two_cliques(&[0], &numbers(&|k| VERTICES + k))),
        ("a separator of one member repeated", two_cliques(&[0], &numbers(&|_| 1))),
        ("a separator of members going round", two_cliques(&[0], &numbers(&|k| k % VERTICES))),
        ("a separator of falling members", two_cliques(&[0], &numbers(&|k| u32::MAX - k))),
        ("a snode of one vertex repeated", two_cliques(&numbers(&|_| 0), &[])),
        ("a snode of foreign vertices", two_cliques(&numbers(&|k| VERTICES + k), &[])),
        ("cliques without members", many_cliques),
        ("cliques that share their vertices", one_vertex_each),
        ("cliques with one parent and no snode", same_parent),
        ("a snode count of 4,294,967,295", huge_snode),
        ("a clique count of 4,294,967,295", huge_cliques),
        ("an ordering with its last number repeated", repeated_ordering),
        ("words after the last clique", trailing),
    ]
}

// returns a problem with one PSD cone, one column without entries and this pattern
fn problem(pattern_words: Vec<u32>) -> Problem {
    let m = VERTICES * (VERTICES + 1) / 2;
    Problem {
        n: 1,
        m,
        p: Columns { starts: vec![0, 0], ..Columns::default() },
        q: vec![0.0],
        a: Columns { starts: vec![0, 0], ..Columns::default() },
        b: vec![0.0; m as usize],
        cones: vec![6, VERTICES, 0],
        alphas: vec![],
        pattern_count: 1,
        pattern_words,
    }
}

// returns a call's number and its microseconds, the least of three
fn timed(mut call: impl FnMut() -> u32) -> (u32, f64) {
    let mut least = f64::INFINITY;
    let mut number = 0;
    for _ in 0..3 {
        let started = now();
        number = call();
        least = least.min(now() - started);
    }
    (number, least)
}

/// Prints the nanoseconds for each word, for each malformed table and call. Returns whether a table was accepted, or its time for
/// each word grew too much with its length.
pub fn print() -> bool {
    if !door::LINKED {
        eprintln!("the door is not linked");
        return true;
    }
    let mut wrong = false;
    println!("| table | call | number | 10,000 words | 100,000 words | 1,000,000 words |");
    println!("|---|---|---|---|---|---|");
    let mut line = |table: &str, call: &str, timings: [(u32, f64); 3]| {
        let each: Vec<f64> = (0..3).map(|i| timings[i].1 * 1e3 / LENGTHS[i] as f64).collect();
        let number = timings[0].0;
        println!("| {table} | {call} | {number} | {:.2} ns | {:.2} ns | {:.2} ns |", each[0], each[1], each[2]);
        if number == 0 || timings.iter().any(|t| t.0 != number) || each[2] > GROWTH * each[0].max(1.0) {
            println!("  ^ accepted, or not in proportion to its words");
            wrong = true;
        }
    };
    for (at, (table, _)) in patterns(LENGTHS[0]).iter().enumerate() {
        let made = LENGTHS.map(|length| problem(patterns(length).swap_remove(at).1));
        line(
            table,
            "renumber",
            [0, 1, 2].map(|i| {
                let mut out = door::words(made[i].pattern_words.len());
                timed(|| door::renumber(&made[i].pattern_words, &mut out))
            }),
        );
        line(
            table,
            "sizes",
            [0, 1, 2].map(|i| {
                let mut out = door::words(11);
                timed(|| door::sizes(1, &made[i], &mut out))
            }),
        );
        line(
            table,
            "joining",
            [0, 1, 2].map(|i| {
                let solution = Solution::default();
                let input = JoinInput {
                    n: made[i].n,
                    m: made[i].m,
                    cones: &made[i].cones,
                    pattern_count: 1,
                    pattern_words: &made[i].pattern_words,
                    solution: &solution,
                };
                let mut out = door::join_outputs(&[0, 0, 0, 0]);
                timed(|| door::join(0, &input, &mut out))
            }),
        );
    }
    let permutations: [(&str, fn(u32, u32) -> u32); 3] = [
        ("a permutation with its last number repeated", |k, count| if k + 1 == count { 0 } else { k }),
        (
            "a falling permutation with its last number repeated",
            |k, count| if k + 1 == count { count - 1 } else { count - 1 - k },
        ),
        ("one number repeated", |_, _| 0),
    ];
    for (table, number) in permutations {
        line(
            table,
            "inverse",
            LENGTHS.map(|length| {
                let p: Vec<u32> = (0..length as u32).map(|k| number(k, length as u32)).collect();
                let mut out = door::words(length);
                timed(|| door::inverse(&p, &mut out))
            }),
        );
    }
    wrong
}
