//! Problems that any site can make again.

use tejiwakpa::flat::{self, TableOutputs};
use tejiwakpa::{cut, generate, Augmented, Clique, Cone, Problem, Refusal, Route};

#[test]
fn the_smallest() {
    let problem = generate(1, 2, 1, 1).unwrap();
    assert_eq!((problem.n, problem.m), (1, 3));
    assert_eq!(problem.p.starts, [0, 0]);
    assert_eq!(problem.q, [0.0]);
    assert_eq!(problem.a.starts, [0, 3]);
    assert_eq!(problem.a.rows, [0, 1, 2]);
    assert_eq!(problem.a.values, [56.0, -80.0, -61.0]);
    assert_eq!(problem.b, [44.0, -43.0, -32.0]);
    assert_eq!(problem.cones, [Cone::PsdTriangle(2)]);
    assert_eq!(problem.patterns[0].ordering, [0, 1]);
    assert_eq!(problem.patterns[0].cliques, [Clique { parent: None, snode: vec![0, 1], separator: vec![] }]);
}

#[test]
fn a_band() {
    let problem = generate(3, 6, 2, 2).unwrap();
    let clique = |parent, snode: &[u32], separator: &[u32]| Clique {
        parent,
        snode: snode.to_vec(),
        separator: separator.to_vec(),
    };
    assert_eq!(
        problem.patterns[0].cliques,
        [
            clique(Some(1), &[0], &[1, 2]),
            clique(Some(2), &[1], &[2, 3]),
            clique(Some(3), &[2], &[3, 4]),
            clique(None, &[3, 4, 5], &[]),
        ]
    );
    let mut vertices = problem.patterns[0].ordering.clone();
    vertices.sort();
    assert_eq!(vertices, [0, 1, 2, 3, 4, 5]);
}

#[test]
fn the_same_again_and_another_from_another_seed() {
    let made = |seed| generate(seed, 12, 3, 5).unwrap();
    assert_eq!(made(9), made(9));
    assert_ne!(made(9), made(10));
}

#[test]
fn refused() {
    let wrong = [
        (0, 2, 1, 1),
        (1, 1, 1, 1),
        (1, 65, 1, 1),
        (1, 2, 0, 1),
        (1, 2, 2, 1),
        (1, 2, 1, 0),
        (1, 2, 1, 65),
        (1, u32::MAX, 1, 1),
        (1, 64, u32::MAX, 1),
        (1, 64, 1, u32::MAX),
    ];
    for (seed, v, w, n) in wrong {
        assert_eq!(generate(seed, v, w, n), Err(Refusal::Ranges), "{seed} {v} {w} {n}");
        // before an output is looked at
        assert_eq!(flat::generate(seed, v, w, n, &mut TableOutputs::default()), Err(Refusal::Ranges));
        assert_eq!(flat::generate_sizes(seed, v, w, n, &mut []), Err(Refusal::Ranges));
    }
    for seed in [1, u64::MAX] {
        assert!(generate(seed, 64, 63, 64).is_ok());
    }
}

#[test]
fn nothing_is_written_by_a_refused_call() {
    let (mut p_starts, mut q, mut a_starts, mut a_rows) = ([7; 2], [7.0; 1], [7; 2], [7; 3]);
    let (mut a_values, mut b, mut cones, mut pattern_words) = ([7.0; 3], [7.0; 3], [7; 3], [7; 10]);
    for (w, short, refusal) in [(1, 1, Refusal::Short), (2, 0, Refusal::Ranges)] {
        let mut out = TableOutputs {
            p_starts: &mut p_starts,
            q: &mut q,
            a_starts: &mut a_starts,
            a_rows: &mut a_rows,
            a_values: &mut a_values,
            b: &mut b,
            cones: &mut cones,
            pattern_words: &mut pattern_words[short..],
            ..TableOutputs::default()
        };
        assert_eq!(flat::generate(1, 2, w, 1, &mut out), Err(refusal));
    }
    assert_eq!((p_starts, q, a_starts, a_rows), ([7; 2], [7.0; 1], [7; 2], [7; 3]));
    assert_eq!((a_values, b, cones, pattern_words), ([7.0; 3], [7.0; 3], [7; 3], [7; 10]));
    let mut sizes = [7; 10];
    assert_eq!(flat::generate_sizes(1, 2, 1, 1, &mut sizes), Err(Refusal::Short));
    assert_eq!(sizes, [7; 10]);
}

// ---- what crate test_load prints, through the types

// each number joined by exclusive or, and the three steps of a draw
fn joined(sum: u64, numbers: impl IntoIterator<Item = u64>) -> u64 {
    numbers.into_iter().fold(sum, |sum, number| {
        let mut s = sum ^ number;
        s ^= s << 13;
        s ^= s >> 7;
        s ^ s << 17
    })
}

// the lengths and the checksum of a problem's tables, the last of which is its pattern words or a cone map's
fn told(problem: &Problem, last: &[u32]) -> String {
    let words = problem.words();
    let t = problem.tables(&words);
    let wide = |list: &[u32]| list.iter().map(|&x| x as u64).collect::<Vec<u64>>();
    let bits = |list: &[f64]| list.iter().map(|x| x.to_bits()).collect::<Vec<u64>>();
    let tables = [
        wide(t.p_starts),
        wide(t.p_rows),
        bits(t.p_values),
        bits(t.q),
        wide(t.a_starts),
        wide(t.a_rows),
        bits(t.a_values),
        bits(t.b),
        wide(t.cones),
        bits(t.alphas),
        wide(last),
    ];
    let lengths: String = tables.iter().map(|table| format!(" {}", table.len())).collect();
    format!(": lengths{lengths}, checksum {:016x}", tables.into_iter().fold(1, joined))
}

fn map_words(made: &Augmented) -> Vec<u32> {
    let words = made.map.iter().flat_map(|entry| {
        let (pattern, clique) = entry.tree_and_clique.unwrap_or((flat::NONE, 0));
        [entry.orig_index, pattern, clique, entry.first_row, entry.rows]
    });
    words.collect()
}

#[test]
fn the_test_loads() {
    let stored = include_str!("../../crates/test_load/stdout");
    let mut text = String::new();
    let numbers = |line: &str| line.split(|c: char| !c.is_ascii_digit()).filter_map(|n| n.parse().ok()).collect();
    for line in stored.lines().filter(|line| line.starts_with("seed")) {
        let given: Vec<u64> = numbers(line);
        let [v, w, n] = [1, 2, 3].map(|k| given[k] as u32);
        text += &format!("{line}\n");
        match generate(given[0], v, w, n) {
            Err(refused) => text += &format!("  generate {}\n", refused.number()),
            Ok(problem) => {
                text += &format!("  generate 0{}\n", told(&problem, &problem.words().pattern_words));
                for (name, route) in [("standard", Route::Standard), ("compact", Route::Compact)] {
                    let made = cut(route, &problem).unwrap();
                    text += &format!("  {name} 0{}\n", told(&made.problem, &map_words(&made)));
                }
            }
        }
    }
    assert_eq!(text, stored);
}
