//! The diagnosis beside the calls: on damaged problems the walk's check is the call's.

use tejiwakpa::{fault, sizes, Clique, Columns, Cone, Pattern, Problem, Refusal, Route};

struct Draws(u64);

impl Draws {
    fn below(&mut self, bound: usize) -> usize {
        self.0 ^= self.0 << 13;
        self.0 ^= self.0 >> 7;
        self.0 ^= self.0 << 17;
        (self.0 >> 11) as usize % bound
    }
}

// two patterns, a whole cone between them and power cones behind
fn right() -> Problem {
    let clique =
        |parent, snode: &[u32], separator: &[u32]| Clique { parent, snode: snode.into(), separator: separator.into() };
    let band = |orig_index, size: u32| Pattern {
        orig_index,
        ordering: (0..size).rev().collect(),
        cliques: (0..size - 2)
            .map(|v| clique(Some(v + 1), &[v], &[v + 1]))
            .chain([clique(None, &[size - 2, size - 1], &[])])
            .collect(),
    };
    let cones = vec![
        Cone::PsdTriangle(4),
        Cone::Nonnegative(2),
        Cone::PsdTriangle(3),
        Cone::Power(0.5),
        Cone::GenPower(vec![0.25, 0.75], 1),
    ];
    let m = cones.iter().map(Cone::nvars).sum::<usize>();
    Problem {
        n: 3,
        m: m as u32,
        p: Columns { starts: vec![0, 1, 2, 4], rows: vec![0, 1, 0, 2], values: vec![1.0; 4] },
        q: vec![1.0; 3],
        a: Columns { starts: vec![0, 3, 5, 8], rows: vec![0, 1, 12, 4, 11, 2, 9, 10], values: vec![2.0; 8] },
        b: vec![0.0; m],
        cones,
        patterns: vec![band(0, 4), band(2, 3)],
    }
}

fn shorten<T>(values: &mut Vec<T>) {
    values.pop();
}

fn damage(problem: &mut Problem, draws: &mut Draws) {
    const NUMBERS: [u32; 10] = [0, 1, 2, 3, 4, 9, 30, 257, 65_537, 4_294_967_294];
    let number = NUMBERS[draws.below(NUMBERS.len())];
    let matrix = if draws.below(2) == 0 { &mut problem.p } else { &mut problem.a };
    let put = |values: &mut Vec<u32>, draws: &mut Draws| match values.len() {
        0 => values.push(number),
        length => values[draws.below(length)] = number,
    };
    let kind = draws.below(20);
    let pattern = draws.below(problem.patterns.len());
    let pattern = &mut problem.patterns[pattern];
    match kind {
        0 => problem.n = number,
        1 => problem.m = number,
        2 => put(&mut matrix.starts, draws),
        3 => shorten(&mut matrix.starts),
        4 => put(&mut matrix.rows, draws),
        5 => shorten(&mut matrix.rows),
        6 => shorten(&mut matrix.values),
        7 => problem.cones[0] = Cone::PsdTriangle(number),
        8 => problem.cones[1] = Cone::SecondOrder(number),
        9 => shorten(&mut problem.q),
        10 => shorten(&mut problem.b),
        11 => pattern.orig_index = number,
        12 => put(&mut pattern.ordering, draws),
        13 => shorten(&mut pattern.ordering),
        14 => pattern.cliques.clear(),
        15 if !problem.b.is_empty() => {
            let place = draws.below(problem.b.len());
            problem.b[place] = [1.0, f64::NAN, -0.0][draws.below(3)];
        }
        _ if !pattern.cliques.is_empty() => {
            let clique = draws.below(pattern.cliques.len());
            let clique = &mut pattern.cliques[clique];
            match kind {
                16 => clique.parent = [None, Some(number), Some(u32::MAX)][draws.below(3)],
                17 => put(&mut clique.snode, draws),
                18 => put(&mut clique.separator, draws),
                _ => shorten(&mut clique.snode),
            }
        }
        _ => {}
    }
}

#[test]
fn the_walk_finds_the_check_that_the_call_names() {
    let (right, mut draws, mut seen) = (right(), Draws(88_172_645_463_325_252), [0; 17]);
    for _ in 0..20_000 {
        let mut problem = right.clone();
        for _ in 0..=draws.below(2) {
            damage(&mut problem, &mut draws);
        }
        for route in [Route::Standard, Route::Compact] {
            let (refused, found) = (sizes(route, &problem).err(), fault(Some(route), &problem));
            assert_eq!(refused, found.as_ref().map(|f| f.refusal), "{route:?} {found:?} {problem:?}");
            assert!(found.is_none_or(|f| !f.place.is_empty()));
            seen[refused.map_or(0, Refusal::number) as usize] += 1;
        }
    }
    for number in [0, 1, 2, 3, 4, 5, 6, 7, 9] {
        assert!(seen[number] > 50, "{number}: {}", seen[number]);
    }
}

#[test]
fn names_what_is_too_large() {
    let cliques = (0..40).map(|v| Clique { parent: Some(40), snode: vec![v], separator: (50..256).collect() });
    let root = Clique { parent: None, snode: (40..256).collect(), separator: vec![] };
    let pattern = Pattern { orig_index: 0, ordering: (0..256).collect(), cliques: cliques.chain([root]).collect() };
    let problem = Problem {
        m: 32_896,
        p: Columns::empty(0),
        a: Columns::empty(0),
        b: vec![0.0; 32_896],
        cones: vec![Cone::PsdTriangle(256)],
        patterns: vec![pattern],
        ..Problem::default()
    };
    for route in [Route::Standard, Route::Compact] {
        assert_eq!(sizes(route, &problem), Err(Refusal::TooLarge));
        let found = fault(Some(route), &problem).unwrap();
        assert_eq!(found.refusal, Refusal::TooLarge);
        assert!(found.place.contains("augmented rows"));
    }
}
