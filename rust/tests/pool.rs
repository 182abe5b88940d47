//! Two passes pooled into one problem.

use tejiwakpa::{cut, flat, pool, same_layout, Columns, Cone, ConeMapEntry, Problem, Refusal, Route};

// three projectors behind cones that are not cut, with exponents and a cost
fn pass(value: f64) -> Problem {
    let mut problem = Problem::three_projectors();
    problem.cones.splice(0..0, [Cone::Power(value), Cone::GenPower(vec![0.25, 0.75], 1)]);
    problem.m += 6;
    problem.b.splice(0..0, [value; 6]);
    problem.a.rows.iter_mut().for_each(|row| *row += 6);
    problem.patterns[0].orig_index = 2;
    problem.p = Columns { starts: vec![0, 1], rows: vec![0], values: vec![value] };
    problem.q = vec![value];
    problem
}

#[test]
fn tables_in_turn() {
    let (first, second) = (pass(0.5), pass(0.125));
    let pooled = pool(&first, &second).unwrap();
    assert_eq!((pooled.n, pooled.m), (1, 24));
    assert_eq!((&pooled.p, &pooled.q), (&first.p, &first.q));
    let column: Vec<(u32, f64)> = pooled.a.column(0).collect();
    let raised: Vec<(u32, f64)> = second.a.column(0).map(|(row, value)| (row + 12, value)).collect();
    assert_eq!(column, [first.a.column(0).collect(), raised].concat());
    assert_eq!(pooled.b, [&first.b[..], &second.b].concat());
    assert_eq!(pooled.cones, [&first.cones[..], &second.cones].concat());
    assert_eq!(pooled.patterns[0], first.patterns[0]);
    assert_eq!(pooled.patterns[1].orig_index, 5);
    assert_eq!(pooled.patterns[1].cliques, second.patterns[0].cliques);
}

#[test]
fn repeats_are_kept() {
    let mut second = pass(2.0);
    // two cameras of the second pass see the marker of its row 6
    second.a = Columns { starts: vec![0, 2], rows: vec![6, 6], values: vec![1.0, 2.0] };
    let pooled = pool(&pass(1.0), &second).unwrap();
    assert_eq!(pooled.a.column(0).skip(5).collect::<Vec<_>>(), [(18, 1.0), (18, 2.0)]);
}

#[test]
fn the_map_in_turn() {
    let (first, second) = (pass(0.5), pass(0.125));
    let pooled = cut(Route::Compact, &pool(&first, &second).unwrap()).unwrap();
    let [mut alone, further] = [&first, &second].map(|pass| cut(Route::Compact, pass).unwrap());
    let rows = alone.problem.m;
    alone.map.extend(further.map.iter().map(|entry| ConeMapEntry {
        orig_index: entry.orig_index + 3,
        tree_and_clique: entry.tree_and_clique.map(|(pattern, clique)| (pattern + 1, clique)),
        first_row: entry.first_row + rows,
        rows: entry.rows,
    }));
    assert_eq!(pooled.map, alone.map);
}

#[test]
fn standard_cones() {
    let (first, second) = (pass(0.5), pass(0.125));
    let pooled = cut(Route::Standard, &pool(&first, &second).unwrap()).unwrap().problem.cones;
    let alone = [&first, &second].map(|pass| cut(Route::Standard, pass).unwrap().problem.cones);
    let mut cones = vec![Cone::Zero(24)];
    cones.extend(alone.into_iter().flat_map(|cones| cones.into_iter().skip(1)));
    assert_eq!(pooled, cones);
}

#[test]
fn refused_in_order() {
    let right = pass(1.0);
    let wide = Problem { n: 2, p: Columns::empty(2), q: vec![0.0; 2], a: Columns::empty(2), ..pass(1.0) };
    assert!(same_layout(&wide, &wide).is_ok());
    assert_eq!(pool(&right, &wide), Err(Refusal::Unknowns));
    // the second problem is checked before n is compared, the first before the second
    let mut wrong = wide.clone();
    wrong.patterns[0].cliques[0].parent = None;
    assert_eq!(pool(&right, &wrong), Err(Refusal::Tree));
    wrong.b.pop();
    assert_eq!(pool(&right, &wrong), Err(Refusal::Cones));
    assert_eq!(pool(&wrong, &Problem { q: vec![], ..right.clone() }), Err(Refusal::Cones));
    let first = Problem { a: Columns { rows: vec![99; 5], ..right.a.clone() }, ..right };
    assert_eq!(pool(&first, &wrong), Err(Refusal::Rows));
}

#[test]
fn a_pool_beyond_a_bound() {
    let tall = |rows: u32| Problem {
        m: rows,
        p: Columns::empty(0),
        a: Columns::empty(0),
        b: vec![0.0; rows as usize],
        cones: vec![Cone::Nonnegative(rows)],
        ..Problem::default()
    };
    assert_eq!(pool(&tall(32_768), &tall(32_768)).map(|pooled| pooled.m), Ok(65_536));
    assert_eq!(pool(&tall(32_768), &tall(32_769)), Err(Refusal::Bound));
}

#[test]
fn nothing_is_written_by_a_refused_call() {
    let problem = Problem::three_projectors();
    let words = problem.words();
    let (mut p_starts, mut q, mut a_starts, mut a_rows) = ([7; 2], [7.0; 1], [7; 2], [7; 10]);
    let (mut a_values, mut b, mut cones, mut pattern_words) = ([7.0; 10], [7.0; 12], [7; 6], [7; 31]);
    let mut out = flat::TableOutputs {
        p_starts: &mut p_starts,
        q: &mut q,
        a_starts: &mut a_starts,
        a_rows: &mut a_rows,
        a_values: &mut a_values,
        b: &mut b,
        cones: &mut cones,
        // one short
        pattern_words: &mut pattern_words,
        ..flat::TableOutputs::default()
    };
    let tables = problem.tables(&words);
    assert_eq!(flat::pool(&tables, &tables, &mut out), Err(Refusal::Short));
    assert_eq!((p_starts, q, a_starts, a_rows), ([7; 2], [7.0; 1], [7; 2], [7; 10]));
    assert_eq!((a_values, b, cones, pattern_words), ([7.0; 10], [7.0; 12], [7; 6], [7; 31]));
}
