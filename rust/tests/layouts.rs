//! Same layout: what it compares, and that it makes checks 1 to 7 on the first problem wholly before the second.

use tejiwakpa::{cut, same_layout, Columns, Cone, Problem, Refusal, Route};

// three projectors, a power cone and a generalised one, with an entry of P
fn dome() -> Problem {
    let mut problem = Problem::three_projectors();
    problem.cones.extend([Cone::Power(0.0), Cone::GenPower(vec![0.25, f64::NAN], 1)]);
    problem.m += 6;
    problem.b.extend([0.0; 6]);
    problem.p = Columns { starts: vec![0, 1], rows: vec![0], values: vec![2.0] };
    problem
}

fn changed(change: impl Fn(&mut Problem)) -> Result<bool, Refusal> {
    let mut second = dome();
    change(&mut second);
    let answer = same_layout(&dome(), &second);
    assert_eq!(same_layout(&second, &dome()), answer);
    answer
}

#[test]
fn values_are_not_compared() {
    assert_eq!(changed(|_| ()), Ok(true));
    assert_eq!(changed(|p| p.a.values[0] = f64::NAN), Ok(true));
    assert_eq!(changed(|p| p.p.values[0] = -2.0), Ok(true));
    assert_eq!(changed(|p| (p.q[0], p.b[0]) = (9.0, 9.0)), Ok(true));
}

#[test]
fn exponents_bit_by_bit() {
    assert_eq!(changed(|p| p.cones[1] = Cone::Power(-0.0)), Ok(false));
    assert_eq!(changed(|p| p.cones[2] = Cone::GenPower(vec![0.25, 0.75], 1)), Ok(false));
    // any NaN is as good as another
    assert_eq!(changed(|p| p.cones[2] = Cone::GenPower(vec![0.25, -f64::NAN], 1)), Ok(true));
}

#[test]
fn places_of_a_and_p() {
    assert_eq!(changed(|p| p.a.rows[4] = 6), Ok(false));
    assert_eq!(changed(|p| p.p = Columns::empty(1)), Ok(false));
    assert_eq!(changed(|p| p.a = Columns::empty(1)), Ok(false));
}

#[test]
fn the_first_problem_is_checked_first() {
    let (mut rows, mut tree) = (dome(), dome());
    rows.a.rows[0] = 99;
    tree.patterns[0].cliques[1].parent = Some(0);
    assert_eq!(same_layout(&rows, &tree), Err(Refusal::Rows));
    assert_eq!(same_layout(&tree, &rows), Err(Refusal::Tree));
}

#[test]
fn cuts_of_one_layout_have_the_same_places() {
    let mut second = dome();
    second.a.values.iter_mut().for_each(|v| *v = -*v);
    second.b[0] = 9.0;
    for route in [Route::Standard, Route::Compact] {
        let (first, second) = (cut(route, &dome()).unwrap(), cut(route, &second).unwrap());
        assert_eq!(
            (&first.problem.a.starts, &first.problem.a.rows),
            (&second.problem.a.starts, &second.problem.a.rows)
        );
        assert_eq!(
            (&first.problem.p.starts, &first.problem.p.rows),
            (&second.problem.p.starts, &second.problem.p.rows)
        );
        assert_eq!(first.map, second.map);
        let records = |p: &Problem| p.cones.iter().map(Cone::record).collect::<Vec<_>>();
        assert_eq!(records(&first.problem), records(&second.problem));
    }
}
