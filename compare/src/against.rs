//! Compares the plain reading with clarabel's own files, on one problem and one solution.

use crate::expected;
pub use crate::expected::join_input;
use crate::problem::*;
use crate::report::*;
use reference::door::{Prepared, Tables, Vars};

pub fn tables(p: &Problem) -> Tables<'_> {
    Tables {
        n: p.n,
        m: p.m,
        p_starts: &p.p.starts,
        p_rows: &p.p.rows,
        p_values: &p.p.values,
        q: &p.q,
        a_starts: &p.a.starts,
        a_rows: &p.a.rows,
        a_values: &p.a.values,
        b: &p.b,
        cones: &p.cones,
        alphas: &p.alphas,
        pattern_count: p.pattern_count,
        pattern_words: &p.pattern_words,
    }
}

fn narrow(xs: &[usize]) -> Option<Vec<u32>> {
    xs.iter().map(|&x| u32::try_from(x).ok()).collect()
}

/// Returns the reference's cut in this program's types, with three words for each map entry; none if it has a row that was never set.
pub fn narrowed(cut: &reference::door::Cut) -> Option<Cut> {
    let columns = |c: &reference::door::Columns| {
        Some(Columns { starts: narrow(&c.starts)?, rows: narrow(&c.rows)?, values: c.values.clone() })
    };
    Some(Cut {
        p: columns(&cut.p)?,
        q: cut.q.clone(),
        a: columns(&cut.a)?,
        b: cut.b.clone(),
        cones: cut.cones.clone(),
        alphas: cut.alphas.clone(),
        map: cut
            .map
            .iter()
            .flatten()
            .flat_map(|(orig, block)| match block {
                None => [*orig as u32, NONE, 0],
                Some((pattern, clique)) => [*orig as u32, *pattern as u32, *clique as u32],
            })
            .collect(),
        sums: vec![],
    })
}

/// Returns the cut without the first rows and row counts of its cone map, which clarabel's lacks: equality leaves them out.
fn without_rows(cut: &Cut) -> Cut {
    Cut { map: cut.map.chunks(MAP_WORDS).flat_map(|entry| &entry[..3]).copied().collect(), ..cut.clone() }
}

/// Returns the first output in which two cuts differ. Copied values must have the same bits, NaNs included; in the sums that `a`
/// names any NaN equals any NaN.
pub fn cut_difference(a: &Cut, b: &Cut) -> Option<&'static str> {
    let tests = [
        ("P starts", a.p.starts == b.p.starts),
        ("P rows", a.p.rows == b.p.rows),
        ("P values", all_bits(&a.p.values, &b.p.values)),
        ("q", all_bits(&a.q, &b.q)),
        ("A starts", a.a.starts == b.a.starts),
        ("A rows", a.a.rows == b.a.rows),
        ("A values", all_bits_but(&a.a.values, &b.a.values, &a.sums)),
        ("b", all_bits(&a.b, &b.b)),
        ("cones", a.cones == b.cones),
        ("alphas", all_bits(&a.alphas, &b.alphas)),
        ("map", a.map == b.map),
    ];
    tests.iter().find(|t| !t.1).map(|t| t.0)
}

pub fn join_difference(a: &Joined, b: &Joined) -> Option<&'static str> {
    let tests = [
        ("x", all_bits(&a.x, &b.x)),
        ("s", all_same(&a.s, &b.s)),
        ("z", all_same(&a.z, &b.z)),
        ("tau", same(a.tau, b.tau)),
        ("kappa", same(a.kappa, b.kappa)),
    ];
    tests.iter().find(|t| !t.1).map(|t| t.0)
}

/// Returns why clarabel is not the reference for an accepted problem, or none if it is.
fn no_reference(route: Route, p: &Problem) -> Option<&'static str> {
    let layout = expected::accepted(route, p).ok()?;
    match route {
        Route::Standard => None,
        // clarabel leaves the overlap rows unset there, or panics
        Route::Compact if p.n == 0 => Some("no columns"),
        // clarabel finds only the first entry of a run there, and may lose its neighbours
        Route::Compact => expected::repeats_in_decomposed(p, &layout).then_some("repeats in a decomposed cone"),
    }
}

/// Compares the cut and, if a solution is given, the joining, where the documents accept and clarabel is the reference. A
/// refused problem is only counted.
pub fn compare(report: &mut Report, route: Route, p: &Problem, solution: Option<&Solution>, storage: usize) {
    let r = route.name();
    let expected = match expected::cut(route, p, None) {
        Ok(cut) => cut,
        Err(number) => {
            report.count(format!("{r}: refused {number:>2}"));
            return;
        }
    };
    if let Some(why) = no_reference(route, p) {
        report.count(format!("{r}: accepted, not compared with clarabel ({why})"));
        return;
    }
    let prepared = Prepared::new(&tables(p), storage);
    let made = prepared.and_then(|mut prepared| prepared.cut(route == Route::Compact).map(|raw| (prepared, raw)));
    let (prepared, raw) = match made {
        Ok(made) => made,
        Err(message) => {
            // the one panic that document 01 names: no entries and no overlaps
            let known = route == Route::Compact && p.a.values.is_empty() && expected.a.values.is_empty();
            if known {
                report.count(format!("{r}: accepted, clarabel panics (no entries, no overlaps)"));
            } else {
                report.fail(format!("{r}: clarabel panics on an accepted problem"), p.weight(), || {
                    format!("{message}\n{}", problem_text(p))
                });
            }
            return;
        }
    };
    let plain = prepared.plain(&raw);
    let difference = match narrowed(&plain) {
        None => Some("a row that was never set"),
        Some(cut) => cut_difference(&without_rows(&expected), &cut),
    };
    match difference {
        None if p.a.values.len() > expected::summed(&p.a).0.values.len() => {
            report.count(format!("{r}: cut equal to clarabel's, with repeated entries"))
        }
        None => report.count(format!("{r}: cut equal to clarabel's")),
        Some(what) => report.fail(format!("{r}: cut differs in {what}"), p.weight(), || {
            format!("{}\n expected {expected:?}\n clarabel {plain:?}", problem_text(p))
        }),
    }
    let Some(solution) = solution else { return };
    let vars = Vars::new(&solution.x, &solution.s, &solution.z, solution.tau, solution.kappa);
    let theirs = prepared.join(route == Route::Compact, &raw, &vars);
    let ours = expected::join(route, &join_input(p, solution), None);
    match (ours, theirs) {
        (Ok(ours), Ok(t)) => {
            let theirs = Joined { x: t.x, s: t.s, z: t.z, tau: t.tau, kappa: t.kappa };
            match join_difference(&ours, &theirs) {
                None => report.count(format!("{r}: joining equal to clarabel's")),
                Some(what) => report.fail(format!("{r}: joining differs in {what}"), p.weight(), || {
                    format!(
                        "{}\n{}\n expected {ours:?}\n clarabel {theirs:?}",
                        problem_text(p),
                        solution_text(solution)
                    )
                }),
            }
        }
        (ours, theirs) => report.fail(
            format!("{r}: joining of an accepted problem: expected {:?}, clarabel {:?}", ours.err(), theirs.err()),
            p.weight(),
            || format!("{}\n{}", problem_text(p), solution_text(solution)),
        ),
    }
}

/// Checks that two problems with the same layout, both accepted by a route, have cuts with the same places, cones, exponents and map.
pub fn compare_same_layout(report: &mut Report, first: &Problem, second: &Problem) {
    if expected::same_layout(first, second, 1) != Ok(true) {
        return;
    }
    for route in [Route::Compact, Route::Standard] {
        let cuts = (expected::cut(route, first, None), expected::cut(route, second, None));
        let (Ok(a), Ok(b)) = cuts else { continue };
        let same = (&a.p.starts, &a.p.rows, &a.a.starts, &a.a.rows) == (&b.p.starts, &b.p.rows, &b.a.starts, &b.a.rows)
            && (&a.cones, &a.map) == (&b.cones, &b.map)
            && all_same(&a.alphas, &b.alphas)
            && (a.q.len(), a.b.len()) == (b.q.len(), b.b.len());
        if same {
            report.count(format!("{}: cuts of one layout have the same places", route.name()));
        } else {
            report.fail(format!("{}: cuts of one layout differ in their places", route.name()), first.weight(), || {
                format!("{}\n{}", problem_text(first), problem_text(second))
            });
        }
    }
}

/// Compares the small calls with clarabel's functions, where document 01 accepts.
pub fn compare_small(report: &mut Report, words: &[u32], permutation: &[u32]) {
    if let Ok(ours) = expected::renumber(words, words.len()) {
        match reference::door::renumber(words) {
            Ok(theirs) if theirs == ours => report.count("renumbering equal to clarabel's"),
            theirs => report.fail("renumbering differs", words.len(), || {
                format!("  {words:?}\n expected {ours:?}\n clarabel {theirs:?}")
            }),
        }
    }
    if let Ok(ours) = expected::inverse(permutation, permutation.len()) {
        match reference::door::inverse(permutation).map(|v| narrow(&v)) {
            Ok(Some(theirs)) if theirs == ours => report.count("inverse equal to clarabel's"),
            theirs => report.fail("inverse differs", permutation.len(), || {
                format!("  {permutation:?}\n expected {ours:?}\n clarabel {theirs:?}")
            }),
        }
    }
}

/// Compares all pairs and all indices.
pub fn compare_pairs(report: &mut Report) {
    for i in 0..256u32 {
        for j in 0..256u32 {
            let ours = expected::pair_index(i, j, 1).unwrap();
            let theirs = reference::door::pair_index(i as usize, j as usize);
            if theirs == Ok(ours as usize) {
                report.count("pair index equal to clarabel's");
            } else {
                report.fail("pair index differs", (i + j) as usize, || format!("  ({i}, {j})"));
            }
        }
    }
    for index in 0..32_896u32 {
        let (row, column) = expected::pair_back(index, 2).unwrap();
        let theirs = reference::door::pair_back(index as usize);
        if theirs == Ok((row as usize, column as usize)) {
            report.count("pair back equal to clarabel's");
        } else {
            report.fail("pair back differs", index as usize, || format!("  {index}"));
        }
    }
}
