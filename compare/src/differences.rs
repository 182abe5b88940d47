//! clarabel on the inputs of docs/DIFFERENCES.md, and on damaged problems: what it accepts and the documents refuse.

use crate::against::{narrowed, tables};
use crate::expected;
use crate::problem::*;
use crate::random;
use crate::report::*;
use reference::door;
use std::collections::BTreeMap;

fn psd(n: u32, size: u32, rows: &[u32], values: &[f64], b: &[f64], pattern: &[u32]) -> Problem {
    let mut starts = vec![0; n as usize + 1];
    if n > 0 {
        starts[1..].fill(rows.len() as u32);
    }
    Problem {
        n,
        m: size * (size + 1) / 2,
        p: Columns { starts: vec![0; n as usize + 1], ..Columns::default() },
        q: vec![0.0; n as usize],
        a: Columns { starts, rows: rows.to_vec(), values: values.to_vec() },
        b: b.to_vec(),
        cones: vec![6, size, 0],
        alphas: vec![],
        pattern_count: 1,
        pattern_words: pattern.to_vec(),
    }
}

// returns what clarabel does with a problem, in one line
fn answer(route: Route, p: &Problem) -> String {
    let made = door::Prepared::new(&tables(p), 0)
        .and_then(|mut made| made.cut(route == Route::Compact).map(|raw| made.plain(&raw)));
    match made {
        Err(message) => format!("panics: {}", message.lines().next().unwrap_or("")),
        Ok(cut) => {
            let shown = |xs: &[usize]| {
                let xs: Vec<String> =
                    xs.iter().map(|&x| if x == usize::MAX { "usize::MAX".into() } else { x.to_string() }).collect();
                format!("[{}]", xs.join(", "))
            };
            format!(
                "A starts {} rows {} values {}, b {}, cones {:?}",
                shown(&cut.a.starts),
                shown(&cut.a.rows),
                floats(&cut.a.values),
                floats(&cut.b),
                cut.cones
            )
        }
    }
}

fn show(what: &str, route: Route, p: &Problem) {
    println!("\n{what} ({} route)", route.name());
    println!("{}", problem_text(p));
    match expected::cut(route, p, None) {
        Err(number) => println!("  documents: refused, {number}"),
        Ok(cut) => println!(
            "  documents: A starts {:?} rows {:?} values {}, b {}",
            cut.a.starts,
            cut.a.rows,
            floats(&cut.a.values),
            floats(&cut.b)
        ),
    }
    println!("  clarabel:  {}", answer(route, p));
    if route == Route::Compact {
        println!("    standard: {}", answer(Route::Standard, p));
    }
}

pub fn print() {
    use Route::{Compact, Standard};
    // PSD 2 cut into its two vertices: row 1 uncovered
    let apart = [0, 2, 2, 0, 1, 1, 1, 0, 0, NONE, 1, 0, 1];
    // PSD 2 as clique {0,1} over clique {1}: one overlap
    let tied = [0, 2, 2, 0, 1, 1, 1, 1, 0, 1, NONE, 1, 0, 1];
    let whole = [0, 2, 1, 0, 1, NONE, 2, 0, 0, 1];

    let none = Problem {
        n: 1,
        p: Columns { starts: vec![0, 0], ..Columns::default() },
        a: Columns { starts: vec![0, 0], ..Columns::default() },
        q: vec![0.0],
        ..Problem::default()
    };
    show("no entries and no overlaps", Compact, &none);

    show("a stored entry in an uncovered row", Compact, &psd(1, 2, &[1], &[7.0], &[0.0; 3], &apart));
    show("a value of b in an uncovered row", Compact, &psd(1, 2, &[], &[], &[0.0, 1.0, 0.0], &apart));
    show(
        "a value of b in an uncovered row, beside an entry",
        Compact,
        &psd(1, 2, &[0], &[7.0], &[0.0, 1.0, 0.0], &apart),
    );

    let mut empty = none.clone();
    empty.n = 0;
    empty.p.starts = vec![0];
    empty.a.starts = vec![0];
    empty.q = vec![];
    show("no columns, no overlaps", Compact, &empty);
    show("no columns, an overlap, b zero", Compact, &psd(0, 2, &[], &[], &[0.0; 3], &tied));
    show("no columns, an overlap, b not zero", Compact, &psd(0, 2, &[], &[], &[1.0, 0.0, 0.0], &tied));

    show(
        "a repeated row in a decomposed cone",
        Compact,
        &psd(1, 1, &[0, 0], &[1.0, 2.0], &[0.0], &[0, 1, 1, 0, NONE, 1, 0, 0]),
    );
    show("a repeated row and its neighbour", Compact, &psd(1, 2, &[0, 0, 1], &[1.0, 2.0, 4.0], &[0.0; 3], &whole));
    let mut kept = psd(1, 1, &[0, 0], &[1.0, 2.0], &[0.0], &[]);
    kept.pattern_count = 0;
    show("a repeated row in an undecomposed cone", Compact, &kept);
    show("a repeated row", Standard, &kept);

    let two_roots = [0, 2, 2, 0, 1, NONE, 1, 0, 0, NONE, 1, 0, 1];
    for route in [Compact, Standard] {
        show(
            "the no-parent mark on a clique that is not the last",
            route,
            &psd(1, 2, &[0], &[7.0], &[0.0; 3], &two_roots),
        );
    }
    show(
        "a clique that is its own parent",
        Compact,
        &psd(1, 2, &[0], &[7.0], &[0.0; 3], &[0, 2, 2, 0, 1, 0, 1, 0, 0, NONE, 1, 0, 1]),
    );
    show(
        "a clique that is its own parent, with a separator",
        Compact,
        &psd(1, 2, &[0], &[7.0], &[0.0; 3], &[0, 2, 2, 0, 1, 0, 1, 1, 0, 1, NONE, 1, 0, 1]),
    );
    show(
        "a separator member of its own snode",
        Compact,
        &psd(1, 2, &[0], &[7.0], &[0.0; 3], &[0, 2, 2, 0, 1, 1, 1, 1, 0, 0, NONE, 1, 0, 1]),
    );
    let mut early = psd(1, 1, &[0], &[7.0], &[0.0], &[]);
    early.pattern_count = 0;
    early.a.starts = vec![1, 1];
    show("starts that do not begin at 0", Compact, &early);
    let mut rows = psd(1, 1, &[0], &[7.0], &[0.0], &[]);
    rows.pattern_count = 0;
    rows.cones = vec![0, 0, 0];
    show("cones whose rows are not m", Compact, &rows);
    rows.cones = vec![0, 1, 0];
    rows.b = vec![];
    show("b too short", Compact, &rows);
    show("a last clique with a separator", Compact, &psd(1, 1, &[0], &[7.0], &[0.0], &[0, 1, 1, 0, NONE, 0, 1, 0]));
    show("a last clique with a parent", Compact, &psd(1, 1, &[0], &[7.0], &[0.0], &[0, 1, 1, 0, 0, 1, 0, 0]));
    show("no clique", Compact, &psd(1, 1, &[0], &[7.0], &[0.0], &[0, 1, 0, 0]));
    show(
        "a separator member that the parent's clique does not hold",
        Compact,
        &psd(1, 3, &[0], &[7.0], &[0.0; 6], &[0, 3, 3, 0, 1, 2, 1, 1, 1, 0, 2, 2, 1, 0, 1, NONE, 1, 0, 2]),
    );
    show(
        "a separator that repeats a member",
        Compact,
        &psd(1, 2, &[0], &[7.0], &[0.0; 3], &[0, 2, 2, 0, 1, 1, 1, 2, 0, 1, 1, NONE, 1, 0, 1]),
    );
    show("an empty snode", Compact, &psd(1, 1, &[0], &[7.0], &[0.0], &[0, 1, 2, 0, 1, 0, 1, 0, NONE, 1, 0, 0]));
    show("a vertex in two snodes", Compact, &psd(1, 1, &[0], &[7.0], &[0.0], &[0, 1, 2, 0, 1, 1, 0, 0, NONE, 1, 0, 0]));
    show("a vertex in no snode", Compact, &psd(1, 2, &[0], &[7.0], &[0.0; 3], &[0, 2, 1, 0, 1, NONE, 1, 0, 0]));
    show(
        "an ordering that is no permutation",
        Compact,
        &psd(1, 2, &[0], &[7.0], &[0.0; 3], &[0, 2, 1, 0, 0, NONE, 2, 0, 0, 1]),
    );
    let mut passed = psd(1, 1, &[0], &[7.0], &[0.0], &[5, 1, 1, 0, NONE, 1, 0, 0]);
    show("an orig_index that names no cone", Compact, &passed);
    passed.pattern_words[0] = 0;
    passed.cones = vec![1, 1, 0];
    show("an orig_index that names no PSD cone", Compact, &passed);

    // PSD 2 twice, both apart, the second cone's pattern first
    let mut falls = psd(1, 2, &[0], &[7.0], &[0.0; 6], &apart);
    falls.m = 6;
    falls.cones = vec![6, 2, 0, 6, 2, 0];
    falls.pattern_count = 2;
    falls.pattern_words = [1].iter().chain(&apart[1..]).chain(&apart).copied().collect();
    show("orig_index that falls", Compact, &falls);
    let mut q = psd(1, 1, &[0], &[7.0], &[0.0], &[]);
    q.pattern_count = 0;
    q.q = vec![1.0, 2.0, 3.0];
    show("q too long", Compact, &q);
    for (name, p) in random::at_limits() {
        if let Err(number) = expected::cut(Compact, &p, None) {
            let made = door::Prepared::new(&tables(&p), 0).and_then(|mut made| made.cut(true).map(|_| ()));
            let line =
                made.err().map_or("answers".to_string(), |m| format!("panics: {}", m.lines().next().unwrap_or("")));
            println!("bound, {name} (compact): documents {number}, clarabel {line}");
        }
    }

    println!(
        "\ninverse of [1, 1]: clarabel {:?}, documents {:?}",
        door::inverse(&[1, 1]),
        expected::inverse(&[1, 1], 2)
    );
    println!("inverse of [0, 0]: clarabel {:?}", door::inverse(&[0, 0]));
    println!("inverse of [1, 0, 0]: clarabel {:?}", door::inverse(&[1, 0, 0]));
    println!("inverse of [1, 1, 1]: clarabel {:?}", door::inverse(&[1, 1, 1]));
    roots();
    mined();
}

// prints the first integer root, and the first sampled index back, that clarabel gets wrong
fn roots() {
    let exact = |v: u128| {
        let mut r = (v as f64).sqrt() as u128;
        while r * r > v {
            r -= 1;
        }
        while (r + 1) * (r + 1) <= v {
            r += 1;
        }
        r
    };
    // only just below a square can the root round up
    for k in 1..1u128 << 27 {
        let v = k * k - 1;
        if door::root(v as usize) as u128 != exact(v) {
            println!("isqrt({v}): clarabel {}, exact {}", door::root(v as usize), exact(v));
            break;
        }
    }
    for c in (1u128 << 20..1u128 << 28).filter(|c| c % 65_536 == 0 || c % 65_536 < 4) {
        let index = c * (c + 1) / 2 - 1;
        let want = (c - 1, c - 1);
        let got = door::pair_back(index as usize);
        if got.as_ref().ok().map(|&(r, c)| (r as u128, c as u128)) != Some(want) {
            println!("index {index} back: clarabel {got:?}, exact {want:?}");
            break;
        }
    }
}

// damaged problems: for each refusal number how often clarabel panics, accepts with a row never set, or accepts
fn mined() {
    let mut counts: BTreeMap<(u32, &str, &str), (u64, usize, String)> = BTreeMap::new();
    for index in 0..120_000u64 {
        let mut d = crate::case_draws(77, index);
        let mut p = random::problem(&mut d, random::TINY);
        let check = 2 + d.below(8);
        random::damage(&mut d, &mut p, check);
        let small = |xs: &[u32]| xs.iter().all(|&x| x == NONE || x < 1000);
        let fits = p.n < 1000
            && p.m < 1000
            && p.pattern_count < 1000
            && small(&p.cones)
            && p.cones.iter().all(|&x| x < 1000)
            && small(&p.a.starts)
            && small(&p.p.starts);
        if !fits {
            continue;
        }
        for route in [Route::Standard, Route::Compact] {
            let Err(number) = expected::cut(route, &p, None) else {
                continue;
            };
            let made = door::Prepared::new(&tables(&p), 0)
                .and_then(|mut made| made.cut(route == Route::Compact).map(|raw| made.plain(&raw)));
            let what = match &made {
                Err(_) => "panics",
                Ok(cut) if narrowed(cut).is_none() => "answers with a row never set",
                Ok(_) => "answers",
            };
            let entry = counts.entry((number, route.name(), what)).or_insert((0, usize::MAX, String::new()));
            entry.0 += 1;
            if p.weight() < entry.1 {
                entry.1 = p.weight();
                entry.2 = format!("{}\n  clarabel: {}", problem_text(&p), answer(route, &p));
            }
        }
    }
    println!("\nDamaged problems that the documents refuse, and what clarabel does with them:");
    for ((number, route, what), (count, _, _)) in &counts {
        println!("  {number:>2} {route:<8} {what:<30} {count}");
    }
    println!("\nThe smallest that it answers:");
    for ((number, route, what), (_, _, text)) in &counts {
        if *what != "panics" {
            println!(" {number} {route}, {what}\n{text}");
        }
    }
}
