//! The door's calls, and their comparison with the plain reading: results, refusal numbers, that a refused call
//! writes nothing and that the rest of a longer output is unchanged.
#![cfg_attr(not(door), allow(dead_code))]

use crate::against::*;
use crate::expected;
use crate::problem::*;
use crate::random::Draws;
use crate::report::*;

/// Whether the door is linked.
pub const LINKED: bool = cfg!(door);

#[cfg(door)]
#[allow(clippy::too_many_arguments)]
mod c {
    extern "C" {
        pub fn chordal_pair_index(i: u32, j: u32, out: *mut u32, out_len: usize) -> u32;
        pub fn chordal_pair_back(index: u32, out: *mut u32, out_len: usize) -> u32;
        pub fn chordal_inverse(p: *const u32, p_len: usize, out: *mut u32, out_len: usize) -> u32;
        pub fn chordal_renumber(words: *const u32, words_len: usize, out: *mut u32, out_len: usize) -> u32;
        pub fn chordal_sizes(
            route: u32,
            n: u32,
            m: u32,
            p_starts: *const u32,
            p_starts_len: usize,
            p_rows: *const u32,
            p_rows_len: usize,
            p_values: *const f64,
            p_values_len: usize,
            q: *const f64,
            q_len: usize,
            a_starts: *const u32,
            a_starts_len: usize,
            a_rows: *const u32,
            a_rows_len: usize,
            a_values: *const f64,
            a_values_len: usize,
            b: *const f64,
            b_len: usize,
            cones: *const u32,
            cones_len: usize,
            alphas: *const f64,
            alphas_len: usize,
            pattern_count: u32,
            pattern_words: *const u32,
            pattern_words_len: usize,
            out: *mut u32,
            out_len: usize,
        ) -> u32;
        pub fn chordal_cut(
            route: u32,
            n: u32,
            m: u32,
            p_starts: *const u32,
            p_starts_len: usize,
            p_rows: *const u32,
            p_rows_len: usize,
            p_values: *const f64,
            p_values_len: usize,
            q: *const f64,
            q_len: usize,
            a_starts: *const u32,
            a_starts_len: usize,
            a_rows: *const u32,
            a_rows_len: usize,
            a_values: *const f64,
            a_values_len: usize,
            b: *const f64,
            b_len: usize,
            cones: *const u32,
            cones_len: usize,
            alphas: *const f64,
            alphas_len: usize,
            pattern_count: u32,
            pattern_words: *const u32,
            pattern_words_len: usize,
            p_starts_out: *mut u32,
            p_starts_out_len: usize,
            p_rows_out: *mut u32,
            p_rows_out_len: usize,
            p_values_out: *mut f64,
            p_values_out_len: usize,
            q_out: *mut f64,
            q_out_len: usize,
            a_starts_out: *mut u32,
            a_starts_out_len: usize,
            a_rows_out: *mut u32,
            a_rows_out_len: usize,
            a_values_out: *mut f64,
            a_values_out_len: usize,
            b_out: *mut f64,
            b_out_len: usize,
            cones_out: *mut u32,
            cones_out_len: usize,
            alphas_out: *mut f64,
            alphas_out_len: usize,
            map_out: *mut u32,
            map_out_len: usize,
        ) -> u32;
        pub fn chordal_join(
            route: u32,
            n: u32,
            m: u32,
            cones: *const u32,
            cones_len: usize,
            pattern_count: u32,
            pattern_words: *const u32,
            pattern_words_len: usize,
            x: *const f64,
            x_len: usize,
            s: *const f64,
            s_len: usize,
            z: *const f64,
            z_len: usize,
            tau: f64,
            kappa: f64,
            map: *const u32,
            map_len: usize,
            x_out: *mut f64,
            x_out_len: usize,
            s_out: *mut f64,
            s_out_len: usize,
            z_out: *mut f64,
            z_out_len: usize,
            scalars_out: *mut f64,
            scalars_out_len: usize,
        ) -> u32;
        pub fn chordal_same_layout(
            n: u32,
            m: u32,
            p_starts: *const u32,
            p_starts_len: usize,
            p_rows: *const u32,
            p_rows_len: usize,
            p_values: *const f64,
            p_values_len: usize,
            q: *const f64,
            q_len: usize,
            a_starts: *const u32,
            a_starts_len: usize,
            a_rows: *const u32,
            a_rows_len: usize,
            a_values: *const f64,
            a_values_len: usize,
            b: *const f64,
            b_len: usize,
            cones: *const u32,
            cones_len: usize,
            alphas: *const f64,
            alphas_len: usize,
            pattern_count: u32,
            pattern_words: *const u32,
            pattern_words_len: usize,
            n2: u32,
            m2: u32,
            p_starts2: *const u32,
            p_starts2_len: usize,
            p_rows2: *const u32,
            p_rows2_len: usize,
            p_values2: *const f64,
            p_values2_len: usize,
            q2: *const f64,
            q2_len: usize,
            a_starts2: *const u32,
            a_starts2_len: usize,
            a_rows2: *const u32,
            a_rows2_len: usize,
            a_values2: *const f64,
            a_values2_len: usize,
            b2: *const f64,
            b2_len: usize,
            cones2: *const u32,
            cones2_len: usize,
            alphas2: *const f64,
            alphas2_len: usize,
            pattern_count2: u32,
            pattern_words2: *const u32,
            pattern_words2_len: usize,
            out: *mut u32,
            out_len: usize,
        ) -> u32;
    }
}

// ---- the calls with slices

#[cfg(door)]
macro_rules! slice {
    ($s:expr) => {
        ($s.as_ptr(), $s.len())
    };
}

/// The outputs of the cut.
#[derive(Clone, Default)]
pub struct CutOutputs {
    pub p_starts: Vec<u32>,
    pub p_rows: Vec<u32>,
    pub p_values: Vec<f64>,
    pub q: Vec<f64>,
    pub a_starts: Vec<u32>,
    pub a_rows: Vec<u32>,
    pub a_values: Vec<f64>,
    pub b: Vec<f64>,
    pub cones: Vec<u32>,
    pub alphas: Vec<f64>,
    pub map: Vec<u32>,
}

/// The outputs of the joining.
#[derive(Clone, Default)]
pub struct JoinOutputs {
    pub x: Vec<f64>,
    pub s: Vec<f64>,
    pub z: Vec<f64>,
    pub scalars: Vec<f64>,
}

#[cfg(door)]
mod linked {
    use super::*;

    pub fn pair_index(i: u32, j: u32, out: &mut [u32]) -> u32 {
        unsafe { c::chordal_pair_index(i, j, out.as_mut_ptr(), out.len()) }
    }
    pub fn pair_back(index: u32, out: &mut [u32]) -> u32 {
        unsafe { c::chordal_pair_back(index, out.as_mut_ptr(), out.len()) }
    }
    pub fn inverse(p: &[u32], out: &mut [u32]) -> u32 {
        unsafe { c::chordal_inverse(p.as_ptr(), p.len(), out.as_mut_ptr(), out.len()) }
    }
    pub fn renumber(words: &[u32], out: &mut [u32]) -> u32 {
        unsafe { c::chordal_renumber(words.as_ptr(), words.len(), out.as_mut_ptr(), out.len()) }
    }

    // calls $f with the arguments before a problem, the problem's own, and those after it
    macro_rules! with_problem {
        ($f:path, [$($before:expr),*], $p:expr, [$($after:expr),*]) => {{
            let p: &Problem = $p;
            let (ps, psn) = slice!(p.p.starts);
            let (pr, prn) = slice!(p.p.rows);
            let (pv, pvn) = slice!(p.p.values);
            let (q, qn) = slice!(p.q);
            let (as_, asn) = slice!(p.a.starts);
            let (ar, arn) = slice!(p.a.rows);
            let (av, avn) = slice!(p.a.values);
            let (b, bn) = slice!(p.b);
            let (co, con) = slice!(p.cones);
            let (al, aln) = slice!(p.alphas);
            let (w, wn) = slice!(p.pattern_words);
            unsafe {
                $f($($before,)* p.n, p.m, ps, psn, pr, prn, pv, pvn, q, qn, as_, asn, ar, arn, av, avn, b, bn,
                   co, con, al, aln, p.pattern_count, w, wn $(, $after)*)
            }
        }};
    }

    pub fn sizes(route: u32, p: &Problem, out: &mut [u32]) -> u32 {
        with_problem!(c::chordal_sizes, [route], p, [out.as_mut_ptr(), out.len()])
    }
    pub fn cut(route: u32, p: &Problem, o: &mut CutOutputs) -> u32 {
        with_problem!(
            c::chordal_cut,
            [route],
            p,
            [
                o.p_starts.as_mut_ptr(),
                o.p_starts.len(),
                o.p_rows.as_mut_ptr(),
                o.p_rows.len(),
                o.p_values.as_mut_ptr(),
                o.p_values.len(),
                o.q.as_mut_ptr(),
                o.q.len(),
                o.a_starts.as_mut_ptr(),
                o.a_starts.len(),
                o.a_rows.as_mut_ptr(),
                o.a_rows.len(),
                o.a_values.as_mut_ptr(),
                o.a_values.len(),
                o.b.as_mut_ptr(),
                o.b.len(),
                o.cones.as_mut_ptr(),
                o.cones.len(),
                o.alphas.as_mut_ptr(),
                o.alphas.len(),
                o.map.as_mut_ptr(),
                o.map.len()
            ]
        )
    }
    pub fn join(route: u32, j: &expected::JoinInput, o: &mut JoinOutputs) -> u32 {
        let sol = j.solution;
        unsafe {
            c::chordal_join(
                route,
                j.n,
                j.m,
                j.cones.as_ptr(),
                j.cones.len(),
                j.pattern_count,
                j.pattern_words.as_ptr(),
                j.pattern_words.len(),
                sol.x.as_ptr(),
                sol.x.len(),
                sol.s.as_ptr(),
                sol.s.len(),
                sol.z.as_ptr(),
                sol.z.len(),
                sol.tau,
                sol.kappa,
                sol.map.as_ptr(),
                sol.map.len(),
                o.x.as_mut_ptr(),
                o.x.len(),
                o.s.as_mut_ptr(),
                o.s.len(),
                o.z.as_mut_ptr(),
                o.z.len(),
                o.scalars.as_mut_ptr(),
                o.scalars.len(),
            )
        }
    }
    pub fn same_layout(first: &Problem, second: &Problem, out: &mut [u32]) -> u32 {
        let p2 = second;
        with_problem!(
            c::chordal_same_layout,
            [],
            first,
            [
                p2.n,
                p2.m,
                p2.p.starts.as_ptr(),
                p2.p.starts.len(),
                p2.p.rows.as_ptr(),
                p2.p.rows.len(),
                p2.p.values.as_ptr(),
                p2.p.values.len(),
                p2.q.as_ptr(),
                p2.q.len(),
                p2.a.starts.as_ptr(),
                p2.a.starts.len(),
                p2.a.rows.as_ptr(),
                p2.a.rows.len(),
                p2.a.values.as_ptr(),
                p2.a.values.len(),
                p2.b.as_ptr(),
                p2.b.len(),
                p2.cones.as_ptr(),
                p2.cones.len(),
                p2.alphas.as_ptr(),
                p2.alphas.len(),
                p2.pattern_count,
                p2.pattern_words.as_ptr(),
                p2.pattern_words.len(),
                out.as_mut_ptr(),
                out.len()
            ]
        )
    }
}

// unused if the door is not linked
#[cfg(not(door))]
mod linked {
    use super::*;

    pub fn pair_index(_: u32, _: u32, _: &mut [u32]) -> u32 {
        unreachable!()
    }
    pub fn pair_back(_: u32, _: &mut [u32]) -> u32 {
        unreachable!()
    }
    pub fn inverse(_: &[u32], _: &mut [u32]) -> u32 {
        unreachable!()
    }
    pub fn renumber(_: &[u32], _: &mut [u32]) -> u32 {
        unreachable!()
    }
    pub fn sizes(_: u32, _: &Problem, _: &mut [u32]) -> u32 {
        unreachable!()
    }
    pub fn cut(_: u32, _: &Problem, _: &mut CutOutputs) -> u32 {
        unreachable!()
    }
    pub fn join(_: u32, _: &expected::JoinInput, _: &mut JoinOutputs) -> u32 {
        unreachable!()
    }
    pub fn same_layout(_: &Problem, _: &Problem, _: &mut [u32]) -> u32 {
        unreachable!()
    }
}

pub use linked::*;

// ---- comparison

// the contents of outputs before a call
const WORD: u32 = 0xdead_beef;
const VALUE: u64 = 0x7ff8_1234_5678_9abc;

pub fn words(room: usize) -> Vec<u32> {
    vec![WORD; room]
}
pub fn values(room: usize) -> Vec<f64> {
    vec![f64::from_bits(VALUE); room]
}

// returns an output after a call: its front, and the unchanged rest
pub fn words_after(front: &[u32], room: usize) -> Vec<u32> {
    let mut out = words(room);
    out[..front.len()].copy_from_slice(front);
    out
}
pub fn values_after(front: &[f64], room: usize) -> Vec<f64> {
    let mut out = values(room);
    out[..front.len()].copy_from_slice(front);
    out
}

// sums may give any NaN, but the rest must be unchanged
fn same_after(got: &[f64], front: &[f64]) -> bool {
    all_same(&got[..front.len()], front) && all_bits(&got[front.len()..], &values(got.len() - front.len()))
}

/// Returns an output length: long enough, or too short if `short` is set.
pub fn room(d: &mut Draws, needed: usize, short: bool) -> usize {
    if short && needed > 0 {
        needed - 1 - if d.chance(20) { d.below(needed) } else { 0 }
    } else if d.chance(30) {
        needed + 1 + d.below(3)
    } else {
        needed
    }
}

pub fn cut_outputs(rooms: &[usize; 11]) -> CutOutputs {
    CutOutputs {
        p_starts: words(rooms[0]),
        p_rows: words(rooms[1]),
        p_values: values(rooms[2]),
        q: values(rooms[3]),
        a_starts: words(rooms[4]),
        a_rows: words(rooms[5]),
        a_values: values(rooms[6]),
        b: values(rooms[7]),
        cones: words(rooms[8]),
        alphas: values(rooms[9]),
        map: words(rooms[10]),
    }
}

/// Returns a cut on a route: the door's if it is linked, otherwise the plain reading's.
pub fn cut_made(route: Route, p: &Problem) -> Result<CutOutputs, u32> {
    if !LINKED {
        let cut = expected::cut(route, p, None)?;
        return Ok(CutOutputs {
            p_starts: cut.p.starts,
            p_rows: cut.p.rows,
            p_values: cut.p.values,
            q: cut.q,
            a_starts: cut.a.starts,
            a_rows: cut.a.rows,
            a_values: cut.a.values,
            b: cut.b,
            cones: cut.cones,
            alphas: cut.alphas,
            map: cut.map,
        });
    }
    let mut lengths = [0; 11];
    let answer = |number: u32| if number == 0 { Ok(()) } else { Err(number) };
    answer(sizes(route.code(), p, &mut lengths))?;
    let mut out = cut_outputs(&lengths.map(|length| length as usize));
    answer(cut(route.code(), p, &mut out)).map(|()| out)
}

pub fn join_outputs(rooms: &[usize; 4]) -> JoinOutputs {
    JoinOutputs { x: values(rooms[0]), s: values(rooms[1]), z: values(rooms[2]), scalars: values(rooms[3]) }
}

// returns the first output of a cut that is not the expected one
pub fn cut_wrong(o: &CutOutputs, cut: &Cut, rooms: &[usize; 11]) -> Option<&'static str> {
    let tests = [
        ("P starts", o.p_starts == words_after(&cut.p.starts, rooms[0])),
        ("P rows", o.p_rows == words_after(&cut.p.rows, rooms[1])),
        ("P values", all_bits(&o.p_values, &values_after(&cut.p.values, rooms[2]))),
        ("q", all_bits(&o.q, &values_after(&cut.q, rooms[3]))),
        ("A starts", o.a_starts == words_after(&cut.a.starts, rooms[4])),
        ("A rows", o.a_rows == words_after(&cut.a.rows, rooms[5])),
        ("A values", all_bits_but(&o.a_values, &values_after(&cut.a.values, rooms[6]), &cut.sums)),
        ("b", all_bits(&o.b, &values_after(&cut.b, rooms[7]))),
        ("cones", o.cones == words_after(&cut.cones, rooms[8])),
        ("alphas", all_bits(&o.alphas, &values_after(&cut.alphas, rooms[9]))),
        ("map", o.map == words_after(&cut.map, rooms[10])),
    ];
    tests.iter().find(|t| !t.1).map(|t| t.0)
}

fn join_wrong(o: &JoinOutputs, j: &Joined) -> Option<&'static str> {
    let tests = [
        ("x", all_bits(&o.x, &values_after(&j.x, o.x.len()))),
        ("s", same_after(&o.s, &j.s)),
        ("z", same_after(&o.z, &j.z)),
        (
            "scalars",
            // a refused call has no scalars
            if j.tau == 0.0 {
                all_bits(&o.scalars, &values(o.scalars.len()))
            } else {
                same_after(&o.scalars, &[j.tau, j.kappa])
            },
        ),
    ];
    tests.iter().find(|t| !t.1).map(|t| t.0)
}

// records one call as counted or failed, by its number and its first wrong output
#[allow(clippy::too_many_arguments)]
pub fn judge(
    report: &mut Report,
    call: &str,
    expected: u32,
    got: u32,
    wrong: Option<&str>,
    weight: usize,
    text: impl FnOnce() -> String,
) {
    if got != expected {
        report.fail(format!("door, {call}: answers {got}, expected {expected}"), weight, text);
    } else if let Some(what) = wrong {
        let kind = if expected == 0 { "wrong" } else { "written though refused" };
        report.fail(format!("door, {call}: {what} {kind}"), weight, text);
    } else if expected == 0 {
        report.count(format!("door, {call}: done"));
    } else {
        report.count(format!("door, {call}: refused {expected:>2}"));
    }
}

fn wide(lengths: &[usize; 11]) -> Vec<u32> {
    lengths.iter().map(|&l| l as u32).collect()
}

/// Compares sizes and the cut of one problem on a route.
pub fn compare_cut(report: &mut Report, d: &mut Draws, route: Route, p: &Problem) {
    let r = route.name();
    // now and then a number that is not a route
    let code = if d.chance(1) { 2 + d.below(3) as u32 } else { route.code() };

    let short = d.chance(5);
    let space = room(d, 11, short);
    let mut out = words(space);
    let number = sizes(code, p, &mut out);
    let expected = if code > 1 { Err(1) } else { expected::sizes(route, p, space) };
    let front = expected.map(|l| wide(&l)).unwrap_or_default();
    let wrong = (out != words_after(&front, space)).then_some("sizes");
    judge(report, &format!("{r} sizes"), expected.err().unwrap_or(0), number, wrong, p.weight(), || {
        format!("{}\n route {code} room {space} expected {expected:?} got {out:?}", problem_text(p))
    });

    let needed = expected::sizes(route, p, 11).unwrap_or([3; 11]);
    let mut rooms = needed;
    let short = if d.chance(15) { d.below(11) } else { 11 };
    for (i, space) in rooms.iter_mut().enumerate() {
        let also = d.chance(1);
        *space = room(d, *space, i == short || also);
    }
    let mut out = cut_outputs(&rooms);
    let number = cut(code, p, &mut out);
    let expected = if code > 1 { Err(1) } else { expected::cut(route, p, Some(&rooms)) };
    let refusal = expected.as_ref().err().copied().unwrap_or(0);
    let wrong = cut_wrong(&out, &expected.unwrap_or_default(), &rooms);
    judge(report, &format!("{r} cut"), refusal, number, wrong, p.weight(), || {
        format!("{}\n route {code} rooms {rooms:?} needed {needed:?}", problem_text(p))
    });
}

/// Compares the joining of one solution on a route.
pub fn compare_join(report: &mut Report, d: &mut Draws, route: Route, p: &Problem, solution: &Solution) {
    let code = if d.chance(1) { 2 + d.below(3) as u32 } else { route.code() };
    let input = join_input(p, solution);
    let small = |x: u32| if x > 1 << 20 { 3 } else { x as usize };
    let mut rooms = [small(p.n), small(p.m), small(p.m), 2];
    let short = if d.chance(15) { d.below(4) } else { 4 };
    for (i, space) in rooms.iter_mut().enumerate() {
        *space = room(d, *space, i == short);
    }
    let mut out = join_outputs(&rooms);
    let number = join(code, &input, &mut out);
    let expected = if code > 1 { Err(1) } else { expected::join(route, &input, Some(&rooms)) };
    let refusal = expected.as_ref().err().copied().unwrap_or(0);
    let wrong = join_wrong(&out, &expected.unwrap_or_default());
    judge(report, &format!("{} joining", route.name()), refusal, number, wrong, p.weight(), || {
        format!("{}\n{}\n route {code} rooms {rooms:?}", problem_text(p), solution_text(solution))
    });
}

pub fn compare_same_layout(report: &mut Report, d: &mut Draws, first: &Problem, second: &Problem) {
    let short = d.chance(5);
    let space = room(d, 1, short);
    let mut out = words(space);
    let number = same_layout(first, second, &mut out);
    let expected = expected::same_layout(first, second, space);
    let front: Vec<u32> = expected.iter().map(|&same| same as u32).collect();
    let wrong = (out != words_after(&front, space)).then_some("answer");
    let weight = first.weight() + second.weight();
    judge(report, "same layout", expected.err().unwrap_or(0), number, wrong, weight, || {
        format!("{}\n{}\n expected {expected:?}", problem_text(first), problem_text(second))
    });
}

pub fn compare_small(report: &mut Report, d: &mut Draws, pattern: &[u32], permutation: &[u32]) {
    let short = d.chance(10);
    let space = room(d, pattern.len(), short);
    let mut out = words(space);
    let number = renumber(pattern, &mut out);
    let expected = expected::renumber(pattern, space);
    let refusal = expected.as_ref().err().copied().unwrap_or(0);
    let wrong = (out != words_after(&expected.unwrap_or_default(), space)).then_some("words");
    judge(report, "renumbering", refusal, number, wrong, pattern.len(), || format!("  {pattern:?} room {space}"));

    let short = d.chance(10);
    let space = room(d, permutation.len(), short);
    let mut out = words(space);
    let number = inverse(permutation, &mut out);
    let expected = expected::inverse(permutation, space);
    let refusal = expected.as_ref().err().copied().unwrap_or(0);
    let wrong = (out != words_after(&expected.unwrap_or_default(), space)).then_some("inverse");
    judge(report, "inverse", refusal, number, wrong, permutation.len(), || format!("  {permutation:?} room {space}"));
}

/// Compares all pairs up to 256 and some beyond, and all indices and some beyond, with output lengths from 0 to 4.
pub fn compare_pairs(report: &mut Report) {
    let far = [257, 65_535, 65_536, 0x8000_0000, u32::MAX];
    let numbers: Vec<u32> = (0..=256).chain(far).collect();
    for (at, &i) in numbers.iter().enumerate() {
        for &j in &numbers {
            let space = if (at + j as usize).is_multiple_of(7) { j as usize % 4 } else { 1 };
            let mut out = words(space);
            let number = pair_index(i, j, &mut out);
            let expected = expected::pair_index(i, j, space);
            let front: Vec<u32> = expected.iter().copied().collect();
            let wrong = (out != words_after(&front, space)).then_some("index");
            judge(
                report,
                "pair index",
                expected.err().unwrap_or(0),
                number,
                wrong,
                (i as usize) + (j as usize),
                || format!("  ({i}, {j}) room {space}"),
            );
        }
    }
    for index in (0..32_900).chain(far) {
        let space = if index % 7 == 0 { index as usize % 5 } else { 2 };
        let mut out = words(space);
        let number = pair_back(index, &mut out);
        let expected = expected::pair_back(index, space);
        let front: Vec<u32> = expected.iter().flat_map(|&(r, c)| [r, c]).collect();
        let wrong = (out != words_after(&front, space)).then_some("pair");
        judge(report, "pair back", expected.err().unwrap_or(0), number, wrong, index as usize, || {
            format!("  {index} room {space}")
        });
    }
}
