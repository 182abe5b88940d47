//! The calls that document 02 adds: the door's, and their comparison with the plain reading and with what the document
//! says about their results.
#![cfg_attr(not(door), allow(dead_code))]

use crate::against;
use crate::change_route;
use crate::door::*;
use crate::exact::Exact;
use crate::expected::{self, join_input, JoinInput};
use crate::pool;
use crate::problem::*;
use crate::random::Draws;
use crate::report::*;
use crate::sides;

#[cfg(door)]
#[allow(clippy::too_many_arguments)]
mod c {
    extern "C" {
        pub fn chordal_change_route(
            n: u32,
            m: u32,
            cones: *const u32,
            cones_len: usize,
            pattern_count: u32,
            pattern_words: *const u32,
            pattern_words_len: usize,
            x: *const f64,
            x_len: usize,
            s: *const f64,
            s_len: usize,
            z: *const f64,
            z_len: usize,
            tau: f64,
            kappa: f64,
            x_out: *mut f64,
            x_out_len: usize,
            s_out: *mut f64,
            s_out_len: usize,
            z_out: *mut f64,
            z_out_len: usize,
            scalars_out: *mut f64,
            scalars_out_len: usize,
        ) -> u32;
        pub fn chordal_cut_between(
            n: u32,
            m: u32,
            p_starts: *const u32,
            p_starts_len: usize,
            p_rows: *const u32,
            p_rows_len: usize,
            p_values: *const f64,
            p_values_len: usize,
            q: *const f64,
            q_len: usize,
            a_starts: *const u32,
            a_starts_len: usize,
            a_rows: *const u32,
            a_rows_len: usize,
            a_values: *const f64,
            a_values_len: usize,
            low: *const f64,
            low_len: usize,
            high: *const f64,
            high_len: usize,
            cones: *const u32,
            cones_len: usize,
            alphas: *const f64,
            alphas_len: usize,
            pattern_count: u32,
            pattern_words: *const u32,
            pattern_words_len: usize,
            p_starts_out: *mut u32,
            p_starts_out_len: usize,
            p_rows_out: *mut u32,
            p_rows_out_len: usize,
            p_values_out: *mut f64,
            p_values_out_len: usize,
            q_out: *mut f64,
            q_out_len: usize,
            a_starts_out: *mut u32,
            a_starts_out_len: usize,
            a_rows_out: *mut u32,
            a_rows_out_len: usize,
            a_values_out: *mut f64,
            a_values_out_len: usize,
            b_low_out: *mut f64,
            b_low_out_len: usize,
            b_high_out: *mut f64,
            b_high_out_len: usize,
            cones_out: *mut u32,
            cones_out_len: usize,
            alphas_out: *mut f64,
            alphas_out_len: usize,
            map_out: *mut u32,
            map_out_len: usize,
        ) -> u32;
        pub fn chordal_cut_many(
            count: u32,
            n: u32,
            m: u32,
            p_starts: *const u32,
            p_starts_len: usize,
            p_rows: *const u32,
            p_rows_len: usize,
            p_values: *const f64,
            p_values_len: usize,
            q: *const f64,
            q_len: usize,
            a_starts: *const u32,
            a_starts_len: usize,
            a_rows: *const u32,
            a_rows_len: usize,
            a_values: *const f64,
            a_values_len: usize,
            b: *const f64,
            b_len: usize,
            cones: *const u32,
            cones_len: usize,
            alphas: *const f64,
            alphas_len: usize,
            pattern_count: u32,
            pattern_words: *const u32,
            pattern_words_len: usize,
            p_starts_out: *mut u32,
            p_starts_out_len: usize,
            p_rows_out: *mut u32,
            p_rows_out_len: usize,
            p_values_out: *mut f64,
            p_values_out_len: usize,
            q_out: *mut f64,
            q_out_len: usize,
            a_starts_out: *mut u32,
            a_starts_out_len: usize,
            a_rows_out: *mut u32,
            a_rows_out_len: usize,
            a_values_out: *mut f64,
            a_values_out_len: usize,
            b_out: *mut f64,
            b_out_len: usize,
            cones_out: *mut u32,
            cones_out_len: usize,
            alphas_out: *mut f64,
            alphas_out_len: usize,
            map_out: *mut u32,
            map_out_len: usize,
        ) -> u32;
        pub fn chordal_pool(
            n: u32,
            m: u32,
            p_starts: *const u32,
            p_starts_len: usize,
            p_rows: *const u32,
            p_rows_len: usize,
            p_values: *const f64,
            p_values_len: usize,
            q: *const f64,
            q_len: usize,
            a_starts: *const u32,
            a_starts_len: usize,
            a_rows: *const u32,
            a_rows_len: usize,
            a_values: *const f64,
            a_values_len: usize,
            b: *const f64,
            b_len: usize,
            cones: *const u32,
            cones_len: usize,
            alphas: *const f64,
            alphas_len: usize,
            pattern_count: u32,
            pattern_words: *const u32,
            pattern_words_len: usize,
            n2: u32,
            m2: u32,
            p_starts2: *const u32,
            p_starts2_len: usize,
            p_rows2: *const u32,
            p_rows2_len: usize,
            p_values2: *const f64,
            p_values2_len: usize,
            q2: *const f64,
            q2_len: usize,
            a_starts2: *const u32,
            a_starts2_len: usize,
            a_rows2: *const u32,
            a_rows2_len: usize,
            a_values2: *const f64,
            a_values2_len: usize,
            b2: *const f64,
            b2_len: usize,
            cones2: *const u32,
            cones2_len: usize,
            alphas2: *const f64,
            alphas2_len: usize,
            pattern_count2: u32,
            pattern_words2: *const u32,
            pattern_words2_len: usize,
            p_starts_out: *mut u32,
            p_starts_out_len: usize,
            p_rows_out: *mut u32,
            p_rows_out_len: usize,
            p_values_out: *mut f64,
            p_values_out_len: usize,
            q_out: *mut f64,
            q_out_len: usize,
            a_starts_out: *mut u32,
            a_starts_out_len: usize,
            a_rows_out: *mut u32,
            a_rows_out_len: usize,
            a_values_out: *mut f64,
            a_values_out_len: usize,
            b_out: *mut f64,
            b_out_len: usize,
            cones_out: *mut u32,
            cones_out_len: usize,
            alphas_out: *mut f64,
            alphas_out_len: usize,
            pattern_words_out: *mut u32,
            pattern_words_out_len: usize,
        ) -> u32;
    }
}

// ---- changing route

/// The door's call.
pub fn change_route(j: &JoinInput, o: &mut JoinOutputs) -> u32 {
    #[cfg(not(door))]
    {
        let _ = (j, o);
        unreachable!("the door is not linked")
    }
    #[cfg(door)]
    unsafe {
        c::chordal_change_route(
            j.n,
            j.m,
            j.cones.as_ptr(),
            j.cones.len(),
            j.pattern_count,
            j.pattern_words.as_ptr(),
            j.pattern_words.len(),
            j.solution.x.as_ptr(),
            j.solution.x.len(),
            j.solution.s.as_ptr(),
            j.solution.s.len(),
            j.solution.z.as_ptr(),
            j.solution.z.len(),
            j.solution.tau,
            j.solution.kappa,
            o.x.as_mut_ptr(),
            o.x.len(),
            o.s.as_mut_ptr(),
            o.s.len(),
            o.z.as_mut_ptr(),
            o.z.len(),
            o.scalars.as_mut_ptr(),
            o.scalars.len(),
        )
    }
}

// returns the first output that is not the solution followed by its unchanged rest
fn solution_wrong(o: &JoinOutputs, j: Option<&Joined>) -> Option<&'static str> {
    let refused = Joined::default();
    let front = j.unwrap_or(&refused);
    let scalars: &[f64] = if j.is_some() { &[front.tau, front.kappa] } else { &[] };
    let tests =
        [("x", &o.x, &front.x[..]), ("s", &o.s, &front.s), ("z", &o.z, &front.z), ("scalars", &o.scalars, scalars)];
    tests.iter().find(|(_, got, front)| !all_bits(got, &values_after(front, got.len()))).map(|t| t.0)
}

// returns the exact total at each original row of values in the augmented rows with these original rows; none if one of
// the values is not finite
fn totals(m: usize, originals: impl Iterator<Item = usize>, values: &[f64]) -> Option<Vec<Exact>> {
    let mut out = vec![Exact::zero(); m];
    for (original, &value) in originals.zip(values) {
        if !value.is_finite() {
            return None;
        }
        out[original] = out[original].plus(&Exact::of(value));
    }
    Some(out)
}

// returns whether the exact totals of s are the same on both routes; none if an s is not finite
fn totals_kept(input: &JoinInput, compact_s: &[f64]) -> Option<bool> {
    let layout = expected::joinable(Route::Standard, input).ok()?;
    let m = input.m as usize;
    let standard = totals(m, layout.standard_rows().into_iter(), &input.solution.s[m..])?;
    let compact = totals(m, layout.compact_rows().iter().map(|row| row.original()), compact_s);
    Some(Some(standard) == compact)
}

/// Compares the change of route: a standard solution as a compact one, which a compact joining of the same problem must accept.
pub fn compare_change_route(report: &mut Report, d: &mut Draws, p: &Problem, solution: &Solution) {
    let input = join_input(p, solution);
    let mut rooms = change_route::lengths(&input).unwrap_or([3; 4]);
    let short = if d.chance(15) { d.below(4) } else { 4 };
    for (i, space) in rooms.iter_mut().enumerate() {
        *space = room(d, *space, i == short);
    }
    let mut out = join_outputs(&rooms);
    let number = change_route(&input, &mut out);
    let expected = change_route::change_route(&input, Some(&rooms));
    let refusal = expected.as_ref().err().copied().unwrap_or(0);
    let wrong = solution_wrong(&out, expected.as_ref().ok());
    let text = || format!("{}\n{}\n rooms {rooms:?}", problem_text(p), solution_text(solution));
    judge(report, "change of route", refusal, number, wrong, p.weight(), text);
    let Ok(changed) = expected else { return };
    let (rows, added) = (changed.s.len(), changed.x.len());
    match totals_kept(&input, &out.s[..rows]) {
        None => report.count("change of route: an s is not finite"),
        Some(true) => report.count("change of route: exact totals of s are kept"),
        Some(false) => report.fail("change of route: an exact total of s has changed", p.weight(), text),
    }
    let map = expected::solution_shape(Route::Compact, p).unwrap_or_default().2;
    let compact = Solution {
        x: out.x[..added].to_vec(),
        s: out.s[..rows].to_vec(),
        z: out.z[..rows].to_vec(),
        map,
        ..Solution::default()
    };
    let mut joined = join_outputs(&[p.n as usize, p.m as usize, p.m as usize, 2]);
    let number = join(Route::Compact.code(), &join_input(p, &compact), &mut joined);
    if number == 0 {
        report.count("change of route: a compact joining takes what it gives");
    } else {
        report.fail(format!("change of route: a compact joining refuses what it gives, {number}"), p.weight(), text);
    }
}

// ---- limits

/// The door's call: writes the cut with the low limits' b, and the high limits' b.
pub fn cut_between(p: &Problem, low: &[f64], high: &[f64], o: &mut CutOutputs, b_high: &mut [f64]) -> u32 {
    #[cfg(not(door))]
    {
        let _ = (p, low, high, o, b_high);
        unreachable!("the door is not linked")
    }
    #[cfg(door)]
    unsafe {
        c::chordal_cut_between(
            p.n,
            p.m,
            p.p.starts.as_ptr(),
            p.p.starts.len(),
            p.p.rows.as_ptr(),
            p.p.rows.len(),
            p.p.values.as_ptr(),
            p.p.values.len(),
            p.q.as_ptr(),
            p.q.len(),
            p.a.starts.as_ptr(),
            p.a.starts.len(),
            p.a.rows.as_ptr(),
            p.a.rows.len(),
            p.a.values.as_ptr(),
            p.a.values.len(),
            low.as_ptr(),
            low.len(),
            high.as_ptr(),
            high.len(),
            p.cones.as_ptr(),
            p.cones.len(),
            p.alphas.as_ptr(),
            p.alphas.len(),
            p.pattern_count,
            p.pattern_words.as_ptr(),
            p.pattern_words.len(),
            o.p_starts.as_mut_ptr(),
            o.p_starts.len(),
            o.p_rows.as_mut_ptr(),
            o.p_rows.len(),
            o.p_values.as_mut_ptr(),
            o.p_values.len(),
            o.q.as_mut_ptr(),
            o.q.len(),
            o.a_starts.as_mut_ptr(),
            o.a_starts.len(),
            o.a_rows.as_mut_ptr(),
            o.a_rows.len(),
            o.a_values.as_mut_ptr(),
            o.a_values.len(),
            o.b.as_mut_ptr(),
            o.b.len(),
            b_high.as_mut_ptr(),
            b_high.len(),
            o.cones.as_mut_ptr(),
            o.cones.len(),
            o.alphas.as_mut_ptr(),
            o.alphas.len(),
            o.map.as_mut_ptr(),
            o.map.len(),
        )
    }
}

// lengths for the cut's outputs, one of them too short now and then
fn some_rooms(d: &mut Draws, mut rooms: [usize; 11]) -> [usize; 11] {
    let short = if d.chance(15) { d.below(11) } else { 11 };
    for (i, space) in rooms.iter_mut().enumerate() {
        *space = room(d, *space, i == short);
    }
    rooms
}

// returns the first table other than b in which two cuts differ; in sums of several entries any NaN equals any NaN
fn beside_b(a: &CutOutputs, b: &CutOutputs) -> Option<&'static str> {
    let tests = [
        ("P", (&a.p_starts, &a.p_rows) == (&b.p_starts, &b.p_rows) && all_bits(&a.p_values, &b.p_values)),
        ("q", all_bits(&a.q, &b.q)),
        ("A", (&a.a_starts, &a.a_rows) == (&b.a_starts, &b.a_rows) && all_same(&a.a_values, &b.a_values)),
        ("cones", a.cones == b.cones && all_bits(&a.alphas, &b.alphas)),
        ("map", a.map == b.map),
    ];
    tests.iter().find(|t| !t.1).map(|t| t.0)
}

// returns the outputs cut to the lengths of the results
fn cut_off(o: &CutOutputs, lengths: &[usize; 11]) -> CutOutputs {
    CutOutputs {
        p_starts: o.p_starts[..lengths[0]].to_vec(),
        p_rows: o.p_rows[..lengths[1]].to_vec(),
        p_values: o.p_values[..lengths[2]].to_vec(),
        q: o.q[..lengths[3]].to_vec(),
        a_starts: o.a_starts[..lengths[4]].to_vec(),
        a_rows: o.a_rows[..lengths[5]].to_vec(),
        a_values: o.a_values[..lengths[6]].to_vec(),
        b: o.b[..lengths[7]].to_vec(),
        cones: o.cones[..lengths[8]].to_vec(),
        alphas: o.alphas[..lengths[9]].to_vec(),
        map: o.map[..lengths[10]].to_vec(),
    }
}

// a number between two, which may be either of them
fn between(d: &mut Draws, low: f64, high: f64) -> f64 {
    let middle = low / 2.0 + high / 2.0;
    match d.below(4) {
        0 => low,
        1 => high,
        2 if low == high && low == 0.0 => -low,
        _ if middle >= low && middle <= high => middle,
        _ => low,
    }
}

fn all_between(d: &mut Draws, low: &[f64], high: &[f64]) -> Vec<f64> {
    low.iter().zip(high).map(|(&low, &high)| between(d, low, high)).collect()
}

// Tests what document 02 says about an accepted pair of lists and its results: a b between the lists is augmented into something
// between the results, and a vector between the results is, as numbers, the augmentation of exactly one such b.
fn limits_wrong(d: &mut Draws, p: &Problem, lists: [&[f64]; 2], results: [&[f64]; 2]) -> Option<&'static str> {
    let augmented = |b: &[f64]| cut_made(Route::Compact, &sides::with_b(p, b)).map(|cut| cut.b);
    let within = |b: &[f64], [low, high]: [&[f64]; 2]| sides::in_order(low, b) && sides::in_order(b, high);
    let b = all_between(d, lists[0], lists[1]);
    match augmented(&b) {
        Err(_) => return Some("a b between the limits is refused"),
        Ok(made) if !within(&made, results) => return Some("a b between the limits leaves the results"),
        Ok(_) => {}
    }
    let vector = all_between(d, results[0], results[1]);
    let layout = expected::first_seven(&sides::with_b(p, lists[0])).ok()?;
    let mut b = vec![0.0; p.m as usize];
    for (row, &value) in layout.compact_rows().iter().zip(&vector) {
        if row.parent_row().is_none() {
            b[row.original()] = value;
        }
    }
    if !within(&b, lists) {
        return Some("a vector between the results comes from no b between the limits");
    }
    if augmented(&b).as_ref() != Ok(&vector) {
        return Some("a vector between the results is no augmentation");
    }
    // any other b between the limits gives another vector
    let open: Vec<usize> = (0..b.len()).filter(|&at| lists[0][at] < lists[1][at]).collect();
    if !open.is_empty() {
        let at = open[d.below(open.len())];
        b[at] = if b[at] == lists[0][at] { lists[1][at] } else { lists[0][at] };
        if augmented(&b).as_ref() == Ok(&vector) {
            return Some("a vector between the results is the augmentation of two");
        }
    }
    None
}

/// Compares the compact cut with two lists for b; `p`'s own b is not used.
pub fn compare_between(report: &mut Report, d: &mut Draws, p: &Problem, low: &[f64], high: &[f64]) {
    let needed = sides::lengths_between(p, low, high).unwrap_or([3; 11]);
    let rooms = some_rooms(d, needed);
    let short = d.chance(3);
    let high_room = room(d, needed[7], short);
    let (mut out, mut b_high) = (cut_outputs(&rooms), values(high_room));
    let number = cut_between(p, low, high, &mut out, &mut b_high);
    let expected = sides::cut_between(p, low, high, Some((&rooms, high_room)));
    let refusal = expected.as_ref().err().copied().unwrap_or(0);
    let (cut, front) = expected.unwrap_or_default();
    let wrong = if all_bits(&b_high, &values_after(&front, high_room)) {
        cut_wrong(&out, &cut, &rooms)
    } else {
        Some("high limits")
    };
    let text = || {
        let lists = format!(" low {}\n high {}", floats(low), floats(high));
        format!("{}\n{lists}\n rooms {rooms:?} {high_room} needed {needed:?}", problem_text(p))
    };
    judge(report, "cut between", refusal, number, wrong, p.weight(), text);

    // compared with the two single cuts
    let singles = [low, high].map(|b| cut_made(Route::Compact, &sides::with_b(p, b)));
    let first = singles.iter().filter_map(|cut| cut.as_ref().err().copied()).min();
    let by_singles = match first {
        Some(number) if number <= 4 => number,
        _ if !sides::in_order(low, high) => 16,
        Some(number) => number,
        None => number * (number == 11) as u32,
    };
    if by_singles != number {
        let kind = format!("cut between: answers {number}, by the single cuts {by_singles}");
        report.fail(kind, p.weight(), text);
    }
    let (0, [Ok(by_low), Ok(by_high)]) = (number, &singles) else { return };
    let made = cut_off(&out, &needed);
    let results = [&made.b[..], &b_high[..needed[7]]];
    let wrong = [by_low, by_high]
        .into_iter()
        .zip(results)
        .find_map(|(single, b)| beside_b(&made, single).or((!all_bits(b, &single.b)).then_some("b")));
    let wrong = wrong.or_else(|| limits_wrong(d, p, [low, high], results));
    match wrong {
        None => report.count("cut between: what the single cuts give; a b and a vector between the limits"),
        Some(what) => report.fail(format!("cut between, beside the single cuts: {what}"), p.weight(), text),
    }
    let either = if d.chance(50) { low } else { high };
    against::compare(report, Route::Compact, &sides::with_b(p, either), None, 0);
}

// ---- many right sides

/// The door's call; `p`'s b holds all right sides.
pub fn cut_many(count: u32, p: &Problem, o: &mut CutOutputs) -> u32 {
    #[cfg(not(door))]
    {
        let _ = (count, p, o);
        unreachable!("the door is not linked")
    }
    #[cfg(door)]
    unsafe {
        c::chordal_cut_many(
            count,
            p.n,
            p.m,
            p.p.starts.as_ptr(),
            p.p.starts.len(),
            p.p.rows.as_ptr(),
            p.p.rows.len(),
            p.p.values.as_ptr(),
            p.p.values.len(),
            p.q.as_ptr(),
            p.q.len(),
            p.a.starts.as_ptr(),
            p.a.starts.len(),
            p.a.rows.as_ptr(),
            p.a.rows.len(),
            p.a.values.as_ptr(),
            p.a.values.len(),
            p.b.as_ptr(),
            p.b.len(),
            p.cones.as_ptr(),
            p.cones.len(),
            p.alphas.as_ptr(),
            p.alphas.len(),
            p.pattern_count,
            p.pattern_words.as_ptr(),
            p.pattern_words.len(),
            o.p_starts.as_mut_ptr(),
            o.p_starts.len(),
            o.p_rows.as_mut_ptr(),
            o.p_rows.len(),
            o.p_values.as_mut_ptr(),
            o.p_values.len(),
            o.q.as_mut_ptr(),
            o.q.len(),
            o.a_starts.as_mut_ptr(),
            o.a_starts.len(),
            o.a_rows.as_mut_ptr(),
            o.a_rows.len(),
            o.a_values.as_mut_ptr(),
            o.a_values.len(),
            o.b.as_mut_ptr(),
            o.b.len(),
            o.cones.as_mut_ptr(),
            o.cones.len(),
            o.alphas.as_mut_ptr(),
            o.alphas.len(),
            o.map.as_mut_ptr(),
            o.map.len(),
        )
    }
}

/// Compares the compact cut of a problem whose b holds `count` right sides.
pub fn compare_many(report: &mut Report, d: &mut Draws, count: u32, p: &Problem) {
    let needed = sides::lengths_many(count, p).unwrap_or([3; 11]);
    let rooms = some_rooms(d, needed);
    let mut out = cut_outputs(&rooms);
    let number = cut_many(count, p, &mut out);
    let expected = sides::cut_many(count, p, Some(&rooms));
    let refusal = expected.as_ref().err().copied().unwrap_or(0);
    let wrong = cut_wrong(&out, &expected.unwrap_or_default(), &rooms);
    let text = || format!("{}\n sides {count} rooms {rooms:?} needed {needed:?}", problem_text(p));
    judge(report, "cut of many sides", refusal, number, wrong, p.weight(), text);

    // compared with the single cuts, one by one
    let m = p.m as usize;
    if p.b.len() as u64 != count as u64 * p.m as u64 || !(1..=64).contains(&count) {
        return;
    }
    let made = (number == 0).then(|| cut_off(&out, &needed));
    for k in 0..count as usize {
        let single = cut_made(Route::Compact, &sides::with_b(p, &p.b[k * m..(k + 1) * m]));
        let wrong = match (&single, &made) {
            (Err(first), _) => (*first != number).then(|| format!("the first refused is {first}, not {number}")),
            (Ok(single), Some(made)) => {
                let rows = single.b.len();
                let same_b = all_bits(&made.b[k * rows..(k + 1) * rows], &single.b);
                beside_b(made, single).or((!same_b).then_some("b")).map(|what| format!("{what} differs"))
            }
            (Ok(_), None) if k + 1 < count as usize || number == 11 => None,
            (Ok(_), None) => Some(format!("no side alone is refused, answers {number}")),
        };
        if let Some(what) = wrong {
            report.fail(format!("cut of many sides, beside the single cuts: {what}"), p.weight(), text);
            return;
        }
        if single.is_err() {
            report.count("cut of many sides: the number of the first side that is refused");
            return;
        }
    }
    if number == 0 {
        report.count("cut of many sides: what the single cuts give");
        let k = d.below(count as usize);
        against::compare(report, Route::Compact, &sides::with_b(p, &p.b[k * m..(k + 1) * m]), None, 0);
    }
}

// ---- pooling

/// The door's call; the pattern words take the place of the cut's map.
pub fn pool(first: &Problem, second: &Problem, o: &mut CutOutputs) -> u32 {
    #[cfg(not(door))]
    {
        let _ = (first, second, o);
        unreachable!("the door is not linked")
    }
    #[cfg(door)]
    unsafe {
        c::chordal_pool(
            first.n,
            first.m,
            first.p.starts.as_ptr(),
            first.p.starts.len(),
            first.p.rows.as_ptr(),
            first.p.rows.len(),
            first.p.values.as_ptr(),
            first.p.values.len(),
            first.q.as_ptr(),
            first.q.len(),
            first.a.starts.as_ptr(),
            first.a.starts.len(),
            first.a.rows.as_ptr(),
            first.a.rows.len(),
            first.a.values.as_ptr(),
            first.a.values.len(),
            first.b.as_ptr(),
            first.b.len(),
            first.cones.as_ptr(),
            first.cones.len(),
            first.alphas.as_ptr(),
            first.alphas.len(),
            first.pattern_count,
            first.pattern_words.as_ptr(),
            first.pattern_words.len(),
            second.n,
            second.m,
            second.p.starts.as_ptr(),
            second.p.starts.len(),
            second.p.rows.as_ptr(),
            second.p.rows.len(),
            second.p.values.as_ptr(),
            second.p.values.len(),
            second.q.as_ptr(),
            second.q.len(),
            second.a.starts.as_ptr(),
            second.a.starts.len(),
            second.a.rows.as_ptr(),
            second.a.rows.len(),
            second.a.values.as_ptr(),
            second.a.values.len(),
            second.b.as_ptr(),
            second.b.len(),
            second.cones.as_ptr(),
            second.cones.len(),
            second.alphas.as_ptr(),
            second.alphas.len(),
            second.pattern_count,
            second.pattern_words.as_ptr(),
            second.pattern_words.len(),
            o.p_starts.as_mut_ptr(),
            o.p_starts.len(),
            o.p_rows.as_mut_ptr(),
            o.p_rows.len(),
            o.p_values.as_mut_ptr(),
            o.p_values.len(),
            o.q.as_mut_ptr(),
            o.q.len(),
            o.a_starts.as_mut_ptr(),
            o.a_starts.len(),
            o.a_rows.as_mut_ptr(),
            o.a_rows.len(),
            o.a_values.as_mut_ptr(),
            o.a_values.len(),
            o.b.as_mut_ptr(),
            o.b.len(),
            o.cones.as_mut_ptr(),
            o.cones.len(),
            o.alphas.as_mut_ptr(),
            o.alphas.len(),
            o.map.as_mut_ptr(),
            o.map.len(),
        )
    }
}

/// Returns a problem's tables in the places of a cut's, the pattern words in that of the map.
pub fn as_tables(p: Problem) -> Cut {
    Cut { p: p.p, q: p.q, a: p.a, b: p.b, cones: p.cones, alphas: p.alphas, map: p.pattern_words, sums: vec![] }
}

// returns the entries of a column, their rows raised by `by`
fn raised(cut: &CutOutputs, column: usize, by: u32) -> Vec<(u32, u64)> {
    let entries = cut.a_starts[column] as usize..cut.a_starts[column + 1] as usize;
    entries.map(|k| (cut.a_rows[k] + by, canonical(cut.a_values[k]))).collect()
}

// returns a value's bits, the same for all NaNs
fn canonical(v: f64) -> u64 {
    if v.is_nan() {
        f64::NAN.to_bits()
    } else {
        v.to_bits()
    }
}

// returns the first table in which the pool's compact cut is not what the cuts of its passes require
fn compact_wrong(passes: [&Problem; 2], cuts: [&CutOutputs; 2], pool: &CutOutputs) -> Option<&'static str> {
    let [first, second] = cuts;
    let (n, rows) = (passes[0].n as usize, first.b.len() as u32);
    let [overlaps, more] = cuts.map(|cut| cut.q.len() - n);
    // the first's entries above the second's in each column, then the first's overlap columns, then the second's
    let mut columns: Vec<Vec<(u32, u64)>> =
        (0..n).map(|c| [raised(first, c, 0), raised(second, c, rows)].concat()).collect();
    columns.extend((n..n + overlaps).map(|c| raised(first, c, 0)));
    columns.extend((n..n + more).map(|c| raised(second, c, rows)));
    let raise = [passes[0].cones.len() as u32 / 3, passes[0].pattern_count, rows];
    let mut map = first.map.clone();
    for entry in second.map.chunks(MAP_WORDS) {
        let pattern = if entry[1] == NONE { NONE } else { entry[1] + raise[1] };
        map.extend([entry[0] + raise[0], pattern, entry[2], entry[3] + raise[2], entry[4]]);
    }
    let mut q = first.q.clone();
    q.resize(n + overlaps + more, 0.0);
    let mut p_starts = first.p_starts.clone();
    p_starts.resize(q.len() + 1, first.p_rows.len() as u32);
    let made: Vec<Vec<(u32, u64)>> = (0..pool.a_starts.len() - 1).map(|c| raised(pool, c, 0)).collect();
    let tests = [
        ("P", pool.p_starts == p_starts && pool.p_rows == first.p_rows && all_bits(&pool.p_values, &first.p_values)),
        ("q", all_bits(&pool.q, &q)),
        ("A", made == columns),
        ("b", all_bits(&pool.b, &[&first.b[..], &second.b].concat())),
        ("cones", pool.cones == [&first.cones[..], &second.cones].concat()),
        ("alphas", all_bits(&pool.alphas, &[&first.alphas[..], &second.alphas].concat())),
        ("map", pool.map == map),
    ];
    tests.iter().find(|t| !t.1).map(|t| t.0)
}

// returns the pool's standard cones: one Zero cone over all original rows, then those after the Zero cone of each pass's cut
fn standard_cones(passes: [&Problem; 2], cuts: [&CutOutputs; 2]) -> Vec<u32> {
    let mut cones = vec![0, passes[0].m + passes[1].m, 0];
    cuts.iter().for_each(|cut| cones.extend(&cut.cones[3..]));
    cones
}

/// Compares the pooled problem of two passes, and its cuts with those of the passes.
pub fn compare_pool(report: &mut Report, d: &mut Draws, first: &Problem, second: &Problem) {
    let weight = first.weight() + second.weight();
    let needed = pool::pool(first, second, None).map_or([3; 11], |pool| pool::lengths(&pool));
    let rooms = some_rooms(d, needed);
    let mut out = cut_outputs(&rooms);
    let number = pool(first, second, &mut out);
    let expected = pool::pool(first, second, Some(&rooms));
    let refusal = expected.as_ref().err().copied().unwrap_or(0);
    let wrong = cut_wrong(&out, &expected.clone().map(as_tables).unwrap_or_default(), &rooms);
    let wrong = wrong.map(|what| if what == "map" { "pattern words" } else { what });
    let text = || format!("{}\n{}\n rooms {rooms:?} needed {needed:?}", problem_text(first), problem_text(second));
    judge(report, "pooling", refusal, number, wrong, weight, text);

    // the cuts of the tables that were written
    let (Ok(pooled), 0) = (expected, number) else { return };
    let made = cut_off(&out, &needed);
    let pooled = Problem {
        p: Columns { starts: made.p_starts, rows: made.p_rows, values: made.p_values },
        q: made.q,
        a: Columns { starts: made.a_starts, rows: made.a_rows, values: made.a_values },
        b: made.b,
        cones: made.cones,
        alphas: made.alphas,
        pattern_words: made.map,
        ..pooled
    };
    for route in [Route::Compact, Route::Standard] {
        let cuts = [first, second, &pooled].map(|p| cut_made(route, p));
        let [Ok(a), Ok(b), Ok(of_pool)] = &cuts else { continue };
        let wrong = match route {
            Route::Compact => compact_wrong([first, second], [a, b], of_pool),
            Route::Standard => (of_pool.cones != standard_cones([first, second], [a, b])).then_some("cones"),
        };
        let what = match route {
            Route::Compact => "pooling: the compact cut is that of the passes in turn",
            Route::Standard => "pooling: the standard cones are those of the passes in turn",
        };
        match wrong {
            None => report.count(what),
            Some(table) => report.fail(format!("{what}, but {table}"), weight, text),
        }
    }
}
