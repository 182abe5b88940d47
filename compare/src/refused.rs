//! Times refused calls beside accepted ones of the same size. Each input is damaged at the last place where a check can find the
//! damage, so that the refused call does as much as it can before it stops.

use crate::added;
use crate::change_route;
use crate::door;
use crate::expected::{self, join_input, read_patterns, JoinInput, Pattern};
use crate::files;
use crate::pool;
use crate::problem::*;
use crate::problem_file;
use crate::random::{self, Draws};
use crate::sides;
use crate::speed::{self, plain_solution, shown};
use std::cell::RefCell;
use std::hint::black_box;

/// How many times as long as the accepted call a refused one may take, and how many microseconds more.
const TIMES: f64 = 1.1;
const MORE: f64 = 0.05;

/// How often a pair of calls is timed until the refused one is quick enough: other load on the machine may slow one of them.
const TRIES: usize = 4;

fn quick(refused: f64, accepted: f64) -> bool {
    refused <= TIMES * accepted + MORE
}

// Whether the refused call was quick enough in most rounds. Each is compared with the accepted one of the same round: where other load
// comes and goes, short calls of one round take twice as long as those of another, so that the two medians may be of different rounds.
fn mostly_quick([refused, accepted]: &[Vec<f64>; 2]) -> bool {
    let slow = refused.iter().zip(accepted).filter(|(r, a)| !quick(**r, **a)).count();
    2 * slow <= refused.len()
}

// ---- the table

#[derive(Default)]
struct Table {
    lines: usize,
    slow: usize,
}

type Call<'a> = &'a mut dyn FnMut() -> u32;

impl Table {
    // times a refused call, whose damage has this number and place, beside an accepted one, and prints both
    fn line(&mut self, [input, call]: [&str; 2], (number, place): (u32, &str), refused: Call, accepted: Call) {
        assert_eq!((refused(), accepted()), (number, 0), "{input}, {call}: {place}");
        let mut times = [const { vec![] }; 2];
        for _ in 0..TRIES {
            let both: &mut [&mut dyn FnMut()] = &mut [
                &mut || {
                    black_box(refused());
                },
                &mut || {
                    black_box(accepted());
                },
            ];
            times = speed::all_rounds(0.05, both).try_into().expect("two calls");
            if mostly_quick(&times) {
                break;
            }
        }
        let slow = !mostly_quick(&times);
        self.lines += 1;
        self.slow += slow as usize;
        let ratio = speed::middle(times[0].iter().zip(&times[1]).map(|(r, a)| r / a).collect());
        let [micros, whole] = times.map(|t| shown(Some(speed::middle(t))));
        println!("| {input} | {call} | {number} | {place} | {micros} | {whole} | {ratio:.2} |");
        if slow {
            println!("  ^ slower than the accepted call");
        }
    }

    // the same for one call given each damaged input, and the right one
    fn lines<I>(&mut self, names: [&str; 2], right: &I, faults: &[Fault<I>], call: &mut dyn FnMut(&I) -> u32) {
        let call = RefCell::new(call);
        for fault in faults {
            self.line(names, (fault.number, fault.place), &mut || call.borrow_mut()(&fault.damaged), &mut || {
                call.borrow_mut()(right)
            });
        }
    }
}

// ---- damaged inputs

/// An input damaged at a place, and the number with which it is refused.
struct Fault<I> {
    number: u32,
    place: &'static str,
    damaged: I,
}

/// A way to damage a problem: `change` returns whether it could. If `in_layout` is set, cones or patterns are damaged, which a
/// joining takes too.
struct Change {
    number: u32,
    place: &'static str,
    in_layout: bool,
    change: fn(&mut Problem) -> bool,
}

const fn layout(number: u32, place: &'static str, change: fn(&mut Problem) -> bool) -> Change {
    Change { number, place, in_layout: true, change }
}

const fn table(number: u32, place: &'static str, change: fn(&mut Problem) -> bool) -> Change {
    Change { number, place, in_layout: false, change }
}

// sets the last of some words
fn set_last(words: &mut [u32], value: u32) -> bool {
    words.last_mut().map(|last| *last = value).is_some()
}

fn add_word(words: &mut Vec<u32>) -> bool {
    words.push(0);
    true
}

// gives the last cone record a kind that there is not
fn unknown_kind(cones: &mut [u32]) -> bool {
    let [.., kind, _, _] = cones else { return false };
    *kind = 7;
    true
}

// makes the last start less than the one before it
fn fall(c: &mut Columns) -> bool {
    let [.., before, last] = &mut c.starts[..] else { return false };
    *before = *last + 1;
    true
}

// exchanges the last two rows, if they are those of one column and differ
fn exchange_last(c: &mut Columns) -> bool {
    let [.., before, last] = c.rows[..] else { return false };
    let column = c.starts.windows(2).rev().find(|w| w[0] < w[1]).expect("a column with entries");
    let exchanged = column[1] - column[0] > 1 && before < last;
    if exchanged {
        let count = c.rows.len();
        c.rows.swap(count - 2, count - 1);
    }
    exchanged
}

// changes the last pattern
fn change_pattern(p: &mut Problem, change: fn(&mut Pattern) -> bool) -> bool {
    let mut patterns = read_patterns(p.pattern_count, &p.pattern_words).expect("patterns");
    let changed = patterns.last_mut().is_some_and(change);
    p.pattern_words = patterns.iter().flat_map(|p| p.words()).collect();
    changed
}

fn repeat_in_ordering(p: &mut Pattern) -> bool {
    let first = p.ordering[0];
    p.vertices > 1 && set_last(&mut p.ordering, first)
}

// the last clique gets a parent
fn add_parent(p: &mut Pattern) -> bool {
    p.cliques.last_mut().map(|c| c.parent = 0).is_some()
}

// the last member of the last separator becomes a vertex of its own clique's snode, which the parent does not hold
fn foreign_in_separator(p: &mut Pattern) -> bool {
    let last = p.cliques.iter_mut().rev().find(|c| !c.separator.is_empty());
    last.is_some_and(|c| set_last(&mut c.separator, c.snode[0]))
}

// the last vertex of the last snode becomes one of the first snode
fn repeat_in_snodes(p: &mut Pattern) -> bool {
    let first = p.cliques[0].snode[0];
    p.vertices > 1 && p.cliques.last_mut().is_some_and(|c| set_last(&mut c.snode, first))
}

const CHANGES: [Change; 13] = [
    layout(1, "the last cone's second size", |p| set_last(&mut p.cones, 65_537)),
    table(2, "A's last start, falling", |p| fall(&mut p.a)),
    table(2, "P's last start, falling", |p| fall(&mut p.p)),
    table(3, "A's last row, outside", |p| set_last(&mut p.a.rows, p.m)),
    table(3, "A's last two rows, exchanged", |p| exchange_last(&mut p.a)),
    table(3, "P's last row, outside", |p| set_last(&mut p.p.rows, p.n)),
    layout(4, "the last cone's kind", |p| unknown_kind(&mut p.cones)),
    table(4, "b, one value short", |p| p.b.pop().is_some()),
    layout(5, "the last ordering's last number", |p| change_pattern(p, repeat_in_ordering)),
    layout(5, "a word after the last pattern", |p| add_word(&mut p.pattern_words)),
    layout(6, "the last clique's parent", |p| change_pattern(p, add_parent)),
    layout(7, "the last separator's last member", |p| change_pattern(p, foreign_in_separator)),
    layout(7, "the last snode's last vertex", |p| change_pattern(p, repeat_in_snodes)),
];

// returns the problem damaged in each way for which `wanted` holds
fn faults(p: &Problem, wanted: fn(&Change) -> bool) -> Vec<Fault<Problem>> {
    let mut out = vec![];
    for change in CHANGES.iter().filter(|c| wanted(c)) {
        let mut damaged = p.clone();
        if (change.change)(&mut damaged) {
            out.push(Fault { number: change.number, place: change.place, damaged });
        }
    }
    out
}

fn last_uncovered(p: &Problem) -> Option<usize> {
    expected::first_seven(p).expect("a problem").uncovered().last().copied()
}

// the last entry of A in the last uncovered row, if that is in order
fn uncovered_entry(p: &Problem) -> Option<Fault<Problem>> {
    let row = last_uncovered(p)? as u32;
    let mut damaged = p.clone();
    set_last(&mut damaged.a.rows, row);
    expected::first_seven(&damaged).ok()?;
    Some(Fault { number: 9, place: "A's last entry, uncovered", damaged })
}

// b unequal to zero in the last uncovered row
fn uncovered_b(p: &Problem) -> Option<Fault<Problem>> {
    let mut damaged = p.clone();
    damaged.b[last_uncovered(p)?] = 1.0;
    Some(Fault { number: 9, place: "the last uncovered b", damaged })
}

// returns lengths of which the last that is not 0 is one less
fn one_short<const K: usize>(mut lengths: [usize; K]) -> [usize; K] {
    let last = lengths.iter().rposition(|&length| length > 0).expect("an output");
    lengths[last] -= 1;
    lengths
}

const SHORT: (u32, &str) = (11, "the last output, one short");

// ---- the calls

fn sizes(t: &mut Table, name: &str, route: Route, p: &Problem, faults: &[Fault<Problem>]) {
    let names = [name, &format!("{} sizes", route.name())];
    let (mut out, mut short) = ([0; 11], [0; 10]);
    t.lines(names, p, faults, &mut |p| door::sizes(route.code(), p, &mut out));
    let call = &mut || door::sizes(route.code(), p, &mut short);
    t.line(names, SHORT, call, &mut || door::sizes(route.code(), p, &mut out));
}

fn cut(t: &mut Table, name: &str, route: Route, p: &Problem, faults: &[Fault<Problem>]) {
    let names = [name, &format!("{} cut", route.name())];
    let lengths = expected::sizes(route, p, 11).expect("a problem that is cut");
    let (mut out, mut short) = (door::cut_outputs(&lengths), door::cut_outputs(&one_short(lengths)));
    t.lines(names, p, faults, &mut |p| door::cut(route.code(), p, &mut out));
    let call = &mut || door::cut(route.code(), p, &mut short);
    t.line(names, SHORT, call, &mut || door::cut(route.code(), p, &mut out));
}

fn between(t: &mut Table, name: &str, p: &Problem, faults: &[Fault<Problem>]) {
    let names = [name, "cut between limits"];
    let lengths = expected::sizes(Route::Compact, p, 11).expect("a problem that is cut");
    let mut out = door::cut_outputs(&lengths);
    let [mut b_high, mut short] = [lengths[7], lengths[7] - 1].map(door::values);
    t.lines(names, p, faults, &mut |damaged| added::cut_between(damaged, &damaged.b, &p.b, &mut out, &mut b_high));
    let last = p.b.len() - 1;
    let changed = |at: usize, value| {
        let mut b = p.b.clone();
        b[at] = value;
        b
    };
    let mut sides = vec![
        Fault {
            number: 16,
            place: "the last low above its high",
            damaged: [changed(last, p.b[last] + 1.0), p.b.clone()],
        },
        Fault { number: 16, place: "the last high a NaN", damaged: [p.b.clone(), changed(last, f64::NAN)] },
    ];
    if let Some(row) = last_uncovered(p) {
        let damaged = [p.b.clone(), changed(row, 1.0)];
        sides.push(Fault { number: 9, place: "the last uncovered high", damaged });
    }
    let right = [p.b.clone(), p.b.clone()];
    t.lines(names, &right, &sides, &mut |[low, high]| added::cut_between(p, low, high, &mut out, &mut b_high));
    let mut other = out.clone();
    let call = &mut || added::cut_between(p, &p.b, &p.b, &mut other, &mut short);
    t.line(names, SHORT, call, &mut || added::cut_between(p, &p.b, &p.b, &mut out, &mut b_high));
}

fn many(t: &mut Table, name: &str, p: &Problem) {
    const SIDES: u32 = 64;
    let names = [name, "cut of 64 sides"];
    let all = sides::with_b(p, &p.b.repeat(SIDES as usize));
    let mut lengths = expected::sizes(Route::Compact, p, 11).expect("a problem that is cut");
    lengths[7] *= SIDES as usize;
    let (mut out, mut short) = (door::cut_outputs(&lengths), door::cut_outputs(&one_short(lengths)));
    let mut damaged = faults(&all, |_| true);
    if let Some(row) = last_uncovered(p) {
        let mut uncovered = all.clone();
        uncovered.b[all.b.len() - p.m as usize + row] = 1.0;
        damaged.push(Fault { number: 9, place: "the last side's last uncovered b", damaged: uncovered });
    }
    t.lines(names, &all, &damaged, &mut |p| added::cut_many(SIDES, p, &mut out));
    let call = &mut || added::cut_many(SIDES, &all, &mut short);
    t.line(names, SHORT, call, &mut || added::cut_many(SIDES, &all, &mut out));
}

fn solution_faults(solution: &Solution) -> Vec<Fault<Solution>> {
    let mut out = vec![];
    let mut short = solution.clone();
    short.z.pop();
    out.push(Fault { number: 12, place: "z, one value short", damaged: short });
    let mut map = solution.clone();
    if let Some(last) = map.map.last_mut() {
        *last += 1;
        out.push(Fault { number: 12, place: "the map's last row count", damaged: map });
    }
    out
}

/// A joining or a change of route.
type Joining<'a> = &'a mut dyn FnMut(&JoinInput, &mut door::JoinOutputs) -> u32;

fn joining(t: &mut Table, names: [&str; 2], p: &Problem, solution: &Solution, lengths: [usize; 4], call: Joining) {
    let (mut out, mut short) = (door::join_outputs(&lengths), door::join_outputs(&one_short(lengths)));
    let damaged = faults(p, |c| c.in_layout);
    t.lines(names, p, &damaged, &mut |p| call(&join_input(p, solution), &mut out));
    t.lines(names, solution, &solution_faults(solution), &mut |s| call(&join_input(p, s), &mut out));
    let call = RefCell::new(call);
    let input = join_input(p, solution);
    let refused = &mut || call.borrow_mut()(&input, &mut short);
    t.line(names, SHORT, refused, &mut || call.borrow_mut()(&input, &mut out));
}

fn join(t: &mut Table, name: &str, route: Route, p: &Problem, solution: &Solution) {
    let names = [name, &format!("{} joining", route.name())];
    let lengths = [p.n as usize, p.m as usize, p.m as usize, 2];
    joining(t, names, p, solution, lengths, &mut |j, out| door::join(route.code(), j, out));
}

fn changed_route(t: &mut Table, name: &str, p: &Problem, solution: &Solution) {
    let lengths = change_route::lengths(&join_input(p, solution)).expect("a problem of both routes");
    joining(t, [name, "change of route"], p, solution, lengths, &mut added::change_route);
}

// returns the problem with another row for the last entry that is compared: P's, or A's if P has none
fn moved(p: &Problem) -> Problem {
    let mut out = p.clone();
    let (rows, count) = if p.p.rows.is_empty() { (&mut out.a.rows, p.m) } else { (&mut out.p.rows, p.n) };
    let last = *rows.last().expect("an entry");
    set_last(rows, if last + 1 < count { count - 1 } else { last - 1 });
    expected::first_seven(&out).expect("a problem");
    out
}

// Damage in the first problem is timed beside two equal problems, of which only one is checked; damage in the second beside two
// that differ in the place of an entry, of which both are checked.
fn same_layout(t: &mut Table, name: &str, p: &Problem) {
    let (mut out, mut none) = ([0], []);
    let damaged = faults(p, |_| true);
    let second = p.clone();
    t.lines([name, "same layout, the first"], p, &damaged, &mut |first| door::same_layout(first, &second, &mut out));
    let names = [name, "same layout, the second"];
    t.lines(names, &moved(p), &damaged, &mut |second| door::same_layout(p, second, &mut out));
    let call = &mut || door::same_layout(p, &second, &mut none);
    t.line(names, SHORT, call, &mut || door::same_layout(p, &second, &mut out));
}

// returns the problem with a column more
fn wider(p: &Problem) -> Problem {
    let mut out = p.clone();
    out.n += 1;
    out.q.push(0.0);
    for c in [&mut out.a, &mut out.p] {
        c.starts.push(c.rows.len() as u32);
    }
    out
}

// the problem pooled with itself, or as the second beside a pass without rows if the pool would exceed a bound
fn pooled(t: &mut Table, name: &str, p: &Problem) {
    let names = [name, "pooling"];
    let no_rows = speed::no_rows(p);
    let first = if pool::pool(p, p, None).is_ok() { p } else { &no_rows };
    let lengths = pool::lengths(&pool::pool(first, p, None).expect("a pool"));
    let (mut out, mut short) = (door::cut_outputs(&lengths), door::cut_outputs(&one_short(lengths)));
    let mut damaged = faults(p, |_| true);
    damaged.push(Fault { number: 17, place: "another n", damaged: wider(p) });
    t.lines(names, p, &damaged, &mut |second| added::pool(first, second, &mut out));
    let call = &mut || added::pool(first, p, &mut short);
    t.line(names, SHORT, call, &mut || added::pool(first, p, &mut out));
}

fn words_of(file: &[u8]) -> Vec<u32> {
    problem_file::file_words(file, None).expect("words")
}

// returns the file of a problem damaged in its header or its gaps, as words
fn file_faults(p: &Problem, file: &[u8]) -> Vec<Fault<Vec<u32>>> {
    let mut out = vec![];
    let mut length = words_of(file);
    length[19] += 1;
    out.push(Fault { number: 13, place: "the length in the header", damaged: length });
    let mut offset = words_of(file);
    offset[18] += 8;
    out.push(Fault { number: 14, place: "the last offset", damaged: offset });
    if let Some(gap) = last_gap(p) {
        let mut damaged = words_of(file);
        damaged[gap] = 1 << 31;
        out.push(Fault { number: 14, place: "the last gap", damaged });
    }
    out
}

// returns the word of the last gap between two tables of a problem's file
fn last_gap(p: &Problem) -> Option<usize> {
    let counts = problem_file::counts(p);
    let [apart, packed] = [8, 1].map(|step| problem_file::offsets(&counts, step).0);
    let gap = (1..11).rev().find(|&k| apart[k] - apart[k - 1] > packed[k] - packed[k - 1])?;
    Some(apart[gap] as usize / 4 - 1)
}

fn reading(t: &mut Table, name: &str, p: &Problem) {
    let names = [name, "reading a file"];
    let file = problem_file::laid_out(p, 8);
    let needed = files::needed(&problem_file::counts(p));
    let (mut out, mut short) = (files::outputs(needed), files::outputs(one_short(needed)));
    let right = words_of(&file);
    let mut damaged = file_faults(p, &file);
    // a file whose b is short has its tables elsewhere
    for fault in faults(p, |c| !c.place.starts_with('b')) {
        let words = words_of(&problem_file::laid_out(&fault.damaged, 8));
        damaged.push(Fault { number: fault.number, place: fault.place, damaged: words });
    }
    t.lines(names, &right, &damaged, &mut |words| files::read_file(words, 4 * words.len(), &mut out));
    let call = &mut || files::read_file(&right, file.len(), &mut short);
    t.line(names, SHORT, call, &mut || files::read_file(&right, file.len(), &mut out));
    let (mut words, mut fewer) = (right.clone(), right[1..].to_vec());
    let call = &mut || files::file_words(&file, &mut fewer);
    t.line([name, "words of a file"], SHORT, call, &mut || files::file_words(&file, &mut words));
}

fn writing(t: &mut Table, name: &str, p: &Problem) {
    let names = [name, "writing a file"];
    let right = files::tables(p);
    let length = problem_file::laid_out(p, 8).len();
    let (mut out, mut short) = (vec![0; length], vec![0; length - 1]);
    let damaged: Vec<Fault<files::Tables>> = faults(p, |_| true)
        .iter()
        .map(|f| Fault { number: f.number, place: f.place, damaged: files::tables(&f.damaged) })
        .collect();
    t.lines(names, &right, &damaged, &mut |tables| files::write_file(tables, &mut out));
    let call = &mut || files::write_file(&right, &mut short);
    t.line(names, SHORT, call, &mut || files::write_file(&right, &mut out));
}

fn renumbering(t: &mut Table, name: &str, words: &[u32]) {
    let names = [name, "renumbering"];
    let p = Problem { pattern_count: 1, pattern_words: words.to_vec(), ..Problem::default() };
    let (mut out, mut short) = (door::words(words.len()), door::words(words.len() - 1));
    let damaged = faults(&p, |c| c.number >= 5);
    t.lines(names, &p, &damaged, &mut |p| door::renumber(&p.pattern_words, &mut out));
    t.line(names, SHORT, &mut || door::renumber(words, &mut short), &mut || door::renumber(words, &mut out));
}

fn inverse(t: &mut Table, length: usize) {
    let names = [&format!("{length} numbers"), "inverse"];
    let p = Draws::new(7).permutation(length);
    let mut damaged = p.clone();
    set_last(&mut damaged, p[0]);
    let fault = Fault { number: 5, place: "the last number", damaged };
    let (mut out, mut short) = (door::words(length), door::words(length - 1));
    t.lines(names, &p, &[fault], &mut |p| door::inverse(p, &mut out));
    t.line(names, SHORT, &mut || door::inverse(&p, &mut short), &mut || door::inverse(&p, &mut out));
}

// ---- all of them

fn named(t: &mut Table, name: &str, p: &Problem) {
    for route in [Route::Compact, Route::Standard] {
        let mut damaged = faults(p, |_| true);
        if route == Route::Compact {
            damaged.extend(uncovered_entry(p));
            between(t, name, p, &damaged);
            damaged.extend(uncovered_b(p));
        }
        sizes(t, name, route, p, &damaged);
        cut(t, name, route, p, &damaged);
        let solution = plain_solution(&mut Draws::new(5), &expected::solution_shape(route, p).expect("a layout"));
        join(t, name, route, p, &solution);
        if route == Route::Standard {
            changed_route(t, name, p, &solution);
        }
    }
    many(t, name, p);
    same_layout(t, name, p);
    pooled(t, name, p);
    reading(t, name, p);
    writing(t, name, p);
}

// the named inputs, and those with entries of P
fn inputs() -> Vec<(String, Problem)> {
    let mut out = speed::named();
    out.extend(speed::large().into_iter().map(|(name, p)| (format!("{name}, P with 262,000 entries"), p)));
    out
}

// number 10: a problem with one row or one overlap too many, beside one at the bound
fn augmented_limits(t: &mut Table) {
    let mut all = random::at_limits();
    let mut found = |name: &str| {
        let at = all.iter().position(|(n, _)| n == name).expect("a problem at a bound");
        all.swap_remove(at).1
    };
    for (route, name) in [(Route::Standard, "standard rows 262144"), (Route::Compact, "overlaps 131072")] {
        let [right, damaged] = [0, 1].map(|over| found(&format!("{name}, {over} over")));
        at_limit(t, name, route, &right, damaged);
    }
}

fn at_limit(t: &mut Table, name: &str, route: Route, right: &Problem, damaged: Problem) {
    let fault = [Fault { number: 10, place: "one too many", damaged }];
    let r = route.name();
    let mut words = [0; 11];
    t.lines([name, &format!("{r} sizes")], right, &fault, &mut |p| door::sizes(route.code(), p, &mut words));
    let lengths = expected::sizes(route, right, 11).expect("a problem at the bound");
    let mut out = door::cut_outputs(&lengths);
    t.lines([name, &format!("{r} cut")], right, &fault, &mut |p| door::cut(route.code(), p, &mut out));
    let solution = plain_solution(&mut Draws::new(5), &expected::solution_shape(route, right).expect("a layout"));
    let mut joined = door::join_outputs(&[right.n as usize, right.m as usize, right.m as usize, 2]);
    t.lines([name, &format!("{r} joining")], right, &fault, &mut |p| {
        door::join(route.code(), &join_input(p, &solution), &mut joined)
    });
    if route == Route::Standard {
        return;
    }
    let mut b_high = door::values(lengths[7]);
    t.lines([name, "cut between limits"], right, &fault, &mut |p| {
        added::cut_between(p, &p.b, &p.b, &mut out, &mut b_high)
    });
    t.lines([name, "cut of one side"], right, &fault, &mut |p| added::cut_many(1, p, &mut out));
    let shape = expected::solution_shape(Route::Standard, right).expect("a layout");
    let solution = plain_solution(&mut Draws::new(5), &shape);
    let mut changed = door::join_outputs(&change_route::lengths(&join_input(right, &solution)).expect("both routes"));
    t.lines([name, "change of route"], right, &fault, &mut |p| {
        added::change_route(&join_input(p, &solution), &mut changed)
    });
}

// number 1 of the pool: one row, cone or entry too many, beside pools at the bound
fn pools_at_limits(t: &mut Table) {
    let all = random::pools_at_limits();
    let (refused, accepted): (Vec<_>, Vec<_>) = all.into_iter().partition(|(_, _, refused)| *refused);
    for ((name, pair, _), (_, right, _)) in refused.into_iter().zip(accepted) {
        let lengths = pool::lengths(&pool::pool(&right[0], &right[1], None).expect("a pool at the bound"));
        let mut out = door::cut_outputs(&lengths);
        let fault = [Fault { number: 1, place: "the pool", damaged: pair }];
        t.lines([&name, "pooling"], &right, &fault, &mut |[first, second]| added::pool(first, second, &mut out));
    }
}

/// Prints each refused call beside an accepted one. Returns whether a refused one took too long.
pub fn print() -> bool {
    if !door::LINKED {
        eprintln!("the door is not linked");
        return true;
    }
    println!("| input | call | number | place | refused | accepted | refused / accepted |");
    println!("|---|---|---|---|---|---|---|");
    let mut t = Table::default();
    for (name, p) in inputs() {
        named(&mut t, &name, &p);
    }
    augmented_limits(&mut t);
    pools_at_limits(&mut t);
    for (name, words) in speed::patterns() {
        renumbering(&mut t, &name, &words);
    }
    for length in speed::PERMUTATIONS {
        inverse(&mut t, length);
    }
    println!("\n{} refused calls, {} slower than the accepted one", t.lines, t.slow);
    t.slow > 0
}

#[cfg(test)]
mod tests {
    use super::*;

    #[test]
    fn quick_enough() {
        assert!(quick(0.15, 0.1) && quick(110.0, 100.0));
        assert!(!quick(0.17, 0.1) && !quick(110.1, 100.0));
        // other load in two rounds of three, then a refused call that is slower in each
        assert!(mostly_quick(&[vec![1.4, 0.7, 1.4], vec![1.5, 0.7, 0.7]]));
        assert!(!mostly_quick(&[vec![0.9, 1.8, 1.8], vec![0.7, 1.5, 1.4]]));
    }

    #[test]
    fn refused_with_their_numbers() {
        for (name, p) in inputs() {
            for fault in faults(&p, |_| true) {
                assert_eq!(expected::first_seven(&fault.damaged).err(), Some(fault.number), "{name}, {}", fault.place);
            }
            for fault in [uncovered_b(&p), uncovered_entry(&p)].into_iter().flatten() {
                assert_eq!(
                    expected::accepted(Route::Compact, &fault.damaged).err(),
                    Some(9),
                    "{name}, {}",
                    fault.place
                );
            }
            assert_eq!(expected::same_layout(&p, &moved(&p), 1), Ok(false), "{name}");
        }
    }

    #[test]
    fn gaps_and_lengths() {
        let p = &speed::named()[3].1;
        let file = problem_file::laid_out(p, 8);
        for fault in file_faults(p, &file) {
            let refusal = problem_file::read_words(&fault.damaged, file.len(), None).err();
            assert_eq!(refusal, Some(fault.number), "{}", fault.place);
        }
        assert_eq!(one_short([3, 2, 0]), [3, 1, 0]);
        assert_eq!(pool::pool(p, &wider(p), None).err(), Some(17));
    }
}
