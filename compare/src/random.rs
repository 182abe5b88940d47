//! Random problems and solutions from a seed: valid ones, and ones damaged in one or several places.

use crate::expected::{read_patterns, triangle, Clique, Pattern};
use crate::problem::*;

/// Draws by exclusive or with itself shifted left 13, right 7, left 17.
pub struct Draws(u64);

impl Draws {
    pub fn new(seed: u64) -> Draws {
        // spread similar seeds apart, and avoid 0
        let mut z = seed.wrapping_add(0x9e37_79b9_7f4a_7c15);
        z = (z ^ (z >> 30)).wrapping_mul(0xbf58_476d_1ce4_e5b9);
        z = (z ^ (z >> 27)).wrapping_mul(0x94d0_49bb_1331_11eb);
        Draws((z ^ (z >> 31)) | 1)
    }
    pub fn next(&mut self) -> u64 {
        self.0 ^= self.0 << 13;
        self.0 ^= self.0 >> 7;
        self.0 ^= self.0 << 17;
        self.0
    }
    /// Returns a number below `bound`, which is above 0.
    pub fn below(&mut self, bound: usize) -> usize {
        ((self.next() >> 11) % bound as u64) as usize
    }
    /// Returns true `percent` times in a hundred.
    pub fn chance(&mut self, percent: usize) -> bool {
        self.below(100) < percent
    }
    pub fn shuffle<T>(&mut self, xs: &mut [T]) {
        for i in (1..xs.len()).rev() {
            xs.swap(i, self.below(i + 1));
        }
    }
    pub fn permutation(&mut self, n: usize) -> Vec<u32> {
        let mut p: Vec<u32> = (0..n as u32).collect();
        self.shuffle(&mut p);
        p
    }
    fn pick<T: Copy>(&mut self, xs: &[T]) -> T {
        xs[self.below(xs.len())]
    }

    /// Returns any double: special ones, whole ones, and ones whose sums round.
    pub fn float(&mut self) -> f64 {
        match self.below(12) {
            0 => f64::from_bits(self.pick(&[
                0x8000_0000_0000_0000, // -0.0
                0,
                0x7ff0_0000_0000_0000, // infinities
                0xfff0_0000_0000_0000,
                0x7ff8_0000_0000_0000, // quiet, negative, payload and signalling NaN
                0xfff8_0000_0000_0001,
                0x7ff8_0000_dead_beef,
                0x7ff0_0000_0000_0001,
                1, // subnormals
                0x8000_0000_0000_0001,
                0x000f_ffff_ffff_ffff,
                0x0010_0000_0000_0000, // smallest normal, largest, 2^53
                0x7fef_ffff_ffff_ffff,
                0xffef_ffff_ffff_ffff,
                0x4340_0000_0000_0000,
            ])),
            1 => -0.0,
            2 => f64::from_bits(self.next()),
            3 => 0.1,
            4 => self.pick(&[1e16, -1e16, 1e300, -1e300, 1e-300]),
            5..=8 => self.below(19) as f64 - 9.0,
            _ => (self.next() as f64 / u64::MAX as f64 - 0.5) * 20.0,
        }
    }
    pub fn floats(&mut self, count: usize) -> Vec<f64> {
        // half of the time only ordinary ones, so that long sums stay finite
        let plain = self.chance(50);
        (0..count)
            .map(|_| loop {
                let v = self.float();
                if !plain || v.abs() < 1e17 {
                    return v;
                }
            })
            .collect()
    }
}

/// How large the problems are.
#[derive(Clone, Copy, Debug)]
pub struct Scale {
    pub columns: usize,
    pub cones: usize,
    pub psd: usize,
    pub size: usize,
}

pub const TINY: Scale = Scale { columns: 2, cones: 2, psd: 3, size: 2 };
pub const SMALL: Scale = Scale { columns: 4, cones: 5, psd: 7, size: 4 };
pub const LARGE: Scale = Scale { columns: 12, cones: 8, psd: 24, size: 9 };

/// Returns a clique tree over `vertices`, at least one: any sizes, any later parents, any subset of the parent's clique
/// as separator, members in any order, any ordering.
pub fn pattern(d: &mut Draws, orig_index: u32, vertices: usize) -> Pattern {
    let count = 1 + d.below(vertices);
    let numbers = d.permutation(vertices);
    // cut the shuffled vertices into `count` parts
    let mut cuts: Vec<usize> = d.permutation(vertices - 1).iter().take(count - 1).map(|&c| c as usize + 1).collect();
    cuts.sort();
    cuts.push(vertices);
    let mut first = 0;
    let mut cliques: Vec<Clique> = cuts
        .iter()
        .map(|&end| {
            let snode = numbers[first..end].to_vec();
            first = end;
            Clique { parent: NONE, snode, separator: vec![] }
        })
        .collect();
    let dense = d.pick(&[10, 50, 90, 100]);
    for c in (0..count - 1).rev() {
        let parent = c + 1 + d.below(count - 1 - c);
        let mut held: Vec<u32> = cliques[parent].snode.clone();
        held.extend(&cliques[parent].separator);
        d.shuffle(&mut held);
        held.retain(|_| d.chance(dense));
        cliques[c].parent = parent as u32;
        cliques[c].separator = held;
    }
    let ordering = if d.chance(20) { (0..vertices as u32).collect() } else { d.permutation(vertices) };
    Pattern { orig_index, vertices: vertices as u32, ordering, cliques }
}

fn columns(d: &mut Draws, n: usize, rows: &[u32], percent: usize) -> Columns {
    let mut c = Columns { starts: vec![0], ..Columns::default() };
    for _ in 0..n {
        for &r in rows {
            if d.chance(percent) {
                c.rows.push(r);
            }
        }
        c.starts.push(c.rows.len() as u32);
    }
    c.values = d.floats(c.rows.len());
    c
}

/// Returns a problem that document 01 accepts on the standard route, and mostly on the compact one.
pub fn problem(d: &mut Draws, scale: Scale) -> Problem {
    let mut p = Problem::default();
    let mut patterns = vec![];
    let mut m = 0u64;
    // rows that may have entries on the compact route
    let mut open: Vec<u32> = vec![];
    let count = if d.chance(3) { 0 } else { 1 + d.below(scale.cones) };
    for index in 0..count {
        let kind = if d.chance(50) { 6 } else { d.below(6) as u32 };
        let (mut first, mut second) = (0, 0);
        let rows = match kind {
            0..=2 => {
                first = d.below(scale.size + 1);
                first as u64
            }
            3 => 3,
            4 => {
                p.alphas.push(d.float());
                3
            }
            5 => {
                first = d.below(scale.size);
                second = d.below(scale.size);
                let values = d.floats(first);
                p.alphas.extend(values);
                (first + second) as u64
            }
            _ => {
                first = if d.chance(5) { 0 } else { 1 + d.below(scale.psd) };
                triangle(first as u64)
            }
        };
        p.cones.extend([kind, first as u32, second as u32]);
        let mut covered = vec![true; rows as usize];
        if kind == 6 && first > 0 && d.chance(80) {
            let made = pattern(d, index as u32, first);
            covered = made.covered();
            patterns.push(made);
        }
        open.extend((0..rows as usize).filter(|&r| covered[r]).map(|r| m as u32 + r as u32));
        m += rows;
    }
    let n = if d.chance(4) { 0 } else { 1 + d.below(scale.columns) };
    p.n = n as u32;
    p.m = m as u32;
    let everywhere = d.chance(4);
    let all: Vec<u32> = (0..p.m).collect();
    let percent = d.pick(&[0, 10, 30, 50, 50, 70, 90, 100, 100]);
    p.a = columns(d, n, if everywhere { &all } else { &open }, percent);
    p.b = vec![0.0; m as usize];
    let values = d.floats(m as usize);
    for &r in if everywhere { &all } else { &open } {
        if d.chance(75) {
            p.b[r as usize] = values[r as usize];
        }
    }
    for r in all {
        // zeros of either sign are allowed everywhere
        if p.b[r as usize] == 0.0 && d.chance(30) {
            p.b[r as usize] = -0.0;
        }
    }
    let all_columns: Vec<u32> = (0..p.n).collect();
    let percent = d.pick(&[0, 20, 60]);
    p.p = columns(d, n, &all_columns, percent);
    p.q = d.floats(n);
    p.pattern_count = patterns.len() as u32;
    p.pattern_words = patterns.iter().flat_map(|p| p.words()).collect();
    p
}

/// Removes the problem's columns, so that n is 0.
pub fn no_columns(p: &mut Problem) {
    p.n = 0;
    p.q.clear();
    p.a = Columns { starts: vec![0], ..Columns::default() };
    p.p = p.a.clone();
}

/// Repeats entries of A as an exporter does for markers that several cameras see: some entries are followed by one to
/// three more in their row, with values of their own.
pub fn repeat_entries(d: &mut Draws, p: &mut Problem) {
    let entries = p.a.rows.len().min(p.a.values.len()) as u32;
    if p.a.starts.windows(2).any(|w| w[0] > w[1] || w[1] > entries) {
        return;
    }
    let percent = d.pick(&[10, 40, 100]);
    let mut a = Columns { starts: vec![0], ..Columns::default() };
    for w in p.a.starts.windows(2) {
        for k in w[0] as usize..w[1] as usize {
            let more = if d.chance(percent) { 1 + d.below(3).saturating_sub(d.below(2)) } else { 0 };
            a.rows.extend(std::iter::repeat_n(p.a.rows[k], 1 + more));
            a.values.push(p.a.values[k]);
            // values for which the order of summation matters, or any values
            let order = d.chance(50);
            a.values
                .extend((0..more).map(|_| if order { d.pick(&[1e16, 1.0, -1e16, -p.a.values[k]]) } else { d.float() }));
        }
        a.starts.push(a.rows.len() as u32);
    }
    p.a = a;
}

// moves an entry to the row above or below it, or to a neighbouring column, or removes the last one
fn change_places(d: &mut Draws, c: &mut Columns) {
    if c.rows.is_empty() {
        return;
    }
    let at = d.below(c.rows.len());
    match d.below(4) {
        0 => c.rows[at] = c.rows[at].wrapping_sub(1),
        1 => c.rows[at] = c.rows[at].wrapping_add(1),
        2 if c.starts.len() > 2 => {
            let column = 1 + d.below(c.starts.len() - 2);
            c.starts[column] = if d.chance(50) { c.starts[column].wrapping_sub(1) } else { c.starts[column] + 1 };
        }
        _ => {
            c.rows.pop();
            c.values.pop();
            let entries = c.values.len() as u32;
            c.starts.iter_mut().for_each(|start| *start = (*start).min(entries));
        }
    }
}

/// Makes `second` the same problem as `first` except for one table, which decides whether they have the same
/// layout: an exponent in both, places or values of A or P, q or b.
pub fn nearly_same(d: &mut Draws, first: &mut Problem, second: &mut Problem) {
    *second = first.clone();
    match d.below(8) {
        0..=2 if !first.alphas.is_empty() => {
            let at = d.below(first.alphas.len());
            let pairs = [(0.0, -0.0), (0.0, 0.0), (f64::NAN, -f64::NAN), (f64::NAN, 0.5), (0.5, 0.5f64.next_up())];
            let pair = d.pick(&pairs);
            (first.alphas[at], second.alphas[at]) = if d.chance(50) { pair } else { (pair.1, pair.0) };
        }
        0..=3 => change_places(d, &mut second.a),
        4..=5 => change_places(d, &mut second.p),
        _ => {
            let tables = [&mut second.a.values, &mut second.p.values, &mut second.q, &mut second.b];
            tables.into_iter().for_each(|values| values.iter_mut().for_each(|v| *v = 0.0));
        }
    }
}

/// Returns low and high limits around the values of b, as a survey sheet gives them, now and then damaged.
pub fn limits(d: &mut Draws, p: &Problem) -> [Vec<f64>; 2] {
    let spread_zeros = d.pick(&[0, 0, 5, 50]);
    let [mut low, mut high] = [(); 2].map(|()| vec![]);
    for &v in &p.b {
        let v = if v.is_nan() && d.chance(95) { 2.0 } else { v };
        let pair = match d.below(6) {
            // zeros of either sign are the same number
            _ if v == 0.0 && !d.chance(spread_zeros) => (d.pick(&[0.0, -0.0]), d.pick(&[0.0, -0.0])),
            0 => (v, v),
            1 => (f64::NEG_INFINITY, v),
            2 => (v, f64::INFINITY),
            3 => (v, v.next_up()),
            _ => (v - d.below(9) as f64 / 3.0, v + d.below(9) as f64 / 3.0),
        };
        low.push(pair.0);
        high.push(pair.1);
    }
    if d.chance(10) && !low.is_empty() {
        let at = d.below(low.len());
        match d.below(5) {
            0 => low[at] = f64::NAN,
            1 => high[at] = f64::NAN,
            2 => (low[at], high[at]) = (f64::NAN, f64::NAN),
            3 => std::mem::swap(&mut low[at], &mut high[at]),
            _ => low[at] = high[at].next_up(),
        }
    }
    if d.chance(5) {
        let side = if d.chance(50) { &mut low } else { &mut high };
        resize(d, side, 0.0);
    }
    [low, high]
}

/// Returns the number of right sides, and all of them: b, and others with values where b has some; now and then damaged.
pub fn sides(d: &mut Draws, p: &Problem) -> (u32, Vec<f64>) {
    let count = match d.below(20) {
        0 => d.pick(&[0, 64, 65, 66, NONE]),
        1 => 1 + d.below(64) as u32,
        _ => 1 + d.below(5) as u32,
    };
    let spread_zeros = d.pick(&[0, 0, 0, 1, 20]);
    let mut b = p.b.clone();
    for _ in 1..count.clamp(1, 66) {
        for &v in &p.b {
            let zero = v == 0.0 && !d.chance(spread_zeros);
            b.push(if zero { d.pick(&[0.0, -0.0]) } else { d.float() });
        }
    }
    if d.chance(5) {
        resize(d, &mut b, 0.0);
    }
    (count, b)
}

/// Returns a second pass over the same dome as `first`: another problem, mostly with as many columns; now and then
/// damaged.
pub fn second_pass(d: &mut Draws, first: &Problem, scale: Scale) -> Problem {
    let mut p = problem(d, scale);
    if d.chance(30) {
        repeat_entries(d, &mut p);
    }
    let n = first.n as usize;
    if n < 100 && p.n as usize != n && d.chance(90) {
        // further columns are empty
        p.a.starts.resize(n + 1, p.a.rows.len() as u32);
        let entries = p.a.starts[n] as usize;
        p.a.rows.truncate(entries);
        p.a.values.truncate(entries);
        p.p = Columns { starts: vec![0; n + 1], ..Columns::default() };
        (p.n, p.q) = (first.n, vec![0.5; n]);
    }
    if d.chance(15) {
        let check = 1 + d.below(9);
        damage(d, &mut p, check);
    }
    p
}

/// Returns pairs of passes whose pool is at a bound of check 1 or above it, and whether the pool is refused: at the bound first, then above
/// it in the same order. Equal passes are checked once, so there are both equal and unequal ones on either side.
pub fn pools_at_limits() -> Vec<(String, [Problem; 2], bool)> {
    let pass = |rows: u32, cones: Vec<u32>, entries: u32| Problem {
        n: 1,
        m: rows,
        p: Columns { starts: vec![0, 0], ..Columns::default() },
        q: vec![0.0],
        a: Columns {
            starts: vec![0, entries],
            rows: vec![0; entries as usize],
            values: (0..entries).map(f64::from).collect(),
        },
        b: vec![0.0; rows as usize],
        cones,
        ..Problem::default()
    };
    let mut out = vec![];
    for (over, equal) in [(0, true), (0, false), (1, true), (1, false)] {
        let sizes = |half: u32| if equal { [half + over; 2] } else { [half - 1 + over, half + 1] };
        let passes = ["unequal", "equal"][equal as usize];
        let name = |bound: &str| format!("{bound}, {} it, {passes} passes", ["at", "above"][over as usize]);
        let tall = sizes(32_768).map(|rows| pass(rows, vec![1, rows, 0], 0));
        out.push((name("rows 65536"), tall, over > 0));
        let many = sizes(512).map(|count| pass(0, vec![0; 3 * count as usize], 0));
        out.push((name("cones 1024"), many, over > 0));
        let full = sizes(131_072).map(|entries| pass(1, vec![1, 1, 0], entries));
        out.push((name("entries 262144"), full, over > 0));
    }
    out
}

/// Returns a solution with the lengths that the problem requires.
pub fn solution(d: &mut Draws, shape: &(usize, usize, Vec<u32>)) -> Solution {
    Solution {
        x: d.floats(shape.0),
        s: d.floats(shape.1),
        z: d.floats(shape.1),
        tau: d.float(),
        kappa: d.float(),
        map: shape.2.clone(),
    }
}

fn resize<T: Clone>(d: &mut Draws, xs: &mut Vec<T>, fill: T) {
    if xs.is_empty() || d.chance(50) {
        xs.push(fill);
    } else {
        xs.pop();
    }
}

fn any_word(d: &mut Draws, near: u32) -> u32 {
    match d.below(8) {
        0 => NONE,
        1 => near.wrapping_add(1),
        2 => near.wrapping_sub(1),
        3 => 0x8000_0000,
        4 => d.next() as u32,
        5 => 65_537,
        _ => d.below(8) as u32,
    }
}

fn change_word(d: &mut Draws, xs: &mut [u32]) {
    if !xs.is_empty() {
        let at = d.below(xs.len());
        xs[at] = any_word(d, xs[at]);
    }
}

/// Adds one fault aimed at a check, though an earlier check may find it first.
pub fn damage(d: &mut Draws, p: &mut Problem, check: usize) {
    match check {
        1 => match d.below(7) {
            0 => p.n = 65_537 + d.below(3) as u32,
            1 => p.m = d.pick(&[65_537, NONE]),
            2 => {
                let cones = p.cones.len() / 3;
                for _ in cones..1024 + d.below(3) {
                    p.cones.extend([0, 0, 0]);
                }
            }
            3 => p.cones.extend([d.pick(&[0, 1, 3, 5, 6, 7, NONE]), 65_537, 0]),
            4 => p.cones.extend([d.pick(&[0, 2, 4, 5, 6, 9]), 0, d.pick(&[65_537, NONE])]),
            5 => p.cones.extend([6, d.pick(&[256, 257, 65_536]), 0]),
            _ => p.n = d.pick(&[65_536, NONE]),
        },
        2 => {
            let c = if d.chance(70) { &mut p.a } else { &mut p.p };
            match d.below(7) {
                0 => resize(d, &mut c.starts, 0),
                1 => c.starts.clear(),
                2 => {
                    if let Some(first) = c.starts.first_mut() {
                        *first = 1
                    }
                }
                3 => resize(d, &mut c.rows, 0),
                4 => resize(d, &mut c.values, 1.0),
                5 => {
                    if let Some(last) = c.starts.last_mut() {
                        *last = last.wrapping_add(d.pick(&[1, NONE]))
                    }
                }
                _ => change_word(d, &mut c.starts),
            }
        }
        3 => {
            let c = if d.chance(70) { &mut p.a } else { &mut p.p };
            match d.below(4) {
                0 if c.rows.len() > 1 => {
                    let at = d.below(c.rows.len() - 1);
                    c.rows.swap(at, at + 1);
                }
                1 if c.rows.len() > 1 => {
                    let at = d.below(c.rows.len() - 1);
                    c.rows[at + 1] = c.rows[at];
                }
                2 => {
                    if let Some(last) = c.rows.last_mut() {
                        *last = d.pick(&[p.m, p.n, NONE])
                    }
                }
                _ => change_word(d, &mut c.rows),
            }
        }
        4 => match d.below(8) {
            0 => p.cones.extend([d.pick(&[7, 8, NONE]), 0, 0]),
            1 => {
                p.cones.pop();
            }
            2 => p.cones.push(d.pick(&[0, 6, NONE])),
            3 => p.m = if d.chance(50) { p.m.wrapping_add(1) } else { p.m.saturating_sub(1) },
            4 => resize(d, &mut p.alphas, 0.5),
            5 => resize(d, &mut p.q, 0.0),
            6 => resize(d, &mut p.b, 0.0),
            _ => change_word(d, &mut p.cones),
        },
        5..=7 => damage_patterns(d, p, check),
        // no fault: number 8 is never returned
        8 => no_columns(p),
        9 => {
            // an entry or a value of b in an uncovered row if there is one, otherwise in any row
            if p.m > 0 {
                let open: Vec<u32> = crate::expected::accepted(Route::Standard, p)
                    .map(|l| l.uncovered().iter().map(|&r| r as u32).collect())
                    .unwrap_or_default();
                let row = if open.is_empty() { d.below(p.m as usize) as u32 } else { d.pick(&open) };
                if d.chance(50) && (row as usize) < p.b.len() {
                    p.b[row as usize] = d.pick(&[1.0, f64::NAN, 5e-324, -0.0, f64::NEG_INFINITY]);
                } else if p.a.starts.len() > 1 {
                    insert_entry(p, row, d.pick(&[0.0, -0.0, 1.0]));
                }
            }
        }
        _ => {
            // long bands of cliques, with about as many rows or overlaps as check 10 accepts
            let w = 40 + d.below(100);
            let band = band_pattern(p.cones.len() as u32 / 3, 256, w);
            p.cones.extend([6, 256, 0]);
            p.m = p.m.wrapping_add(32_896);
            p.b.extend(vec![0.0; 32_896]);
            p.pattern_words.extend(band.words());
            p.pattern_count = p.pattern_count.wrapping_add(1);
        }
    }
}

/// Returns the band pattern: clique c has snode {c} and separator {c+1 to c+w}; the last has the other w + 1 vertices.
pub fn band_pattern(orig_index: u32, v: u32, w: usize) -> Pattern {
    let w = w as u32;
    let mut cliques: Vec<Clique> = (0..v - w - 1)
        .map(|c| Clique { parent: c + 1, snode: vec![c], separator: (c + 1..=c + w).collect() })
        .collect();
    cliques.push(Clique { parent: NONE, snode: (v - w - 1..v).collect(), separator: vec![] });
    Pattern { orig_index, vertices: v, ordering: (0..v).collect(), cliques }
}

// inserts an entry in this row into the first column that lacks one, in order
fn insert_entry(p: &mut Problem, row: u32, value: f64) {
    for c in 0..p.a.starts.len() - 1 {
        let (first, last) = (p.a.starts[c] as usize, p.a.starts[c + 1] as usize);
        if first > last || last > p.a.rows.len() || p.a.rows.len() != p.a.values.len() {
            return;
        }
        let place = first + p.a.rows[first..last].iter().take_while(|&&r| r < row).count();
        if place < last && p.a.rows[place] == row {
            continue;
        }
        p.a.rows.insert(place, row);
        p.a.values.insert(place, value);
        p.a.starts[c + 1..].iter_mut().for_each(|s| *s = s.wrapping_add(1));
        return;
    }
}

fn damage_patterns(d: &mut Draws, p: &mut Problem, check: usize) {
    let read = read_patterns(p.pattern_count, &p.pattern_words);
    let Some(mut patterns) = read.filter(|ps| !ps.is_empty()) else {
        // nothing to damage: adds words without a pattern, or a count without words
        match d.below(2) {
            0 => p.pattern_words.push(any_word(d, 0)),
            _ => p.pattern_count = p.pattern_count.wrapping_add(d.pick(&[1, NONE])),
        }
        return;
    };
    if check == 5 && d.chance(30) {
        match d.below(4) {
            0 => resize(d, &mut p.pattern_words, 0),
            1 => p.pattern_count = any_word(d, p.pattern_count),
            _ => change_word(d, &mut p.pattern_words),
        }
        return;
    }
    let k = d.below(patterns.len());
    damage_pattern(d, &mut patterns, k, check);
    p.pattern_count = patterns.len() as u32;
    p.pattern_words = patterns.iter().flat_map(|p| p.words()).collect();
}

fn damage_pattern(d: &mut Draws, patterns: &mut Vec<Pattern>, k: usize, check: usize) {
    let count = patterns[k].cliques.len();
    match check {
        5 => match d.below(7) {
            0 => patterns[k].orig_index = any_word(d, patterns[k].orig_index),
            1 => patterns[k].vertices = any_word(d, patterns[k].vertices),
            2 => change_word(d, &mut patterns[k].ordering),
            3 if patterns[k].ordering.len() > 1 => {
                let (first, at) = (patterns[k].ordering[0], d.below(patterns[k].ordering.len()));
                patterns[k].ordering[at] = first;
            }
            4 => {
                let twice = patterns[k].clone();
                patterns.push(twice);
            }
            5 => patterns.reverse(),
            _ => {
                // one vertex more, consistent in itself
                let v = patterns[k].vertices;
                patterns[k].vertices = v.wrapping_add(1);
                patterns[k].ordering.push(v);
                if let Some(last) = patterns[k].cliques.last_mut() {
                    last.snode.push(v);
                }
            }
        },
        6 => {
            if count == 0 {
                return;
            }
            let c = d.below(count);
            match d.below(5) {
                0 => patterns[k].cliques.clear(),
                1 => patterns[k].cliques[c].parent = any_word(d, c as u32),
                2 => patterns[k].cliques[c].parent = d.pick(&[c as u32, NONE, count as u32, 0]),
                3 => patterns[k].cliques[count - 1].parent = d.pick(&[0, count as u32 - 1, count as u32]),
                _ => patterns[k].cliques[count - 1].separator.push(0),
            }
        }
        _ => {
            if count == 0 {
                return;
            }
            let c = d.below(count);
            let v = patterns[k].vertices;
            let clique = &mut patterns[k].cliques[c];
            match d.below(8) {
                0 => {
                    // a snode moved into another
                    let moved = std::mem::take(&mut clique.snode);
                    let other = d.below(count);
                    patterns[k].cliques[other].snode.extend(moved);
                }
                1 => change_word(d, &mut clique.snode),
                2 => {
                    clique.snode.pop();
                }
                3 => clique.snode.push(d.below(v as usize + 1) as u32),
                4 if c + 1 < count => clique.separator.push(d.below(v as usize + 1) as u32),
                5 if c + 1 < count => change_word(d, &mut clique.separator),
                6 if !clique.separator.is_empty() => {
                    let twice = clique.separator[0];
                    clique.separator.push(twice);
                }
                _ => clique.snode.push(any_word(d, v)),
            }
        }
    }
}

/// Adds one fault to a solution's lengths or to its cone map.
pub fn damage_solution(d: &mut Draws, solution: &mut Solution) {
    match d.below(7) {
        0 => solution.x.push(0.0),
        1 => {
            solution.x.pop();
        }
        2 => solution.s.push(0.0),
        3 => {
            solution.z.pop();
        }
        4 => solution.map.push(0),
        // entries without first row and row count
        5 => {
            solution.map =
                solution.map.chunks(MAP_WORDS).flat_map(|entry| &entry[..entry.len().min(3)]).copied().collect()
        }
        _ => {
            if !solution.map.is_empty() {
                let at = d.below(solution.map.len());
                solution.map[at] = solution.map[at].wrapping_add(1 + d.below(2) as u32);
            }
        }
    }
}

/// Returns problems at each bound of checks 1 and 10, on both sides of it.
pub fn at_limits() -> Vec<(String, Problem)> {
    let empty = |n: u32| Columns { starts: vec![0; n as usize + 1], ..Columns::default() };
    let with = |n: u32, cones: Vec<u32>, patterns: Vec<Pattern>| {
        let m: u64 = crate::expected::records(&cones).iter().map(|c| c.rows()).sum();
        // an entry in row 0, which is diagonal and so covered: clarabel panics on the compact route if A has none
        let mut a = empty(n);
        if n > 0 && m > 0 {
            a.starts[1..].fill(1);
            a.rows.push(0);
            a.values.push(7.0);
        }
        Problem {
            n,
            m: m as u32,
            p: empty(n),
            q: vec![0.0; n as usize],
            a,
            b: vec![0.0; m as usize],
            cones,
            alphas: vec![],
            pattern_count: patterns.len() as u32,
            pattern_words: patterns.iter().flat_map(|p| p.words()).collect(),
        }
    };
    let mut out: Vec<(String, Problem)> = vec![];
    for n in [65_536, 65_537] {
        out.push((format!("n {n}"), with(n, vec![1, 1, 0], vec![])));
    }
    for m in [65_536, 65_537] {
        out.push((format!("m {m}"), with(1, vec![1, 65_535, 0, 1, m - 65_535, 0], vec![])));
        out.push((format!("size {m}"), with(1, vec![5, 0, m], vec![])));
    }
    for count in [1_024, 1_025] {
        let mut cones = vec![0; 3 * count];
        out.push((format!("cones {count}"), with(1, cones.clone(), vec![])));
        let mut part = with(1, cones.clone(), vec![]);
        part.cones.push(0);
        out.push((format!("cones {count} and a part"), part));
        cones[0] = 9;
        let mut unknown = with(1, cones, vec![]);
        unknown.m = 0;
        out.push((format!("cones {count}, one unknown"), unknown));
    }
    for size in [256, 257] {
        out.push((format!("psd {size}"), with(1, vec![6, size, 0], vec![])));
        let mut second = with(1, vec![6, 1, 0], vec![]);
        second.cones[2] = size;
        out.push((format!("psd second {size}"), second));
    }
    for entries in [262_144u32, 262_145] {
        for in_p in [false, true] {
            let mut p = with(512, vec![1, 513, 0], vec![]);
            let mut c = Columns { starts: vec![0], ..Columns::default() };
            for column in 0..512 {
                let rows = if column == 511 && entries > 262_144 { 513 } else { 512 };
                c.rows.extend(0..rows);
                c.starts.push(c.rows.len() as u32);
            }
            c.values = (0..c.rows.len()).map(|i| i as f64).collect();
            *(if in_p { &mut p.p } else { &mut p.a }) = c;
            out.push((format!("entries {entries} of {}", if in_p { "P" } else { "A" }), p));
        }
    }
    // a column with as many entries as the bound allows, all in one row of a cone that is cut or not
    for entries in [262_144, 262_145] {
        for patterns in [vec![], vec![band_pattern(0, 2, 0)]] {
            let cut = if patterns.is_empty() { "" } else { ", cut" };
            let mut p = with(1, vec![6, 2, 0], patterns);
            p.a.starts[1] = entries;
            p.a.rows = vec![0; entries as usize];
            p.a.values = (0..entries).map(|i| i as f64 / 3.0).collect();
            out.push((format!("entries {entries} in one row{cut}"), p));
        }
    }
    // The standard route's rows at their bound: a band, filled up by a nonnegative cone whose rows count twice, and
    // for the odd one PSD 2 as a clique over another, which has 3 rows of m and 4 of blocks. The compact route's
    // rows cannot exceed their bound before its overlaps do: m and the overlaps come to 196,608 at most.
    for (over, fill, odd) in [(0, 21_636, false), (1, 21_633, true)] {
        let mut cones = vec![6, 256, 0, 1, fill, 0];
        let mut patterns = vec![band_pattern(0, 256, 40)];
        if odd {
            cones.extend([6, 2, 0]);
            let cliques = vec![
                Clique { parent: 1, snode: vec![0], separator: vec![1] },
                Clique { parent: NONE, snode: vec![1], separator: vec![] },
            ];
            patterns.push(Pattern { orig_index: 2, vertices: 2, ordering: vec![0, 1], cliques });
        }
        out.push((format!("standard rows 262144, {over} over"), with(1, cones, patterns)));
    }
    // overlaps at their bound, from stars of leaves that share one separator
    for over in [0u64, 1] {
        let mut want = 131_072 + over;
        let mut cones = vec![];
        let mut patterns = vec![];
        for size in [200u32, 150, 40, 30, 20, 10, 10, 10, 10, 10, 10, 10, 10] {
            // the separator size whose leaves come closest to the wanted number
            let s = (1..size as u64 - 1)
                .filter(|&s| triangle(s) <= want)
                .max_by_key(|&s| (triangle(s) * (size as u64 - s)).min(want / triangle(s) * triangle(s)));
            let Some(s) = s else { continue };
            let leaves = (want / triangle(s)).min(size as u64 - s);
            let root: Vec<u32> = (leaves as u32..size).collect();
            let mut cliques: Vec<Clique> = (0..leaves as u32)
                .map(|v| Clique { parent: leaves as u32, snode: vec![v], separator: root[..s as usize].to_vec() })
                .collect();
            cliques.push(Clique { parent: NONE, snode: root, separator: vec![] });
            want -= leaves * triangle(s);
            patterns.push(Pattern {
                orig_index: cones.len() as u32 / 3,
                vertices: size,
                ordering: (0..size).rev().collect(),
                cliques,
            });
            cones.extend([6, size, 0]);
            if want == 0 {
                break;
            }
        }
        assert_eq!(want, 0);
        for n in [1, 0] {
            let columns = if n == 0 { ", no columns" } else { "" };
            out.push((format!("overlaps 131072, {over} over{columns}"), with(n, cones.clone(), patterns.clone())));
        }
    }
    out
}
