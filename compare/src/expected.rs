//! A plain reading of document 01, with the requests of document 02: what each call returns, refusals included. Written from
//! the documents alone, for clarity and not for speed. A result is `Ok`, a refusal number is `Err`.

use crate::problem::*;

// ---- scalarmath.rs: the packed upper triangle, column by column

pub fn triangle(k: u64) -> u64 {
    k * (k + 1) / 2
}

fn index_of(i: u64, j: u64) -> u64 {
    let (row, column) = (i.min(j), i.max(j));
    triangle(column) + row
}

pub fn pair_index(i: u32, j: u32, room: usize) -> Result<u32, u32> {
    if i > 255 || j > 255 {
        return Err(1);
    }
    if room < 1 {
        return Err(11);
    }
    Ok(index_of(i as u64, j as u64) as u32)
}

pub fn pair_back(index: u32, room: usize) -> Result<(u32, u32), u32> {
    if index > 32_895 {
        return Err(1);
    }
    if room < 2 {
        return Err(11);
    }
    let column = (0..256).take_while(|&j| triangle(j) <= index as u64).last().unwrap();
    Ok(((index as u64 - triangle(column)) as u32, column as u32))
}

// ---- utils.rs

// returns whether each number below the length occurs exactly once
fn is_permutation(p: &[u32]) -> bool {
    let mut seen = vec![false; p.len()];
    p.iter().all(|&x| {
        let fresh = (x as usize) < p.len() && !seen[x as usize];
        if fresh {
            seen[x as usize] = true;
        }
        fresh
    })
}

pub fn inverse(p: &[u32], room: usize) -> Result<Vec<u32>, u32> {
    if !is_permutation(p) {
        return Err(5);
    }
    if room < p.len() {
        return Err(11);
    }
    let mut out = vec![0; p.len()];
    for (place, &x) in p.iter().enumerate() {
        out[x as usize] = place as u32;
    }
    Ok(out)
}

// ---- cone records

#[derive(Clone, Copy, Debug)]
pub struct Cone {
    pub kind: u32,
    pub first: u32,
    pub second: u32,
}

impl Cone {
    fn reads(&self) -> bool {
        match self.kind {
            0..=2 | 6 => self.second == 0,
            3 | 4 => self.first == 0 && self.second == 0,
            5 => true,
            _ => false,
        }
    }
    pub fn rows(&self) -> u64 {
        match self.kind {
            0..=2 => self.first as u64,
            3 | 4 => 3,
            5 => self.first as u64 + self.second as u64,
            _ => triangle(self.first as u64),
        }
    }
    fn alphas(&self) -> u64 {
        match self.kind {
            4 => 1,
            5 => self.first as u64,
            _ => 0,
        }
    }
}

// returns the complete records; an incomplete one at the end is left out
pub fn records(words: &[u32]) -> Vec<Cone> {
    words.chunks_exact(3).map(|w| Cone { kind: w[0], first: w[1], second: w[2] }).collect()
}

// ---- patterns

#[derive(Clone, Debug)]
pub struct Clique {
    pub parent: u32,
    pub snode: Vec<u32>,
    pub separator: Vec<u32>,
}

impl Clique {
    fn members(&self) -> impl Iterator<Item = u32> + '_ {
        self.snode.iter().chain(&self.separator).copied()
    }
    pub fn size(&self) -> u64 {
        (self.snode.len() + self.separator.len()) as u64
    }
}

#[derive(Clone, Debug)]
pub struct Pattern {
    pub orig_index: u32,
    pub vertices: u32,
    pub ordering: Vec<u32>,
    pub cliques: Vec<Clique>,
}

impl Pattern {
    // returns a clique's original vertices, sorted
    pub fn block(&self, c: usize) -> Vec<u32> {
        let mut vs: Vec<u32> = self.cliques[c].members().map(|v| self.ordering[v as usize]).collect();
        vs.sort();
        vs
    }

    // returns which rows of its cone the cliques cover
    pub fn covered(&self) -> Vec<bool> {
        let mut covered = vec![false; triangle(self.vertices as u64) as usize];
        for c in 0..self.cliques.len() {
            let block = self.block(c);
            for (j, &column) in block.iter().enumerate() {
                for &row in &block[..=j] {
                    covered[(triangle(column as u64) + row as u64) as usize] = true;
                }
            }
        }
        covered
    }

    pub fn words(&self) -> Vec<u32> {
        let mut w = vec![self.orig_index, self.vertices, self.cliques.len() as u32];
        w.extend(&self.ordering);
        for c in &self.cliques {
            w.extend([c.parent, c.snode.len() as u32, c.separator.len() as u32]);
            w.extend(c.members());
        }
        w
    }
}

// takes the next `count` words, or returns none if they end early
fn taken(words: &mut &[u32], count: u32) -> Option<Vec<u32>> {
    if words.len() < count as usize {
        return None;
    }
    let (first, rest) = words.split_at(count as usize);
    *words = rest;
    Some(first.to_vec())
}

fn read_pattern(words: &mut &[u32]) -> Option<Pattern> {
    let head = taken(words, 3)?;
    let ordering = taken(words, head[1])?;
    let mut cliques = vec![];
    for _ in 0..head[2] {
        let counts = taken(words, 3)?;
        let snode = taken(words, counts[1])?;
        let separator = taken(words, counts[2])?;
        cliques.push(Clique { parent: counts[0], snode, separator });
    }
    Some(Pattern { orig_index: head[0], vertices: head[1], ordering, cliques })
}

/// Returns the patterns, if the words end neither early nor late.
pub fn read_patterns(count: u32, words: &[u32]) -> Option<Vec<Pattern>> {
    let mut rest = words;
    let mut out = vec![];
    for _ in 0..count {
        out.push(read_pattern(&mut rest)?);
    }
    rest.is_empty().then_some(out)
}

// ---- checks 1 to 7

fn bounded(n: u32, m: u32, cones: &[u32]) -> bool {
    let cones = records(cones);
    n <= 65_536
        && m <= 65_536
        && cones.len() <= 1_024
        && cones.iter().all(|c| c.first <= 65_536 && c.second <= 65_536 && !(c.kind == 6 && c.first > 256))
}

fn starts_right(n: u32, c: &Columns) -> bool {
    c.starts.len() as u64 == n as u64 + 1
        && c.starts[0] == 0
        && c.starts.windows(2).all(|w| w[0] <= w[1])
        && *c.starts.last().unwrap() as usize == c.values.len()
        && c.rows.len() == c.values.len()
}

// iterates over the rows of each column of a matrix whose starts are right
fn column_rows(c: &Columns) -> impl Iterator<Item = &[u32]> {
    c.starts.windows(2).map(|w| &c.rows[w[0] as usize..w[1] as usize])
}

// returns whether rows are in range and neighbours in a column are in order
fn rows_right(m: u32, c: &Columns, in_order: fn(u32, u32) -> bool) -> bool {
    column_rows(c).all(|rows| rows.iter().all(|&r| r < m) && rows.windows(2).all(|r| in_order(r[0], r[1])))
}

fn cones_read(m: u32, words: &[u32]) -> bool {
    words.len().is_multiple_of(3)
        && records(words).iter().all(Cone::reads)
        && records(words).iter().map(Cone::rows).sum::<u64>() == m as u64
}

fn check5(cones: &[u32], count: u32, words: &[u32]) -> Result<Vec<Pattern>, u32> {
    let cones = records(cones);
    let patterns = read_patterns(count, words).ok_or(5u32)?;
    let rise = patterns.windows(2).all(|w| w[0].orig_index < w[1].orig_index);
    let fit = patterns.iter().all(|p| {
        cones.get(p.orig_index as usize).is_some_and(|c| c.kind == 6 && c.first == p.vertices)
            && is_permutation(&p.ordering)
    });
    if rise && fit {
        Ok(patterns)
    } else {
        Err(5)
    }
}

fn check6(p: &Pattern) -> bool {
    let count = p.cliques.len();
    count > 0
        && p.cliques.iter().enumerate().all(|(c, q)| {
            if c + 1 == count {
                q.parent == NONE && q.separator.is_empty()
            } else {
                (q.parent as usize) > c && (q.parent as usize) < count
            }
        })
}

fn check7(p: &Pattern) -> bool {
    let vertices: Vec<u32> = p.cliques.iter().flat_map(|c| c.snode.clone()).collect();
    p.cliques.iter().all(|c| !c.snode.is_empty())
        && vertices.len() == p.vertices as usize
        && is_permutation(&vertices)
        && p.cliques.iter().all(|c| {
            let mut sorted = c.separator.clone();
            sorted.sort();
            let repeats = sorted.windows(2).any(|w| w[0] == w[1]);
            // only the last clique has no parent, and its separator is empty
            !repeats
                && (c.separator.is_empty() || {
                    let mut held: Vec<u32> = p.cliques[c.parent as usize].members().collect();
                    held.sort();
                    c.separator.iter().all(|v| held.binary_search(v).is_ok())
                })
        })
}

fn checks6and7(patterns: &[Pattern]) -> Result<(), u32> {
    if !patterns.iter().all(check6) {
        return Err(6);
    }
    if !patterns.iter().all(check7) {
        return Err(7);
    }
    Ok(())
}

/// Checks 1 to 4 of a whole problem.
pub fn first_four(p: &Problem) -> Result<(), u32> {
    if !bounded(p.n, p.m, &p.cones) || p.a.values.len() > 262_144 || p.p.values.len() > 262_144 {
        return Err(1);
    }
    if !starts_right(p.n, &p.a) || !starts_right(p.n, &p.p) {
        return Err(2);
    }
    // A may repeat a row, P may not
    if !rows_right(p.m, &p.a, |r, next| r <= next) || !rows_right(p.n, &p.p, |r, next| r < next) {
        return Err(3);
    }
    let alphas: u64 = records(&p.cones).iter().map(Cone::alphas).sum();
    if !cones_read(p.m, &p.cones)
        || alphas != p.alphas.len() as u64
        || p.q.len() != p.n as usize
        || p.b.len() != p.m as usize
    {
        return Err(4);
    }
    Ok(())
}

/// Checks 1 to 7 of a whole problem.
pub fn first_seven(p: &Problem) -> Result<Layout, u32> {
    first_four(p)?;
    let patterns = check5(&p.cones, p.pattern_count, &p.pattern_words)?;
    checks6and7(&patterns)?;
    Ok(Layout::new(&p.cones, patterns))
}

// ---- the layout

/// A cone: its first original row, and its pattern if it is decomposed.
struct Part {
    cone: Cone,
    first_row: u64,
    pattern: Option<usize>,
}

/// Cones and patterns that have passed checks 1 to 7.
pub struct Layout {
    parts: Vec<Part>,
    patterns: Vec<Pattern>,
}

/// One augmented row of the compact route.
#[derive(Clone, Copy)]
pub enum Row {
    Kept(usize),
    Owned(usize),
    /// the original row, and the row of the same pair in the parent's block
    Overlap(usize, usize),
}

impl Row {
    pub fn original(self) -> usize {
        match self {
            Row::Kept(o) | Row::Owned(o) | Row::Overlap(o, _) => o,
        }
    }
    pub fn is_kept(self) -> bool {
        matches!(self, Row::Kept(_))
    }
    /// Returns the row that an overlap is tied to.
    pub fn parent_row(self) -> Option<usize> {
        match self {
            Row::Overlap(_, parent) => Some(parent),
            _ => None,
        }
    }
}

impl Layout {
    fn new(cones: &[u32], patterns: Vec<Pattern>) -> Layout {
        let mut first_row = 0;
        let parts = records(cones)
            .into_iter()
            .enumerate()
            .map(|(i, cone)| {
                let part = Part { cone, first_row, pattern: patterns.iter().position(|p| p.orig_index as usize == i) };
                first_row += cone.rows();
                part
            })
            .collect();
        Layout { parts, patterns }
    }

    /// Returns the number of rows of all blocks and undecomposed cones.
    pub fn block_rows(&self) -> u64 {
        self.parts
            .iter()
            .map(|part| match part.pattern {
                None => part.cone.rows(),
                Some(k) => self.patterns[k].cliques.iter().map(|c| triangle(c.size())).sum(),
            })
            .sum()
    }

    /// Returns the number of block entries whose pair has both members in the separator.
    pub fn overlaps(&self) -> u64 {
        self.patterns.iter().flat_map(|p| &p.cliques).map(|c| triangle(c.separator.len() as u64)).sum()
    }

    // returns the original rows of one block, in svec order
    fn block_originals(first_row: u64, block: &[u32]) -> Vec<usize> {
        let mut out = vec![];
        for (j, &column) in block.iter().enumerate() {
            for &row in &block[..=j] {
                out.push((first_row + index_of(row as u64, column as u64)) as usize);
            }
        }
        out
    }

    // returns the compact route's rows: cones in order, cliques from last to first
    pub fn compact_rows(&self) -> Vec<Row> {
        let mut rows = vec![];
        for part in &self.parts {
            let Some(k) = part.pattern else {
                rows.extend((0..part.cone.rows()).map(|r| Row::Kept((part.first_row + r) as usize)));
                continue;
            };
            let pattern = &self.patterns[k];
            let mut block_starts = vec![0; pattern.cliques.len()];
            for c in (0..pattern.cliques.len()).rev() {
                block_starts[c] = rows.len();
                let clique = &pattern.cliques[c];
                let block = pattern.block(c);
                let mut separator: Vec<u32> = clique.separator.iter().map(|&v| pattern.ordering[v as usize]).collect();
                separator.sort();
                let in_separator: Vec<bool> = block.iter().map(|v| separator.binary_search(v).is_ok()).collect();
                // the index of each separator vertex in the parent's block
                let parent_places: Vec<u64> = if separator.is_empty() {
                    vec![0; block.len()]
                } else {
                    let parent = pattern.block(clique.parent as usize);
                    block.iter().map(|v| parent.binary_search(v).unwrap_or(0) as u64).collect()
                };
                let originals = Self::block_originals(part.first_row, &block);
                let mut place = 0;
                for j in 0..block.len() {
                    for i in 0..=j {
                        let original = originals[place];
                        place += 1;
                        rows.push(if in_separator[i] && in_separator[j] {
                            let at = index_of(parent_places[i], parent_places[j]) as usize;
                            Row::Overlap(original, block_starts[clique.parent as usize] + at)
                        } else {
                            Row::Owned(original)
                        });
                    }
                }
            }
        }
        rows
    }

    /// Returns the rows of H's ones: cones in order, cliques from first to last.
    pub fn standard_rows(&self) -> Vec<usize> {
        let mut rows = vec![];
        for part in &self.parts {
            match part.pattern {
                None => rows.extend((0..part.cone.rows()).map(|r| (part.first_row + r) as usize)),
                Some(k) => {
                    let pattern = &self.patterns[k];
                    for c in 0..pattern.cliques.len() {
                        rows.extend(Self::block_originals(part.first_row, &pattern.block(c)));
                    }
                }
            }
        }
        rows
    }

    /// Returns the compact row of each block entry, the blocks in standard order.
    pub fn standard_order(&self) -> Vec<usize> {
        let mut order = vec![];
        let mut first = 0;
        for part in &self.parts {
            let lengths: Vec<usize> = match part.pattern {
                None => vec![part.cone.rows() as usize],
                Some(k) => self.patterns[k].cliques.iter().map(|c| triangle(c.size()) as usize).collect(),
            };
            // on the compact route the last clique comes first
            let mut end = first + lengths.iter().sum::<usize>();
            first = end;
            for length in lengths {
                end -= length;
                order.extend(end..end + length);
            }
        }
        order
    }

    // returns the rows of decomposed cones that no clique covers
    pub fn uncovered(&self) -> Vec<usize> {
        let mut out = vec![];
        for part in &self.parts {
            if let Some(k) = part.pattern {
                let mut covered = vec![false; part.cone.rows() as usize];
                for c in 0..self.patterns[k].cliques.len() {
                    for r in Self::block_originals(0, &self.patterns[k].block(c)) {
                        covered[r] = true;
                    }
                }
                let open = (0..covered.len()).filter(|&r| !covered[r]);
                out.extend(open.map(|r| part.first_row as usize + r));
            }
        }
        out
    }

    fn map(&self, route: Route) -> Vec<u32> {
        let mut out = vec![];
        if route == Route::Standard {
            return out;
        }
        // an entry's first row is the number of rows before it, even for a cone without rows
        let mut first_row = 0;
        let mut push = |place: [u32; 3], rows: u64| {
            out.extend(place);
            out.extend([first_row, rows as u32]);
            first_row += rows as u32;
        };
        for (i, part) in self.parts.iter().enumerate() {
            match part.pattern {
                None => push([i as u32, NONE, 0], part.cone.rows()),
                Some(k) => {
                    for (c, clique) in self.patterns[k].cliques.iter().enumerate().rev() {
                        push([i as u32, k as u32, c as u32], triangle(clique.size()));
                    }
                }
            }
        }
        out
    }

    fn cones(&self, route: Route, m: u32) -> Vec<u32> {
        let mut out = vec![];
        if route == Route::Standard {
            out.extend([0, m, 0]);
        }
        for part in &self.parts {
            match part.pattern {
                None => out.extend([part.cone.kind, part.cone.first, part.cone.second]),
                Some(k) => {
                    let mut sizes: Vec<u32> = self.patterns[k].cliques.iter().map(|c| c.size() as u32).collect();
                    if route == Route::Compact {
                        sizes.reverse();
                    }
                    sizes.iter().for_each(|&s| out.extend([6, s, 0]));
                }
            }
        }
        out
    }

    fn check10(&self, route: Route, m: u32) -> Result<(), u32> {
        let right = match route {
            Route::Standard => m as u64 + self.block_rows() <= 262_144,
            Route::Compact => self.block_rows() <= 262_144 && self.overlaps() <= 131_072,
        };
        right.then_some(()).ok_or(10)
    }

    // the numbers of added unknowns and of augmented rows
    fn added(&self, route: Route) -> usize {
        match route {
            Route::Standard => self.block_rows() as usize,
            Route::Compact => self.overlaps() as usize,
        }
    }
    fn augmented_rows(&self, route: Route, m: u32) -> usize {
        match route {
            Route::Standard => m as usize + self.block_rows() as usize,
            Route::Compact => self.block_rows() as usize,
        }
    }
}

// ---- the cut

/// Makes checks 1 to 10. Number 8 is never returned: the compact route accepts a problem without columns.
pub fn accepted(route: Route, p: &Problem) -> Result<Layout, u32> {
    let layout = first_seven(p)?;
    if route == Route::Compact {
        let mut open = vec![false; p.m as usize];
        layout.uncovered().iter().for_each(|&r| open[r] = true);
        let stored = p.a.rows.iter().any(|&r| open[r as usize]);
        let unequal = p.b.iter().enumerate().any(|(r, &v)| open[r] && v != 0.0);
        if stored || unequal {
            return Err(9);
        }
    }
    layout.check10(route, p.m)?;
    Ok(layout)
}

/// Returns A with each run of one row in a column as one entry: its first value as it is, each further one added to it from left
/// to right, as `new_from_triplets` does; and of how many entries each was made.
pub fn summed(a: &Columns) -> (Columns, Vec<usize>) {
    let mut out = Columns { starts: vec![0], ..Columns::default() };
    let mut counts = vec![];
    for w in a.starts.windows(2) {
        let first = out.rows.len();
        for k in w[0] as usize..w[1] as usize {
            if out.rows.len() > first && out.rows.last() == Some(&a.rows[k]) {
                *out.values.last_mut().unwrap() += a.values[k];
                *counts.last_mut().unwrap() += 1;
            } else {
                out.rows.push(a.rows[k]);
                out.values.push(a.values[k]);
                counts.push(1);
            }
        }
        out.starts.push(out.rows.len() as u32);
    }
    (out, counts)
}

/// Returns whether A repeats a row of a decomposed cone in a column, for a problem that has passed checks 1 to 7.
pub fn repeats_in_decomposed(p: &Problem, layout: &Layout) -> bool {
    let cut = |row: u32| {
        let row = row as u64;
        let here = |part: &Part| part.first_row <= row && row < part.first_row + part.cone.rows();
        layout.parts.iter().any(|part| part.pattern.is_some() && here(part))
    };
    column_rows(&p.a).any(|rows| rows.windows(2).any(|r| r[0] == r[1] && cut(r[0])))
}

fn lengths(route: Route, p: &Problem, layout: &Layout) -> [usize; 11] {
    let added = layout.added(route);
    let kept = match route {
        Route::Standard => p.a.values.len(),
        Route::Compact => summed(&p.a).0.values.len(),
    };
    let entries = kept + 2 * added;
    [
        p.n as usize + added + 1,
        p.p.rows.len(),
        p.p.values.len(),
        p.n as usize + added,
        p.n as usize + added + 1,
        entries,
        entries,
        layout.augmented_rows(route, p.m),
        layout.cones(route, p.m).len(),
        p.alphas.len(),
        layout.map(route).len(),
    ]
}

pub fn sizes(route: Route, p: &Problem, room: usize) -> Result<[usize; 11], u32> {
    let layout = accepted(route, p)?;
    if room < 11 {
        return Err(11);
    }
    Ok(lengths(route, p, &layout))
}

pub fn cut(route: Route, p: &Problem, rooms: Option<&[usize; 11]>) -> Result<Cut, u32> {
    let layout = accepted(route, p)?;
    if let Some(rooms) = rooms {
        let needed = lengths(route, p, &layout);
        if (0..11).any(|i| rooms[i] < needed[i]) {
            return Err(11);
        }
    }
    let added = layout.added(route);
    let mut extended = p.p.clone();
    let last = *extended.starts.last().unwrap();
    extended.starts.extend(std::iter::repeat_n(last, added));
    let mut q = p.q.clone();
    q.extend(std::iter::repeat_n(0.0, added));
    let (a, b, sums) = match route {
        Route::Compact => compact_a_b(p, &layout),
        Route::Standard => standard_a_b(p, &layout),
    };
    let (cones, alphas, map) = (layout.cones(route, p.m), p.alphas.clone(), layout.map(route));
    Ok(Cut { p: extended, q, a, b, cones, alphas, map, sums })
}

fn push_column(out: &mut Columns, mut entries: Vec<(usize, f64)>) {
    entries.sort_by_key(|e| e.0);
    for (row, value) in entries {
        out.rows.push(row as u32);
        out.values.push(value);
    }
    out.starts.push(out.values.len() as u32);
}

// returns A, b, and the indices in A of sums of several entries
fn compact_a_b(p: &Problem, layout: &Layout) -> (Columns, Vec<f64>, Vec<usize>) {
    let rows = layout.compact_rows();
    // where a value in an original row moves to
    let mut moved = vec![usize::MAX; p.m as usize];
    for (at, row) in rows.iter().enumerate() {
        if let Row::Kept(o) | Row::Owned(o) = *row {
            moved[o] = at;
        }
    }
    let (once, counts) = summed(&p.a);
    let mut a = Columns { starts: vec![0], ..Columns::default() };
    let mut sums = vec![];
    for w in once.starts.windows(2) {
        let column = w[0] as usize..w[1] as usize;
        let to = |k: usize| moved[once.rows[k] as usize];
        push_column(&mut a, column.clone().map(|k| (to(k), once.values[k])).collect());
        let mut order: Vec<usize> = column.collect();
        order.sort_by_key(|&k| to(k));
        sums.extend((w[0] as usize..).zip(order).filter(|&(_, k)| counts[k] > 1).map(|(place, _)| place));
    }
    for (at, row) in rows.iter().enumerate() {
        if let Row::Overlap(_, parent) = *row {
            push_column(&mut a, vec![(at, 1.0), (parent, -1.0)]);
        }
    }
    let mut b = vec![0.0; rows.len()];
    for (o, &v) in p.b.iter().enumerate() {
        if v != 0.0 {
            b[moved[o]] = v;
        }
    }
    (a, b, sums)
}

// returns A and b, with repeated entries of A as stored
fn standard_a_b(p: &Problem, layout: &Layout) -> (Columns, Vec<f64>, Vec<usize>) {
    let rows = layout.standard_rows();
    let mut a = p.a.clone();
    for (at, &o) in rows.iter().enumerate() {
        push_column(&mut a, vec![(o, 1.0), (p.m as usize + at, -1.0)]);
    }
    let mut b = p.b.clone();
    b.extend(std::iter::repeat_n(0.0, rows.len()));
    (a, b, vec![])
}

// ---- the joining

pub struct JoinInput<'a> {
    pub n: u32,
    pub m: u32,
    pub cones: &'a [u32],
    pub pattern_count: u32,
    pub pattern_words: &'a [u32],
    pub solution: &'a Solution,
}

pub fn join_input<'a>(p: &'a Problem, solution: &'a Solution) -> JoinInput<'a> {
    JoinInput {
        n: p.n,
        m: p.m,
        cones: &p.cones,
        pattern_count: p.pattern_count,
        pattern_words: &p.pattern_words,
        solution,
    }
}

/// Makes checks 1 to 10 of a joining on a route.
pub fn joinable(route: Route, j: &JoinInput) -> Result<Layout, u32> {
    if !bounded(j.n, j.m, j.cones) {
        return Err(1);
    }
    if !cones_read(j.m, j.cones) {
        return Err(4);
    }
    let patterns = check5(j.cones, j.pattern_count, j.pattern_words)?;
    checks6and7(&patterns)?;
    let layout = Layout::new(j.cones, patterns);
    layout.check10(route, j.m)?;
    Ok(layout)
}

/// Joins a solution. `rooms` are the output lengths for x, s, z and the two scalars.
pub fn join(route: Route, j: &JoinInput, rooms: Option<&[usize; 4]>) -> Result<Joined, u32> {
    let layout = joinable(route, j)?;
    let (n, m) = (j.n as usize, j.m as usize);
    if let Some(rooms) = rooms {
        if rooms[0] < n || rooms[1] < m || rooms[2] < m || rooms[3] < 2 {
            return Err(11);
        }
    }
    let sol = j.solution;
    let rows = layout.augmented_rows(route, j.m);
    if sol.x.len() != n + layout.added(route) || sol.s.len() != rows || sol.z.len() != rows {
        return Err(12);
    }
    // the standard route has no cone map, so none is compared
    if route == Route::Compact && sol.map != layout.map(route) {
        return Err(12);
    }
    let mut out = Joined { x: sol.x[..n].to_vec(), s: vec![0.0; m], z: vec![0.0; m], tau: 1.0, kappa: 1.0 };
    match route {
        Route::Compact => {
            for (at, row) in layout.compact_rows().iter().enumerate() {
                let o = row.original();
                out.z[o] = sol.z[at];
                match row {
                    Row::Kept(_) => out.s[o] = sol.s[at],
                    _ => out.s[o] += sol.s[at],
                }
            }
        }
        Route::Standard => {
            let mut counts = vec![0u32; m];
            for (at, o) in layout.standard_rows().into_iter().enumerate() {
                out.s[o] += sol.s[m + at];
                out.z[o] += sol.z[m + at];
                counts[o] += 1;
            }
            for (z, &count) in out.z.iter_mut().zip(&counts) {
                if count > 1 {
                    *z /= count as f64;
                }
            }
        }
    }
    Ok(out)
}

/// Returns the lengths of x and of s and z, and the cone map, that a joining requires.
pub fn solution_shape(route: Route, p: &Problem) -> Option<(usize, usize, Vec<u32>)> {
    if !bounded(p.n, p.m, &p.cones) || !cones_read(p.m, &p.cones) {
        return None;
    }
    let patterns = check5(&p.cones, p.pattern_count, &p.pattern_words).ok()?;
    checks6and7(&patterns).ok()?;
    let layout = Layout::new(&p.cones, patterns);
    Some((p.n as usize + layout.added(route), layout.augmented_rows(route, p.m), layout.map(route)))
}

// ---- renumbering, and same layout

pub fn renumber(words: &[u32], room: usize) -> Result<Vec<u32>, u32> {
    let p = read_patterns(1, words).ok_or(5u32)?.remove(0);
    if !is_permutation(&p.ordering) {
        return Err(5);
    }
    checks6and7(std::slice::from_ref(&p))?;
    if room < words.len() {
        return Err(11);
    }
    // old numbers clique by clique and, within a snode, sorted
    let mut old = vec![];
    for c in &p.cliques {
        let mut snode = c.snode.clone();
        snode.sort();
        old.extend(snode);
    }
    let mut new = vec![0; old.len()];
    for (at, &v) in old.iter().enumerate() {
        new[v as usize] = at as u32;
    }
    let mut next = 0;
    let cliques = p
        .cliques
        .iter()
        .map(|c| {
            let first = next;
            next += c.snode.len() as u32;
            Clique {
                parent: c.parent,
                snode: (first..next).collect(),
                separator: c.separator.iter().map(|&v| new[v as usize]).collect(),
            }
        })
        .collect();
    let ordering = old.iter().map(|&v| p.ordering[v as usize]).collect();
    Ok(Pattern { ordering, cliques, ..p }.words())
}

pub fn same_layout(first: &Problem, second: &Problem, room: usize) -> Result<bool, u32> {
    first_seven(first)?;
    first_seven(second)?;
    if room < 1 {
        return Err(11);
    }
    let same_places = |a: &Columns, b: &Columns| a.starts == b.starts && a.rows == b.rows;
    Ok(first.n == second.n
        && first.m == second.m
        && first.cones == second.cones
        && first.pattern_words == second.pattern_words
        // bit by bit, but all NaNs are equal
        && all_same(&first.alphas, &second.alphas)
        && same_places(&first.a, &second.a)
        && same_places(&first.p, &second.p))
}

#[cfg(test)]
mod marked_cases {
    use super::*;

    fn three_projectors() -> Problem {
        Problem {
            n: 1,
            m: 6,
            p: Columns { starts: vec![0, 0], ..Columns::default() },
            q: vec![0.0],
            a: Columns { starts: vec![0, 5], rows: vec![0, 1, 2, 4, 5], values: vec![10.0, 20.0, 30.0, 40.0, 50.0] },
            b: vec![1.0, 2.0, 3.0, 0.0, 4.0, 5.0],
            cones: vec![6, 3, 0],
            alphas: vec![],
            pattern_count: 1,
            pattern_words: vec![0, 3, 2, 0, 1, 2, 1, 1, 1, 0, 1, NONE, 2, 0, 1, 2],
        }
    }

    #[test]
    fn p1_to_p7() {
        for (pair, index) in [((0, 0), 0), ((0, 1), 1), ((1, 0), 1), ((2, 5), 17), ((255, 255), 32_895)] {
            assert_eq!(pair_index(pair.0, pair.1, 1), Ok(index));
        }
        assert_eq!(pair_index(256, 0, 1), Err(1));
        assert_eq!(pair_back(0, 2), Ok((0, 0)));
        assert_eq!(pair_back(3, 2), Ok((0, 2)));
        assert_eq!(pair_back(32_896, 2), Err(1));
        let words = [0, 3, 2, 2, 0, 1, 1, 1, 1, 2, 0, NONE, 2, 0, 0, 1];
        let renumbered = vec![0, 3, 2, 1, 2, 0, 1, 1, 1, 0, 1, NONE, 2, 0, 1, 2];
        assert_eq!(renumber(&words, 16), Ok(renumbered));
        assert_eq!(inverse(&[1, 1], 2), Err(5));
    }

    #[test]
    fn p8_to_p12() {
        let mut p = three_projectors();
        let c = cut(Route::Compact, &p, None).unwrap();
        assert_eq!(c.a.starts, [0, 5, 7]);
        assert_eq!(c.a.rows, [0, 1, 2, 3, 4, 0, 5]);
        assert_eq!(c.a.values, [30.0, 40.0, 50.0, 10.0, 20.0, -1.0, 1.0]);
        assert_eq!(c.b, [3.0, 4.0, 5.0, 1.0, 2.0, 0.0]);
        assert_eq!(c.map, [0, 0, 1, 0, 3, 0, 0, 0, 3, 3]);
        let tail = vec![3.0, 4.0, 5.0, 1.0, 2.0, 7.0];
        let solution = Solution { x: vec![0.0; 2], s: tail.clone(), z: tail, map: c.map, ..Solution::default() };
        fn input<'a>(p: &'a Problem, solution: &'a Solution) -> JoinInput<'a> {
            JoinInput { n: 1, m: 6, cones: &p.cones, pattern_count: 1, pattern_words: &p.pattern_words, solution }
        }
        let j = join(Route::Compact, &input(&p, &solution), None).unwrap();
        assert_eq!(j.s, [1.0, 2.0, 10.0, 0.0, 4.0, 5.0]);
        assert_eq!(j.z, [1.0, 2.0, 7.0, 0.0, 4.0, 5.0]);

        let c = cut(Route::Standard, &p, None).unwrap();
        assert_eq!((c.b.len(), c.q.len()), (12, 7));
        let ones: Vec<u32> = c.a.rows[5..].iter().step_by(2).copied().collect();
        assert_eq!(ones, [0, 1, 2, 2, 4, 5]);
        let tail = vec![9.0, 9.0, 9.0, 9.0, 9.0, 9.0, 1.0, 2.0, 7.0, 3.0, 4.0, 5.0];
        let solution = Solution { x: vec![0.0; 7], s: tail.clone(), z: tail, ..Solution::default() };
        let j = join(Route::Standard, &input(&p, &solution), None).unwrap();
        assert_eq!((j.s[2], j.z[2]), (10.0, 5.0));

        p.b[3] = -0.0;
        assert!(cut(Route::Compact, &p, None).is_ok());
        p.b[3] = 1.0;
        assert_eq!(cut(Route::Compact, &p, None).unwrap_err(), 9);
        p.b[3] = 0.0;
        p.a = Columns { starts: vec![0, 1], rows: vec![3], values: vec![0.0] };
        assert_eq!(cut(Route::Compact, &p, None).unwrap_err(), 9);
        assert!(cut(Route::Standard, &p, None).is_ok());
    }

    // two cameras see a marker, in the seam and in a cone that is not cut
    #[test]
    fn repeated_entries() {
        let mut p = three_projectors();
        p.cones.extend([1, 1, 0]);
        p.m = 7;
        p.b.push(0.0);
        p.a = Columns {
            starts: vec![0, 8],
            rows: vec![0, 2, 2, 2, 4, 5, 6, 6],
            values: vec![-0.0, 1e16, 1.0, -1e16, 40.0, 50.0, 2.0, -2.0],
        };
        let c = cut(Route::Compact, &p, None).unwrap();
        assert_eq!(sizes(Route::Compact, &p, 11).unwrap()[5], 7);
        assert_eq!(c.a.starts, [0, 5, 7]);
        assert_eq!(c.a.rows, [0, 1, 2, 3, 6, 0, 5]);
        // from left to right, the 1.0 is lost; a single zero keeps its sign; a sum that is zero stays an entry
        assert!(all_bits(&c.a.values, &[0.0, 40.0, 50.0, -0.0, 0.0, -1.0, 1.0]));
        assert_eq!(c.sums, [0, 4]);
        let c = cut(Route::Standard, &p, None).unwrap();
        assert_eq!((&c.a.rows[..8], &c.a.values[..8]), (&p.a.rows[..], &p.a.values[..]));
        p.a.rows.swap(3, 4);
        assert_eq!(first_seven(&p).err(), Some(3));
        let mut p = three_projectors();
        p.p = Columns { starts: vec![0, 2], rows: vec![0, 0], values: vec![1.0, 2.0] };
        assert_eq!(first_seven(&p).err(), Some(3));
    }

    // cones without rows before, between and after other cones
    #[test]
    fn first_rows() {
        let mut p = three_projectors();
        p.cones = vec![0, 0, 0, 6, 3, 0, 1, 0, 0, 3, 0, 0, 6, 0, 0];
        p.m = 9;
        p.b.extend([0.0; 3]);
        p.pattern_words[0] = 1;
        let mut map = cut(Route::Compact, &p, None).unwrap().map;
        let rows: Vec<&[u32]> = map.chunks(MAP_WORDS).map(|entry| &entry[3..]).collect();
        assert_eq!(rows, [[0, 0], [0, 3], [3, 3], [6, 0], [6, 3], [9, 0]]);
        map[MAP_WORDS * 5 + 3] = 0;
        let solution = Solution { x: vec![0.0; 2], s: vec![0.0; 9], z: vec![0.0; 9], map, ..Solution::default() };
        assert_eq!(join(Route::Compact, &join_input(&p, &solution), None).unwrap_err(), 12);
    }

    #[test]
    fn same_layout_sees_exponents_and_places() {
        let mut first = three_projectors();
        first.m = 9;
        first.cones.extend([4, 0, 0]);
        first.alphas = vec![0.0];
        first.b.extend([0.0; 3]);
        let changed = |change: &dyn Fn(&mut Problem)| {
            let mut second = first.clone();
            change(&mut second);
            same_layout(&first, &second, 1)
        };
        assert_eq!(changed(&|_| {}), Ok(true));
        assert_eq!(changed(&|p| p.a.values[0] = f64::NAN), Ok(true));
        assert_eq!(changed(&|p| p.b[0] = 9.0), Ok(true));
        assert_eq!(changed(&|p| p.q[0] = 9.0), Ok(true));
        assert_eq!(changed(&|p| p.alphas[0] = -0.0), Ok(false));
        assert_eq!(changed(&|p| p.a.rows[2] = 3), Ok(false));
        assert_eq!(changed(&|p| p.p = Columns { starts: vec![0, 1], rows: vec![0], values: vec![0.0] }), Ok(false));
    }

    // the seam of a dome with n = 0
    #[test]
    fn no_columns() {
        let mut p = three_projectors();
        p.n = 0;
        p.q.clear();
        p.a = Columns { starts: vec![0], ..Columns::default() };
        p.p = p.a.clone();
        let c = cut(Route::Compact, &p, None).unwrap();
        assert_eq!((c.p.starts, c.q), (vec![0, 0], vec![0.0]));
        assert_eq!((c.a.starts, c.a.rows, c.a.values), (vec![0, 2], vec![0, 5], vec![-1.0, 1.0]));
        assert_eq!(c.b, [3.0, 4.0, 5.0, 1.0, 2.0, 0.0]);
        let tail = vec![3.0, 4.0, 5.0, 1.0, 2.0, 7.0];
        let solution = Solution { x: vec![9.0], s: tail.clone(), z: tail, map: c.map, ..Solution::default() };
        let j = join(Route::Compact, &join_input(&p, &solution), None).unwrap();
        assert_eq!((j.x, j.s), (vec![], vec![1.0, 2.0, 10.0, 0.0, 4.0, 5.0]));
        p.b[3] = 1.0;
        assert_eq!(cut(Route::Compact, &p, None).unwrap_err(), 9);
    }
}
