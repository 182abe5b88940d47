use crate::{Columns, Cone, Pattern, Problem, Refusal, Route};
use std::collections::{HashMap, HashSet};
use std::fmt;

const MOST_SIZE: u32 = 65_536;
const MOST_ENTRIES: usize = 262_144;
const MOST_CONES: usize = 1_024;
const MOST_PSD_SIZE: u32 = 256;
const MOST_ROWS: usize = 262_144;
const MOST_OVERLAPS: usize = 131_072;

/// A check that fails, and the first place where it fails.
///
/// ```
/// use tejiwakpa::{fault, Problem, Route};
///
/// let mut problem = Problem::three_projectors();
/// problem.b[3] = 1.0;
/// let found = fault(Some(Route::Compact), &problem).unwrap();
/// assert_eq!(found.to_string(), "number 9: b has 1 in row 3, the pair (0, 2) of cone 0, in no clique");
/// ```
#[derive(Clone, Debug, PartialEq, Eq)]
pub struct Fault {
    /// The check.
    pub refusal: Refusal,
    /// The column, row, cone, pattern or clique, in words.
    pub place: String,
}

/// ```
/// let mut problem = tejiwakpa::Problem::three_projectors();
/// problem.a.rows[4] = 6;
/// let found = tejiwakpa::fault(None, &problem).unwrap();
/// assert_eq!(format!("{found}"), "number 3: A's column 0 has an entry in row 6, outside");
/// ```
impl fmt::Display for Fault {
    fn fmt(&self, f: &mut fmt::Formatter<'_>) -> fmt::Result {
        write!(f, "number {}: {}", self.refusal.number(), self.place)
    }
}

/// Finds the first fault of a problem, on a route if one is given, to locate what a refused call found. It makes the checks
/// in their order, independently of the calls. The call decides the refusal number: this is a diagnosis and not a promise.
///
/// ```
/// use tejiwakpa::{cut, fault, Problem, Refusal, Route};
///
/// let mut problem = Problem::three_projectors();
/// assert_eq!(fault(Some(Route::Compact), &problem), None);
///
/// problem.patterns[0].cliques[0].separator = vec![0];
/// assert_eq!(cut(Route::Compact, &problem), Err(Refusal::Cliques));
/// let found = fault(Some(Route::Compact), &problem).unwrap();
/// assert_eq!(found.place, "the separator of clique 0 of pattern 0 has vertex 0, which clique 1, its parent, lacks");
/// ```
pub fn fault(route: Option<Route>, problem: &Problem) -> Option<Fault> {
    let routed: &[(Refusal, Walk)] = match route {
        Some(Route::Standard) => &[(Refusal::TooLarge, large_standard)],
        Some(Route::Compact) => &[(Refusal::Uncovered, uncovered), (Refusal::TooLarge, large_compact)],
        None => &[],
    };
    let mut checks = ALWAYS.iter().chain(routed);
    checks.find_map(|&(refusal, walk)| walk(problem).map(|place| Fault { refusal, place }))
}

// the first place where a check fails
type Walk = fn(&Problem) -> Option<String>;

const ALWAYS: &[(Refusal, Walk)] = &[
    (Refusal::Bound, bounds),
    (Refusal::Starts, starts),
    (Refusal::Rows, rows),
    (Refusal::Cones, cones),
    (Refusal::Patterns, patterns),
    (Refusal::Tree, tree),
    (Refusal::Cliques, cliques),
];

fn matrices(problem: &Problem) -> [(&'static str, &Columns, u32); 2] {
    [("P", &problem.p, problem.n), ("A", &problem.a, problem.m)]
}

fn bounds(problem: &Problem) -> Option<String> {
    for (name, size) in [("n", problem.n), ("m", problem.m)] {
        if size > MOST_SIZE {
            return Some(format!("{name} is {size}, above {MOST_SIZE}"));
        }
    }
    for (name, matrix, _) in matrices(problem) {
        let entries = matrix.values.len();
        if entries > MOST_ENTRIES {
            return Some(format!("{name} has {entries} entries, above {MOST_ENTRIES}"));
        }
    }
    if problem.cones.len() > MOST_CONES {
        return Some(format!("there are {} cones, above {MOST_CONES}", problem.cones.len()));
    }
    problem.cones.iter().enumerate().find_map(|(place, cone)| {
        let [_, first, second] = cone.record();
        if first > MOST_SIZE || second > MOST_SIZE {
            return Some(format!("cone {place} has the sizes {first} and {second}, above {MOST_SIZE}"));
        }
        let large = matches!(cone, Cone::PsdTriangle(_)) && first > MOST_PSD_SIZE;
        large.then(|| format!("cone {place} is PSD of size {first}, above {MOST_PSD_SIZE}"))
    })
}

fn starts(problem: &Problem) -> Option<String> {
    matrices(problem).into_iter().find_map(|(name, matrix, _)| {
        let (starts, entries) = (&matrix.starts, matrix.values.len());
        if starts.len() != problem.n as usize + 1 {
            return Some(format!("{name} has {} starts for {} columns", starts.len(), problem.n));
        }
        if starts[0] != 0 {
            return Some(format!("{name}'s first start is {}", starts[0]));
        }
        if let Some(column) = starts.windows(2).position(|two| two[1] < two[0]) {
            return Some(format!("{name}'s starts fall after column {column}"));
        }
        let end = starts[starts.len() - 1];
        if end as usize != entries {
            return Some(format!("{name}'s starts end at {end}, with {entries} values"));
        }
        (matrix.rows.len() != entries).then(|| format!("{name} has {} rows for {entries} values", matrix.rows.len()))
    })
}

fn rows(problem: &Problem) -> Option<String> {
    for (name, matrix, height) in matrices(problem) {
        for column in 0..problem.n as usize {
            let mut last = None;
            for (row, _) in matrix.column(column) {
                if row >= height {
                    return Some(format!("{name}'s column {column} has an entry in row {row}, outside"));
                }
                match last {
                    Some(last) if row < last => {
                        return Some(format!("{name}'s column {column} has row {row} after row {last}"));
                    }
                    Some(last) if row == last && name == "P" => {
                        return Some(format!("P's column {column} has row {row} twice"));
                    }
                    _ => last = Some(row),
                }
            }
        }
    }
    None
}

fn cones(problem: &Problem) -> Option<String> {
    let rows: usize = problem.cones.iter().map(Cone::nvars).sum();
    if rows != problem.m as usize {
        return Some(format!("the cones have {rows} rows, m is {}", problem.m));
    }
    let lengths = [("q", problem.q.len(), problem.n), ("b", problem.b.len(), problem.m)];
    let wrong = lengths.into_iter().find(|&(_, length, want)| length != want as usize);
    wrong.map(|(name, length, want)| format!("{name} has {length} values, not {want}"))
}

fn patterns(problem: &Problem) -> Option<String> {
    let mut last = None;
    for (place, pattern) in problem.patterns.iter().enumerate() {
        let (cone, size) = (pattern.orig_index, pattern.ordering.len());
        match last {
            Some(last) if cone <= last => {
                return Some(format!("pattern {place} names cone {cone}, which does not follow cone {last}"));
            }
            _ => last = Some(cone),
        }
        match problem.cones.get(cone as usize) {
            Some(Cone::PsdTriangle(dimension)) if *dimension as usize == size => {}
            Some(Cone::PsdTriangle(dimension)) => {
                return Some(format!("pattern {place} has {size} vertices, cone {cone} has size {dimension}"));
            }
            _ => return Some(format!("pattern {place} names cone {cone}, which is no PSD cone")),
        }
        let mut seen = HashSet::new();
        for (vertex, &original) in pattern.ordering.iter().enumerate() {
            if original as usize >= size || !seen.insert(original) {
                return Some(format!("pattern {place}'s ordering has {original} at place {vertex}, outside or twice"));
            }
        }
    }
    None
}

fn tree(problem: &Problem) -> Option<String> {
    problem.patterns.iter().enumerate().find_map(|(place, pattern)| {
        let Some((root, others)) = pattern.cliques.split_last() else {
            return Some(format!("pattern {place} has no clique"));
        };
        for (number, clique) in others.iter().enumerate() {
            match clique.parent {
                Some(parent) if (number + 1..=others.len()).contains(&(parent as usize)) => {}
                Some(parent) => {
                    return Some(format!(
                        "clique {number} of pattern {place} has the parent {parent}, not a later clique"
                    ))
                }
                None => return Some(format!("clique {number} of pattern {place} has no parent and is not the last")),
            }
        }
        let wrong = root.parent.is_some() || !root.separator.is_empty();
        wrong.then(|| format!("clique {}, the last of pattern {place}, has a parent or a separator", others.len()))
    })
}

fn cliques(problem: &Problem) -> Option<String> {
    problem.patterns.iter().enumerate().find_map(|(place, pattern)| {
        snodes(pattern)
            .or_else(|| separators(pattern))
            .map(|found| found.replace("PATTERN", &format!("pattern {place}")))
    })
}

fn snodes(pattern: &Pattern) -> Option<String> {
    let mut seen = HashMap::new();
    for (number, clique) in pattern.cliques.iter().enumerate() {
        if clique.snode.is_empty() {
            return Some(format!("clique {number} of PATTERN has an empty snode"));
        }
        for &vertex in &clique.snode {
            if vertex as usize >= pattern.ordering.len() {
                return Some(format!("clique {number} of PATTERN has the vertex {vertex}, outside"));
            }
            if let Some(before) = seen.insert(vertex, number) {
                return Some(format!("vertex {vertex} of PATTERN is in the snodes of cliques {before} and {number}"));
            }
        }
    }
    let absent = (0..pattern.ordering.len()).find(|&vertex| !seen.contains_key(&(vertex as u32)));
    absent.map(|vertex| format!("vertex {vertex} of PATTERN is in no snode"))
}

fn separators(pattern: &Pattern) -> Option<String> {
    for (number, clique) in pattern.cliques.iter().enumerate() {
        let Some(parent) = clique.parent else { continue };
        let above = &pattern.cliques[parent as usize];
        let held: HashSet<u32> = above.snode.iter().chain(&above.separator).copied().collect();
        let mut seen = HashSet::new();
        for &vertex in &clique.separator {
            if !seen.insert(vertex) {
                return Some(format!("the separator of clique {number} of PATTERN has vertex {vertex} twice"));
            }
            if !held.contains(&vertex) {
                return Some(format!(
                    "the separator of clique {number} of PATTERN has vertex {vertex}, which clique {parent}, its parent, lacks"
                ));
            }
        }
    }
    None
}

// each row of a cut cone that no clique covers, with its cone and its pair
fn uncovered_rows(problem: &Problem) -> HashMap<u32, (u32, (u32, u32))> {
    let mut first = 0;
    let mut found = HashMap::new();
    for (place, cone) in problem.cones.iter().enumerate() {
        if let Some(pattern) = problem.patterns.iter().find(|p| p.orig_index as usize == place) {
            let mut covered = HashSet::new();
            for clique in &pattern.cliques {
                let members: Vec<u32> =
                    clique.snode.iter().chain(&clique.separator).map(|&v| pattern.ordering[v as usize]).collect();
                covered.extend(members.iter().flat_map(|&i| members.iter().map(move |&j| (i, j))));
            }
            let size = pattern.ordering.len() as u32;
            let pairs = (0..size).flat_map(|j| (0..=j).map(move |i| (i, j)));
            let free = pairs.zip(first..).filter(|(pair, _)| !covered.contains(pair));
            found.extend(free.map(|(pair, row)| (row, (place as u32, pair))));
        }
        first += cone.nvars() as u32;
    }
    found
}

fn uncovered(problem: &Problem) -> Option<String> {
    let free = uncovered_rows(problem);
    let named = |row: u32, (cone, pair): &(u32, (u32, u32))| {
        format!("row {row}, the pair {pair:?} of cone {cone}, in no clique")
    };
    for column in 0..problem.n as usize {
        for (row, _) in problem.a.column(column) {
            if let Some(place) = free.get(&row) {
                return Some(format!("A has an entry in column {column}, {}", named(row, place)));
            }
        }
    }
    let mut values = problem.b.iter().zip(0..).filter(|(value, _)| **value != 0.0);
    values.find_map(|(value, row)| Some(format!("b has {value} in {}", named(row, free.get(&row)?))))
}

fn triangle(side: usize) -> usize {
    side * (side + 1) / 2
}

// the rows of all blocks and whole cones
fn block_rows(problem: &Problem) -> usize {
    let cliques = problem.patterns.iter().flat_map(|p| &p.cliques);
    let blocks: usize = cliques.map(|c| triangle(c.snode.len() + c.separator.len())).sum();
    let cut: usize = problem.patterns.iter().map(|p| triangle(p.ordering.len())).sum();
    problem.m as usize - cut + blocks
}

fn too_many_rows(rows: usize) -> Option<String> {
    (rows > MOST_ROWS).then(|| format!("there are {rows} augmented rows, above {MOST_ROWS}"))
}

fn large_standard(problem: &Problem) -> Option<String> {
    too_many_rows(problem.m as usize + block_rows(problem))
}

fn large_compact(problem: &Problem) -> Option<String> {
    let overlaps: usize = problem.patterns.iter().flat_map(|p| &p.cliques).map(|c| triangle(c.separator.len())).sum();
    let many = || (overlaps > MOST_OVERLAPS).then(|| format!("there are {overlaps} overlaps, above {MOST_OVERLAPS}"));
    too_many_rows(block_rows(problem)).or_else(many)
}
