//! Stored cases with answers (JSON, one case for each line): compares the plain reading with what is stored, then clarabel and
//! the door on the same inputs. The file's name says which call its cases are of; a further call needs a function and its line in
//! `FORMS`.

use crate::added;
use crate::against::{self, cut_difference, join_difference, join_input};
use crate::change_route;
use crate::door;
use crate::expected;
use crate::files;
use crate::generated::Load;
use crate::loads;
use crate::pool;
use crate::problem::*;
use crate::problem_file;
use crate::random::Draws;
use crate::report::*;
use crate::sides;
use std::collections::BTreeMap;
use std::path::Path;

#[derive(Clone, Debug)]
enum Json {
    Null,
    Bool(bool),
    Number(f64),
    Text(String),
    List(Vec<Json>),
    Object(BTreeMap<String, Json>),
}

struct Reader<'a> {
    bytes: &'a [u8],
    at: usize,
}

impl Reader<'_> {
    fn space(&mut self) {
        while self.bytes.get(self.at).is_some_and(u8::is_ascii_whitespace) {
            self.at += 1;
        }
    }
    fn peek(&mut self) -> Result<u8, String> {
        self.space();
        self.bytes.get(self.at).copied().ok_or("text ends early".into())
    }
    fn expect(&mut self, byte: u8) -> Result<(), String> {
        if self.peek()? != byte {
            return Err(format!("'{}' expected at {}", byte as char, self.at));
        }
        self.at += 1;
        Ok(())
    }
    fn word(&mut self, word: &str, value: Json) -> Result<Json, String> {
        if self.bytes[self.at..].starts_with(word.as_bytes()) {
            self.at += word.len();
            return Ok(value);
        }
        Err(format!("'{word}' expected at {}", self.at))
    }
    fn text(&mut self) -> Result<String, String> {
        self.expect(b'"')?;
        let mut out = vec![];
        loop {
            let byte = *self.bytes.get(self.at).ok_or("text ends early")?;
            self.at += 1;
            match byte {
                b'"' => return String::from_utf8(out).map_err(|e| e.to_string()),
                b'\\' => return Err("escapes are not read".into()),
                _ => out.push(byte),
            }
        }
    }
    fn value(&mut self) -> Result<Json, String> {
        match self.peek()? {
            b'n' => self.word("null", Json::Null),
            b't' => self.word("true", Json::Bool(true)),
            b'f' => self.word("false", Json::Bool(false)),
            b'"' => Ok(Json::Text(self.text()?)),
            b'[' => {
                self.at += 1;
                let mut out = vec![];
                if self.peek()? == b']' {
                    self.at += 1;
                    return Ok(Json::List(out));
                }
                loop {
                    out.push(self.value()?);
                    if self.peek()? == b',' {
                        self.at += 1;
                    } else {
                        self.expect(b']')?;
                        return Ok(Json::List(out));
                    }
                }
            }
            b'{' => {
                self.at += 1;
                let mut out = BTreeMap::new();
                if self.peek()? == b'}' {
                    self.at += 1;
                    return Ok(Json::Object(out));
                }
                loop {
                    self.space();
                    let key = self.text()?;
                    self.expect(b':')?;
                    out.insert(key, self.value()?);
                    if self.peek()? == b',' {
                        self.at += 1;
                    } else {
                        self.expect(b'}')?;
                        return Ok(Json::Object(out));
                    }
                }
            }
            _ => {
                let start = self.at;
                let part = |b: &u8| b.is_ascii_digit() || b"+-.eE".contains(b);
                while self.bytes.get(self.at).is_some_and(part) {
                    self.at += 1;
                }
                let text = std::str::from_utf8(&self.bytes[start..self.at]).unwrap();
                text.parse().map(Json::Number).map_err(|_| format!("no value at {start}"))
            }
        }
    }
}

impl Json {
    fn get(&self, key: &str) -> Result<&Json, String> {
        match self {
            Json::Object(o) => o.get(key).ok_or(format!("no \"{key}\"")),
            _ => Err(format!("no object with \"{key}\"")),
        }
    }
    fn list(&self) -> Result<&[Json], String> {
        match self {
            Json::List(l) => Ok(l),
            _ => Err("no list".into()),
        }
    }
    fn number(&self) -> Result<u32, String> {
        match self {
            Json::Number(v) if *v >= 0.0 && *v <= u32::MAX as f64 && v.fract() == 0.0 => Ok(*v as u32),
            _ => Err(format!("no u32: {self:?}")),
        }
    }
    fn numbers(&self) -> Result<Vec<u32>, String> {
        self.list()?.iter().map(Json::number).collect()
    }
    fn float(&self) -> Result<f64, String> {
        match self {
            Json::Text(t) if t.len() == 16 => u64::from_str_radix(t, 16).map(f64::from_bits).map_err(|e| e.to_string()),
            _ => Err(format!("no float: {self:?}")),
        }
    }
    fn bytes(&self) -> Result<Vec<u8>, String> {
        let Json::Text(t) = self else { return Err(format!("no bytes: {self:?}")) };
        let byte = |k| t.get(k..k + 2).and_then(|two| u8::from_str_radix(two, 16).ok());
        (0..t.len()).step_by(2).map(|k| byte(k).ok_or_else(|| format!("no byte at {k}"))).collect()
    }
    fn floats(&self) -> Result<Vec<f64>, String> {
        self.list()?.iter().map(Json::float).collect()
    }
    fn columns(&self) -> Result<Columns, String> {
        let l = self.list()?;
        if l.len() != 3 {
            return Err("no compressed columns".into());
        }
        Ok(Columns { starts: l[0].numbers()?, rows: l[1].numbers()?, values: l[2].floats()? })
    }
    fn refused(&self) -> Option<u32> {
        self.get("refused").and_then(Json::number).ok()
    }
    // Entries [orig_index, null or [pattern, clique], first row, row count] as words. An entry from before Q-3 ends after its
    // block, and takes first row and row count from the entry of `ours` at the same index.
    fn map(&self, ours: &[u32]) -> Result<Vec<u32>, String> {
        let mut out = vec![];
        for entry in self.list()? {
            let l = entry.list()?;
            match &l[1] {
                Json::Null => out.extend([l[0].number()?, NONE, 0]),
                block => {
                    let block = block.numbers()?;
                    out.extend([l[0].number()?, block[0], block[1]]);
                }
            }
            match l {
                [_, _, first_row, rows] => out.extend([first_row.number()?, rows.number()?]),
                _ => out.extend(ours.get(out.len()..out.len() + 2).unwrap_or(&[0, 0])),
            }
        }
        Ok(out)
    }
}

fn problem(j: &Json) -> Result<Problem, String> {
    Ok(Problem {
        n: j.get("n")?.number()?,
        m: j.get("m")?.number()?,
        p: j.get("P")?.columns()?,
        q: j.get("q")?.floats()?,
        a: j.get("A")?.columns()?,
        b: j.get("b")?.floats()?,
        cones: j.get("cones")?.numbers()?,
        alphas: j.get("alpha")?.floats()?,
        pattern_count: j.get("npatterns")?.number()?,
        pattern_words: j.get("patterns")?.numbers()?,
    })
}

// a stored cut; `b` is the name of its right side
fn stored_cut(j: &Json, ours: &Cut, b: &str) -> Result<Cut, String> {
    let columns = |name: &str| -> Result<Columns, String> {
        Ok(Columns {
            starts: j.get(&format!("{name}_starts"))?.numbers()?,
            rows: j.get(&format!("{name}_rows"))?.numbers()?,
            values: j.get(&format!("{name}_values"))?.floats()?,
        })
    };
    Ok(Cut {
        p: columns("P")?,
        q: j.get("q")?.floats()?,
        a: columns("A")?,
        b: j.get(b)?.floats()?,
        cones: j.get("cones")?.numbers()?,
        alphas: j.get("alpha")?.floats()?,
        map: j.get("cone_map")?.map(&ours.map)?,
        sums: ours.sums.clone(),
    })
}

fn stored_solution(j: &Json) -> Result<Joined, String> {
    Ok(Joined {
        x: j.get("x")?.floats()?,
        s: j.get("s")?.floats()?,
        z: j.get("z")?.floats()?,
        tau: j.get("tau")?.float()?,
        kappa: j.get("kappa")?.float()?,
    })
}

const NAMES: [&str; 11] =
    ["P_starts", "P_rows", "P_values", "q", "A_starts", "A_rows", "A_values", "b", "cones", "alpha", "cone_map"];

// how often the door is called for a case, now and then with an output that is too short
const TIMES: usize = 4;

/// Where the results for the cases of a file are counted, and the draws. `base` cases are from before document 02.
struct Run<'a> {
    report: &'a mut Report,
    draws: &'a mut Draws,
    base: bool,
}

impl Run<'_> {
    // counts an answer that equals the stored one; `wrong` says what differs
    fn judge(&mut self, call: &str, wrong: Option<String>, p: &Problem) {
        match wrong {
            None => self.report.count(format!("stored {call}: equal")),
            Some(what) => self.report.fail(format!("stored {call}: {what}"), p.weight(), || problem_text(p)),
        }
    }

    // compares the refusal numbers of an answer and of what is stored or, if neither is refused, their results
    fn answered<T>(
        &mut self,
        call: &str,
        p: &Problem,
        answer: &Result<T, u32>,
        stored: &Json,
        wrong: impl FnOnce(&T, &Json) -> Result<Option<String>, String>,
    ) -> Result<(), String> {
        let wrong = match (answer, stored.refused()) {
            (_, Some(8)) if self.base && p.n == 0 => {
                self.report.count(format!("stored {call}: 8, which does not occur any more (Q-7); passed over"));
                return Ok(());
            }
            (answer, Some(3))
                if self.base
                    && answer.as_ref().err() != Some(&3)
                    && p.a.rows.len() > expected::summed(&p.a).0.rows.len() =>
            {
                self.report.count(format!("stored {call}: 3, of repeats, which are taken now (Q-4); passed over"));
                return Ok(());
            }
            (Err(number), Some(stored)) if *number == stored => None,
            (Ok(answer), None) => wrong(answer, stored)?,
            (answer, stored) => {
                Some(format!("answers {}, stored {}", answer.as_ref().err().unwrap_or(&0), stored.unwrap_or(0)))
            }
        };
        self.judge(call, wrong, p);
        Ok(())
    }

    // sizes and the cut on a route; a stored size counts `entry` for each entry of the map
    fn cut(&mut self, route: Route, p: &Problem, stored: &Json, entry: usize) -> Result<(), String> {
        let r = route.name();
        let sizes = expected::sizes(route, p, 11);
        self.answered(&format!("{r} sizes"), p, &sizes, stored.get("sizes")?, |lengths, stored| {
            for (name, &length) in NAMES.iter().zip(lengths) {
                let length = if *name == "cone_map" { length / MAP_WORDS * entry } else { length };
                if stored.get(name)?.number()? as usize != length {
                    return Ok(Some(format!("{name} differs")));
                }
            }
            Ok(None)
        })?;
        let cut = expected::cut(route, p, None);
        self.answered(&format!("{r} cut"), p, &cut, stored.get("cut")?, |cut, stored| {
            Ok(cut_difference(cut, &stored_cut(stored, cut, "b")?).map(|w| format!("{w} differs")))
        })?;
        against::compare(self.report, route, p, None, 0);
        if door::LINKED {
            for _ in 0..TIMES {
                door::compare_cut(self.report, self.draws, route, p);
            }
        }
        Ok(())
    }

    fn join(&mut self, route: Route, p: &Problem, solution: &Solution, stored: &Json) -> Result<(), String> {
        let joined = expected::join(route, &join_input(p, solution), None);
        self.answered(&format!("{} joining", route.name()), p, &joined, stored, |joined, stored| {
            Ok(join_difference(joined, &stored_solution(stored)?).map(|w| format!("{w} differs")))
        })?;
        if door::LINKED {
            for _ in 0..TIMES {
                door::compare_join(self.report, self.draws, route, p, solution);
            }
        }
        Ok(())
    }
}

fn solution(j: &Json, map: Vec<u32>) -> Result<Solution, String> {
    Ok(Solution {
        x: j.get("x")?.floats()?,
        s: j.get("s")?.floats()?,
        z: j.get("z")?.floats()?,
        tau: j.get("tau")?.float()?,
        kappa: j.get("kappa")?.float()?,
        map,
    })
}

fn our_map(route: Route, p: &Problem) -> Vec<u32> {
    expected::solution_shape(route, p).map(|shape| shape.2).unwrap_or_default()
}

// a problem; on each route sizes, cut, and a solution with the joined one
fn base(run: &mut Run, case: &Json) -> Result<(), String> {
    let p = problem(case.get("problem")?)?;
    for route in [Route::Compact, Route::Standard] {
        let stored = case.get(route.name())?;
        run.cut(route, &p, stored, 1)?;
        if let (Ok(given), Ok(joined)) = (stored.get("solution"), stored.get("joined")) {
            run.join(route, &p, &solution(given, our_map(route, &p))?, joined)?;
        }
    }
    Ok(())
}

// a problem; sizes and cut on each route; mostly a compact solution, its cone map and the joined solution
fn cuts(run: &mut Run, case: &Json, entry: usize) -> Result<(), String> {
    let p = problem(case.get("problem")?)?;
    for route in [Route::Compact, Route::Standard] {
        run.cut(route, &p, case.get(route.name())?, entry)?;
    }
    if let (Ok(given), Ok(joined)) = (case.get("solution"), case.get("joined")) {
        let map = case.get("cone_map")?.map(&our_map(Route::Compact, &p))?;
        run.join(Route::Compact, &p, &solution(given, map)?, joined)?;
    }
    Ok(())
}

// two problems, and whether they have the same layout
fn same_layout(run: &mut Run, case: &Json) -> Result<(), String> {
    let (first, second) = (problem(case.get("first")?)?, problem(case.get("second")?)?);
    let same = expected::same_layout(&first, &second, 1);
    run.answered("same layout", &first, &same, case.get("answer")?, |same, stored| match stored {
        Json::Bool(stored) => Ok((stored != same).then(|| format!("answers {same}, stored {stored}"))),
        _ => Err("no answer".into()),
    })?;
    against::compare_same_layout(run.report, &first, &second);
    if door::LINKED {
        for _ in 0..TIMES {
            door::compare_same_layout(run.report, run.draws, &first, &second);
        }
    }
    Ok(())
}

// the input of a standard joining, and the compact solution
fn changes(run: &mut Run, case: &Json) -> Result<(), String> {
    let p = Problem {
        n: case.get("n")?.number()?,
        m: case.get("m")?.number()?,
        cones: case.get("cones")?.numbers()?,
        pattern_count: case.get("npatterns")?.number()?,
        pattern_words: case.get("patterns")?.numbers()?,
        ..Problem::default()
    };
    let given = solution(case.get("solution")?, vec![])?;
    let changed = change_route::change_route(&join_input(&p, &given), None);
    run.answered("change of route", &p, &changed, case.get("answer")?, |changed, stored| {
        Ok(join_difference(changed, &stored_solution(stored)?).map(|w| format!("{w} differs")))
    })?;
    if door::LINKED {
        for _ in 0..TIMES {
            added::compare_change_route(run.report, run.draws, &p, &given);
        }
    }
    Ok(())
}

// a problem, low and high limits, and the cut with both
fn limits(run: &mut Run, case: &Json) -> Result<(), String> {
    let p = problem(case.get("problem")?)?;
    let (low, high) = (case.get("low")?.floats()?, case.get("high")?.floats()?);
    let cut = sides::cut_between(&p, &low, &high, None);
    run.answered("cut between", &p, &cut, case.get("answer")?, |(cut, b_high), stored| {
        let wrong = cut_difference(cut, &stored_cut(stored, cut, "b_low")?);
        let high_wrong = !all_bits(b_high, &stored.get("b_high")?.floats()?);
        Ok(wrong.or(high_wrong.then_some("b_high")).map(|w| format!("{w} differs")))
    })?;
    if door::LINKED {
        for _ in 0..TIMES {
            added::compare_between(run.report, run.draws, &p, &low, &high);
        }
    }
    Ok(())
}

// a problem whose b holds several right sides, and the cut with all of them
fn exposures(run: &mut Run, case: &Json) -> Result<(), String> {
    let (count, p) = (case.get("count")?.number()?, problem(case.get("problem")?)?);
    let cut = sides::cut_many(count, &p, None);
    run.answered("cut of many sides", &p, &cut, case.get("answer")?, |cut, stored| {
        Ok(cut_difference(cut, &stored_cut(stored, cut, "b")?).map(|w| format!("{w} differs")))
    })?;
    if door::LINKED {
        for _ in 0..TIMES {
            added::compare_many(run.report, run.draws, count, &p);
        }
    }
    Ok(())
}

// two problems, and the pooled one
fn passes(run: &mut Run, case: &Json) -> Result<(), String> {
    let (first, second) = (problem(case.get("first")?)?, problem(case.get("second")?)?);
    let pooled = pool::pool(&first, &second, None);
    run.answered("pooling", &first, &pooled, case.get("answer")?, |ours, stored| {
        let stored = problem(stored)?;
        let counts = |p: &Problem| [p.n, p.m, p.pattern_count];
        let wrong = cut_difference(&added::as_tables(ours.clone()), &added::as_tables(stored.clone()));
        let wrong = wrong.or((counts(ours) != counts(&stored)).then_some("n, m or pattern count"));
        Ok(wrong.map(|w| format!("{w} differs")))
    })?;
    if door::LINKED {
        for _ in 0..TIMES {
            added::compare_pool(run.report, run.draws, &first, &second);
        }
    }
    Ok(())
}

// a seed, as text, the three counts, and the generated problem
fn loads(run: &mut Run, case: &Json) -> Result<(), String> {
    let seed = match case.get("seed")? {
        Json::Text(seed) => seed.parse().map_err(|e| format!("no seed: {e}"))?,
        _ => return Err("no seed".into()),
    };
    let count = |name: &str| case.get(name)?.number();
    let load = Load { seed, v: count("v")?, w: count("w")?, n: count("n")? };
    let made = load.problem(None);
    let shown = made.clone().unwrap_or_default();
    run.answered("generated problem", &shown, &made, case.get("answer")?, |ours, stored| {
        let stored = problem(stored)?;
        let counts = |p: &Problem| [p.n, p.m, p.pattern_count];
        let wrong = cut_difference(&added::as_tables(ours.clone()), &added::as_tables(stored.clone()));
        let wrong = wrong.or((counts(ours) != counts(&stored)).then_some("n, m or pattern count"));
        Ok(wrong.map(|w| format!("{w} differs")))
    })?;
    if door::LINKED {
        for _ in 0..TIMES {
            loads::compare_load(run.report, run.draws, load);
        }
    }
    Ok(())
}

// a file, what the reader returns, and what the program writes
fn handed_over(run: &mut Run, case: &Json) -> Result<(), String> {
    let (file, stored) = (case.get("file")?.bytes()?, case.get("program")?.bytes()?);
    let p = problem_file::read(&file).map(|(_, p)| p);
    let shown = p.clone().unwrap_or_default();
    run.answered("reading a file", &shown, &p, case.get("read")?, |ours, stored| {
        let stored = problem(stored)?;
        let same = problem_file::counts(ours) == problem_file::counts(&stored);
        Ok((!same || problem_file::laid_out(ours, 8) != problem_file::laid_out(&stored, 8)).then(|| "differs".into()))
    })?;
    // which NaN is in A and b is unspecified
    let one_nan = |bytes: Vec<u8>| match problem_file::read(&bytes) {
        Ok((_, p)) => problem_file::laid_out(&problem_file::with_one_nan(p), 8),
        Err(_) => bytes,
    };
    let program = problem_file::program(&file).0;
    run.judge("program", (program != one_nan(stored)).then(|| "differs".into()), &shown);
    if door::LINKED {
        for _ in 0..TIMES {
            files::compare_read(run.report, run.draws, &file);
            files::compare_write(run.report, run.draws, &shown);
        }
    }
    Ok(())
}

// the function that reads and compares a case of a file
type Form = fn(&mut Run, &Json) -> Result<(), String>;

const FORMS: [(&str, Form); 11] = [
    ("cases", base),
    ("q-7", |run, case| cuts(run, case, 3)),
    ("q-10", same_layout),
    ("q-3", |run, case| cuts(run, case, MAP_WORDS)),
    ("q-4", |run, case| cuts(run, case, MAP_WORDS)),
    ("q-12", changes),
    ("q-8", limits),
    ("q-1", exposures),
    ("q-11", passes),
    ("q-5", loads),
    ("q-2", handed_over),
];

/// Compares each case of the file, whose name without its extension is one of `FORMS`.
pub fn compare(report: &mut Report, draws: &mut Draws, file: &Path) -> Result<(), String> {
    let stem = file.file_stem().and_then(|s| s.to_str()).unwrap_or_default();
    let (_, form) = FORMS.iter().find(|(name, _)| *name == stem).ok_or(format!("{stem}: no such cases are known"))?;
    let text = std::fs::read_to_string(file).map_err(|e| format!("{}: {e}", file.display()))?;
    let run = &mut Run { report, draws, base: stem == "cases" };
    for (line, case) in text.lines().enumerate().filter(|(_, case)| !case.trim().is_empty()) {
        let read = Reader { bytes: case.as_bytes(), at: 0 }.value();
        read.and_then(|case| form(run, &case)).map_err(|e| format!("line {}: {e}", line + 1))?;
    }
    Ok(())
}
