//! Tables of the comparison, lent to the calls of `flat`.

use crate::problem::{Cut, Joined, Problem, Solution};
use tejiwakpa::flat::{CutOutputs, JoinOutputs, Joining, TableOutputs, Tables};
use tejiwakpa::Refusal;

pub fn tables(p: &Problem) -> Tables<'_> {
    Tables {
        n: p.n,
        m: p.m,
        p_starts: &p.p.starts,
        p_rows: &p.p.rows,
        p_values: &p.p.values,
        q: &p.q,
        a_starts: &p.a.starts,
        a_rows: &p.a.rows,
        a_values: &p.a.values,
        b: &p.b,
        cones: &p.cones,
        alphas: &p.alphas,
        pattern_count: p.pattern_count,
        pattern_words: &p.pattern_words,
    }
}

pub fn joining<'a>(p: &'a Problem, solution: &'a Solution) -> Joining<'a> {
    Joining {
        n: p.n,
        m: p.m,
        cones: &p.cones,
        pattern_count: p.pattern_count,
        pattern_words: &p.pattern_words,
        x: &solution.x,
        s: &solution.s,
        z: &solution.z,
        tau: solution.tau,
        kappa: solution.kappa,
        map: &solution.map,
    }
}

#[allow(dead_code)]
pub fn cut_outputs(cut: &mut Cut) -> CutOutputs<'_> {
    CutOutputs {
        p_starts: &mut cut.p.starts,
        p_rows: &mut cut.p.rows,
        p_values: &mut cut.p.values,
        q: &mut cut.q,
        a_starts: &mut cut.a.starts,
        a_rows: &mut cut.a.rows,
        a_values: &mut cut.a.values,
        b: &mut cut.b,
        cones: &mut cut.cones,
        alphas: &mut cut.alphas,
        map: &mut cut.map,
    }
}

#[allow(dead_code)]
pub fn table_outputs(p: &mut Problem) -> TableOutputs<'_> {
    TableOutputs {
        p_starts: &mut p.p.starts,
        p_rows: &mut p.p.rows,
        p_values: &mut p.p.values,
        q: &mut p.q,
        a_starts: &mut p.a.starts,
        a_rows: &mut p.a.rows,
        a_values: &mut p.a.values,
        b: &mut p.b,
        cones: &mut p.cones,
        alphas: &mut p.alphas,
        pattern_words: &mut p.pattern_words,
    }
}

#[allow(dead_code)]
pub fn join_outputs<'a>(joined: &'a mut Joined, scalars: &'a mut [f64]) -> JoinOutputs<'a> {
    JoinOutputs { x: &mut joined.x, s: &mut joined.s, z: &mut joined.z, scalars }
}

/// A call's refusal number, 0 for done.
pub fn number(answer: Result<(), Refusal>) -> u32 {
    answer.err().map_or(0, Refusal::number)
}
