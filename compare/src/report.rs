//! Counts of what was compared, and the smallest input of each kind of failure.

use crate::problem::*;
use std::collections::BTreeMap;

struct Failure {
    count: u64,
    weight: usize,
    text: String,
}

#[derive(Default)]
pub struct Report {
    counts: BTreeMap<String, u64>,
    failures: BTreeMap<String, Failure>,
}

impl Report {
    pub fn count(&mut self, what: impl Into<String>) {
        *self.counts.entry(what.into()).or_insert(0) += 1;
    }

    pub fn fail(&mut self, kind: impl Into<String>, weight: usize, text: impl FnOnce() -> String) {
        let f =
            self.failures.entry(kind.into()).or_insert(Failure { count: 0, weight: usize::MAX, text: String::new() });
        f.count += 1;
        if weight < f.weight {
            f.weight = weight;
            f.text = text();
        }
    }

    pub fn failed(&self) -> bool {
        !self.failures.is_empty()
    }

    pub fn failures(&self) -> u64 {
        self.failures.values().map(|f| f.count).sum()
    }

    pub fn print(&self) {
        for (what, count) in &self.counts {
            println!("{count:>12}  {what}");
        }
        for (kind, f) in &self.failures {
            println!("\nFAILED {} times: {kind}\nsmallest input:\n{}", f.count, f.text);
        }
        let compared: u64 = self.counts.values().sum();
        println!("\n{compared} counted, {} failed", self.failures());
    }
}

pub fn floats(vs: &[f64]) -> String {
    let shown: Vec<String> = vs
        .iter()
        .map(|v| {
            if v.is_nan() || (*v != 0.0 && v.abs() < 1e-300) {
                format!("{:016x}", v.to_bits())
            } else {
                format!("{v:?}")
            }
        })
        .collect();
    format!("[{}]", shown.join(", "))
}

pub fn problem_text(p: &Problem) -> String {
    format!(
        "  n {} m {}\n  P starts {:?} rows {:?} values {}\n  q {}\n  A starts {:?} rows {:?} values {}\n  b {}\n  cones {:?}\n  alphas {}\n  patterns {}: {:?}",
        p.n,
        p.m,
        p.p.starts,
        p.p.rows,
        floats(&p.p.values),
        floats(&p.q),
        p.a.starts,
        p.a.rows,
        floats(&p.a.values),
        floats(&p.b),
        p.cones,
        floats(&p.alphas),
        p.pattern_count,
        p.pattern_words
    )
}

pub fn solution_text(s: &Solution) -> String {
    format!("  x {}\n  s {}\n  z {}\n  map {:?}", floats(&s.x), floats(&s.s), floats(&s.z), s.map)
}
