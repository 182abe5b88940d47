//! Compares the plain reading of documents 01 and 02 (`expected`), clarabel's own files (crate `reference`) and, if
//! libdoor.a is linked, the door.

mod added;
mod against;
mod both_routes;
mod change_route;
mod copying;
mod differences;
mod door;
mod exact;
mod exhaustive;
mod expected;
mod files;
mod generated;
mod loads;
mod malformed;
mod pool;
mod problem;
mod problem_file;
mod random;
mod refused;
mod report;
mod rounding;
mod sides;
mod speed;
mod store;
mod vectors;

use problem::*;
use random::{Draws, Scale};
use report::Report;
use std::io::Write;
use std::sync::atomic::Ordering;
use std::time::Instant;

const HELP: &str = "compare/run [--cases N] [--seed S] [--routes standard|compact|both]
    N random problems from seed S (100000, 1), about a third of them damaged, on the routes (both)
compare/run --case K --seed S      one case again, its problem printed
compare/run --exhaustive           every clique tree on up to 4 vertices, every ordering; with a column, with entries
                                   repeated and without a column
compare/run --rounding [--cases N]     errors of the joined s beside their bound (Q-9), in exact sums
compare/run --both-routes [--cases N]  solutions held against both routes' written equations (Q-13), in exact sums
compare/run --loads [--cases N]        generated problems (Q-5): every vertex count with every band through both routes,
                                       then N at random
compare/run --test-load            what crate test_load prints, from the plain reading
compare/run --files [--cases N]    files, most of them damaged, through reader and writer (Q-2)
compare/run --program FILE [--cases N]   the same through the program cut_file (Q-2)
compare/run --vectors FILE         stored cases (JSON, one a line), told by the file's name: cases.jsonl, q-N.jsonl
compare/run --differences          clarabel on the inputs of docs/DIFFERENCES.md
compare/run --malformed            time a word of refused calls, at 10,000, 100,000 and 1,000,000 words
compare/run --refused [--rounds N] times of refused calls, each damaged at the last place, beside accepted ones
compare/run --speed [--rounds N]   times, with ratios where the door is linked, beside copying; N rounds at most (101)
compare/run --store FOLDER --cases N --seed S    writes stored answers of each family, for crate replay
compare/run --file-answers FILE --cases N --seed S   writes files with the reader's answers, for crate replay_files
compare/run --samples FOLDER       writes the sample files of crate cut_samples, with what the program makes of them
The door is the libdoor.a in the folder that CHORDAL_DOOR_LIB names, or else the one that rt makes.";

/// Returns the draws of one case, so that a case can be repeated alone.
pub fn case_draws(seed: u64, index: u64) -> Draws {
    Draws::new(seed.wrapping_mul(0x2545_f491_4f6c_dd1d).wrapping_add(index))
}

struct Options {
    cases: u64,
    seed: u64,
    routes: Vec<Route>,
}

// the problem of a case: some have no columns, some repeat entries, and one in three is damaged, in one to three places
fn case_problem(d: &mut Draws, scale: Scale) -> Problem {
    let mut p = random::problem(d, scale);
    match d.below(20) {
        0 => random::no_columns(&mut p),
        1..=7 => random::repeat_entries(d, &mut p),
        _ => {}
    }
    if d.chance(33) {
        for _ in 0..1 + d.below(3).saturating_sub(d.below(2)) {
            // check 10 needs large problems, so it is rarely aimed at
            let check = if d.below(2000) == 0 { 10 } else { 1 + d.below(9) };
            random::damage(d, &mut p, check);
        }
    }
    p
}

fn case(report: &mut Report, o: &Options, index: u64, scale: Scale) {
    let mut d = case_draws(o.seed, index);
    let p = case_problem(&mut d, scale);
    let storage = d.below(4);
    for &route in &o.routes {
        let shape = expected::solution_shape(route, &p);
        let solution = random::solution(&mut d, &shape.clone().unwrap_or_default());
        against::compare(report, route, &p, shape.is_some().then_some(&solution), storage);
        if door::LINKED {
            door::compare_cut(report, &mut d, route, &p);
            let mut solution = solution;
            if d.chance(20) {
                random::damage_solution(&mut d, &mut solution);
            }
            door::compare_join(report, &mut d, route, &p, &solution);
            if route == Route::Standard {
                added::compare_change_route(report, &mut d, &p, &solution);
            }
        }
    }
    if door::LINKED && o.routes.contains(&Route::Compact) {
        let [low, high] = random::limits(&mut d, &p);
        added::compare_between(report, &mut d, &p, &low, &high);
        let (count, b) = random::sides(&mut d, &p);
        added::compare_many(report, &mut d, count, &sides::with_b(&p, &b));
    }
    // a single pattern, and a permutation, each damaged now and then
    let vertices = 1 + d.below(scale.psd);
    let orig_index = d.next() as u32;
    let made = random::pattern(&mut d, orig_index, vertices);
    let mut words = made.words();
    let length = d.below(9);
    let mut permutation = d.permutation(length);
    if d.chance(25) {
        let mut only = Problem { pattern_count: 1, pattern_words: words, ..Problem::default() };
        let check = 5 + d.below(3);
        random::damage(&mut d, &mut only, check);
        words = only.pattern_words;
    }
    if d.chance(25) && !permutation.is_empty() {
        let at = d.below(permutation.len());
        permutation[at] = if d.chance(50) { permutation[0] } else { d.next() as u32 };
    }
    against::compare_small(report, &words, &permutation);
    if door::LINKED {
        door::compare_small(report, &mut d, &words, &permutation);
    }
    if door::LINKED {
        let second = random::second_pass(&mut d, &p, scale);
        added::compare_pool(report, &mut d, &p, &second);
    }
    // two problems, mostly the same except for one table
    let (mut first, mut second) = (p.clone(), p);
    match d.below(8) {
        0..=1 => {
            let check = 1 + d.below(9);
            random::damage(&mut d, &mut second, check);
        }
        2 => second = case_problem(&mut d, scale),
        3 => {}
        _ => random::nearly_same(&mut d, &mut first, &mut second),
    }
    against::compare_same_layout(report, &first, &second);
    if door::LINKED {
        door::compare_same_layout(report, &mut d, &first, &second);
    }
}

fn random_cases(report: &mut Report, o: &Options) {
    against::compare_pairs(report);
    if door::LINKED {
        door::compare_pairs(report);
    }
    for (_, p) in random::at_limits() {
        let mut d = case_draws(o.seed, u64::MAX);
        for &route in &o.routes {
            let shape = expected::solution_shape(route, &p);
            let solution = random::solution(&mut d, &shape.clone().unwrap_or_default());
            against::compare(report, route, &p, shape.is_some().then_some(&solution), 0);
            if door::LINKED {
                for _ in 0..4 {
                    door::compare_cut(report, &mut d, route, &p);
                }
                door::compare_join(report, &mut d, route, &p, &solution);
                if route == Route::Standard {
                    added::compare_change_route(report, &mut d, &p, &solution);
                }
            }
        }
    }
    if door::LINKED && o.routes.contains(&Route::Compact) {
        for (_, p) in random::at_limits() {
            let mut d = case_draws(o.seed, u64::MAX);
            added::compare_between(report, &mut d, &p, &p.b, &p.b);
            added::compare_many(report, &mut d, 1, &p);
            added::compare_many(report, &mut d, 2, &sides::with_b(&p, &[&p.b[..], &p.b].concat()));
        }
    }
    if door::LINKED {
        let mut d = case_draws(o.seed, u64::MAX);
        for (_, p) in random::at_limits() {
            added::compare_pool(report, &mut d, &p, &p);
        }
        for (_, [first, second], _) in random::pools_at_limits() {
            added::compare_pool(report, &mut d, &first, &second);
        }
    }
    let started = Instant::now();
    for index in 0..o.cases {
        let scale = match index % 20 {
            0..=5 => random::TINY,
            19 => random::LARGE,
            _ => random::SMALL,
        };
        case(report, o, index, scale);
        if index % 4096 == 4095 || index + 1 == o.cases {
            eprint!(
                "\r{} of {} cases, {} failed, {:.0} s ",
                index + 1,
                o.cases,
                report.failures(),
                started.elapsed().as_secs_f64()
            );
            let _ = std::io::stderr().flush();
        }
    }
    eprintln!();
    if report.failed() {
        eprintln!("looking for smaller ones");
        for index in 0..100_000u64 {
            case(report, o, u64::MAX / 2 + index, random::TINY);
        }
    }
}

fn exhaustive_cases(report: &mut Report, o: &Options) {
    let mut d = case_draws(o.seed, 0);
    for vertices in 1..=4 {
        let mut seen = 0u64;
        exhaustive::patterns(vertices, &mut d, &mut |d, pattern| {
            seen += 1;
            let mut p = exhaustive::problem(d, &pattern);
            let changes: [fn(&mut Draws, &mut Problem); 3] =
                [|_, _| (), random::repeat_entries, |_, p| random::no_columns(p)];
            for change in changes {
                change(d, &mut p);
                for &route in &o.routes {
                    let shape = expected::solution_shape(route, &p);
                    if shape.is_none() || expected::accepted(route, &p).is_err() {
                        report.fail("a clique tree is refused", p.weight(), || report::problem_text(&p));
                    }
                    let solution = random::solution(d, &shape.unwrap_or_default());
                    against::compare(report, route, &p, Some(&solution), seen as usize % 3);
                    if door::LINKED {
                        door::compare_cut(report, d, route, &p);
                        door::compare_join(report, d, route, &p, &solution);
                        if route == Route::Standard {
                            added::compare_change_route(report, d, &p, &solution);
                        } else {
                            let [low, high] = random::limits(d, &p);
                            added::compare_between(report, d, &p, &low, &high);
                            let (count, b) = random::sides(d, &p);
                            added::compare_many(report, d, count, &sides::with_b(&p, &b));
                        }
                    }
                }
            }
            let words = pattern.words();
            against::compare_small(report, &words, &pattern.ordering);
            if door::LINKED {
                door::compare_small(report, d, &words, &pattern.ordering);
            }
        });
        eprintln!("{vertices} vertices: {seen} clique trees with orderings");
    }
}

// the comparison runs on a thread with Rust's default 2 MB of stack, which a call of the door must not exceed
fn main() {
    let on_thread = std::thread::Builder::new().stack_size(2 << 20).spawn(compare).expect("a thread");
    std::process::exit(on_thread.join().unwrap_or(101));
}

fn compare() -> i32 {
    let mut o = Options { cases: 100_000, seed: 1, routes: vec![Route::Standard, Route::Compact] };
    let (mut mode, mut file, mut one) = ("random", None, 0);
    let mut args = std::env::args().skip(1);
    while let Some(arg) = args.next() {
        let mut value = || {
            args.next().unwrap_or_else(|| {
                eprintln!("{arg} wants a value\n{HELP}");
                std::process::exit(2)
            })
        };
        match arg.as_str() {
            "--cases" => o.cases = value().parse().expect("a number of cases"),
            "--seed" => o.seed = value().parse().expect("a seed"),
            "--routes" => {
                o.routes = match value().as_str() {
                    "standard" => vec![Route::Standard],
                    "compact" => vec![Route::Compact],
                    _ => vec![Route::Standard, Route::Compact],
                }
            }
            "--exhaustive" => mode = "exhaustive",
            "--differences" => mode = "differences",
            "--rounding" => mode = "rounding",
            "--both-routes" => mode = "both routes",
            "--loads" => mode = "loads",
            "--test-load" => mode = "test load",
            "--malformed" => mode = "malformed",
            "--files" => mode = "files",
            "--program" => (mode, file) = ("program", Some(value())),
            "--refused" => mode = "refused",
            "--speed" => mode = "speed",
            "--rounds" => speed::MOST_ROUNDS.store(value().parse().expect("a number of rounds"), Ordering::Relaxed),
            "--vectors" => (mode, file) = ("vectors", Some(value())),
            "--samples" => (mode, file) = ("samples", Some(value())),
            "--file-answers" => (mode, file) = ("file answers", Some(value())),
            "--store" => (mode, file) = ("store", Some(value())),
            "--case" => (mode, one) = ("one", value().parse().expect("a case's number")),
            _ => {
                eprintln!("{HELP}");
                std::process::exit(2);
            }
        }
    }
    let mut report = Report::default();
    match mode {
        "differences" => {
            differences::print();
            return 0;
        }
        "malformed" => return malformed::print() as i32,
        "refused" => return refused::print() as i32,
        "speed" => {
            speed::print();
            return 0;
        }
        "store" => {
            let folder = file.unwrap();
            store::write(folder.as_ref(), o.cases, o.seed).expect("writing");
            println!("{} cases of each family stored in {folder}", o.cases);
            return 0;
        }
        "file answers" => {
            files::write_answers(file.unwrap().as_ref(), o.cases, o.seed).expect("writing");
            return 0;
        }
        "samples" => {
            files::write_samples(file.unwrap().as_ref()).expect("writing");
            return 0;
        }
        "vectors" => {
            let mut d = case_draws(o.seed, 0);
            if let Err(e) = vectors::compare(&mut report, &mut d, file.unwrap().as_ref()) {
                eprintln!("{e}");
                std::process::exit(2);
            }
        }
        "rounding" => rounding::compare(&mut report, o.cases, o.seed).print(),
        "both routes" => both_routes::compare(&mut report, o.cases, o.seed),
        "loads" => loads::compare(&mut report, o.cases, o.seed),
        "test load" => {
            print!("{}", loads::test_load_text());
            return 0;
        }
        "files" => files::compare(&mut report, o.cases, o.seed, None),
        "program" => files::compare(&mut report, o.cases, o.seed, file.as_deref().map(str::as_ref)),
        "exhaustive" => exhaustive_cases(&mut report, &o),
        "one" => {
            for scale in [random::TINY, random::SMALL, random::LARGE] {
                let mut d = case_draws(o.seed, one);
                println!("{scale:?}\n{}", report::problem_text(&case_problem(&mut d, scale)));
                case(&mut report, &o, one, scale);
            }
        }
        _ => random_cases(&mut report, &o),
    }
    println!("door: {}", if door::LINKED { "linked" } else { "not linked" });
    report.print();
    report.failed() as i32
}

#[test]
fn limits() {
    let refused: Vec<(String, u32, u32)> = random::at_limits()
        .iter()
        .map(|(name, p)| {
            let number = |route| expected::accepted(route, p).err().unwrap_or(0);
            (name.clone(), number(Route::Standard), number(Route::Compact))
        })
        .collect();
    for (name, standard, compact) in [
        ("n 65536", 0, 0),
        ("n 65537", 1, 1),
        ("m 65536", 0, 0),
        ("m 65537", 1, 1),
        ("size 65536", 0, 0),
        ("size 65537", 1, 1),
        ("cones 1024", 0, 0),
        ("cones 1024 and a part", 4, 4),
        ("cones 1025", 1, 1),
        ("psd 256", 0, 0),
        ("psd 257", 1, 1),
        ("psd second 257", 4, 4),
        ("entries 262144 of A", 0, 0),
        ("entries 262145 of A", 1, 1),
        ("entries 262144 of P", 0, 0),
        ("entries 262145 of P", 1, 1),
        ("entries 262144 in one row", 0, 0),
        ("entries 262144 in one row, cut", 0, 0),
        ("entries 262145 in one row", 1, 1),
        ("entries 262145 in one row, cut", 1, 1),
        ("standard rows 262144, 0 over", 0, 10),
        ("standard rows 262144, 1 over", 10, 10),
        ("overlaps 131072, 0 over", 0, 0),
        ("overlaps 131072, 1 over", 0, 10),
        ("overlaps 131072, 0 over, no columns", 0, 0),
        ("overlaps 131072, 1 over, no columns", 0, 10),
    ] {
        assert!(refused.contains(&(name.into(), standard, compact)), "{name} among {refused:?}");
    }
}
