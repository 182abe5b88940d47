//! A problem that another alignment tool hands over as a file: read, cut, and written again as a file for the solver's
//! side.
//!
//! `cargo run --example handed_over -- IN OUT` reads the file IN and writes the compact problem to OUT; without names it
//! takes three projectors and says what it would write.

use std::process::ExitCode;
use tejiwakpa::{cut, Problem, Refusal, Route};

/// The file of the compact problem, which has no patterns.
fn compact(file: &[u8]) -> Result<Vec<u8>, Refusal> {
    let problem = Problem::from_file_bytes(file)?;
    cut(Route::Compact, &problem)?.problem.to_file_bytes()
}

fn main() -> ExitCode {
    let names: Vec<String> = std::env::args().skip(1).collect();
    let file = match names.first() {
        Some(name) => std::fs::read(name).expect("a file to read"),
        None => Problem::three_projectors().to_file_bytes().expect("a problem that passes the checks"),
    };
    match compact(&file) {
        Ok(out) => {
            println!("{} bytes in, {} bytes out", file.len(), out.len());
            if let Some(name) = names.get(1) {
                std::fs::write(name, out).expect("a file to write");
            }
            ExitCode::SUCCESS
        }
        Err(refusal) => {
            eprintln!("{refusal}");
            ExitCode::FAILURE
        }
    }
}

#[test]
fn the_compact_problem() {
    let file = Problem::three_projectors().to_file_bytes().unwrap();
    let out = Problem::from_file_bytes(&compact(&file).unwrap()).unwrap();
    assert_eq!(out, cut(Route::Compact, &Problem::three_projectors()).unwrap().problem);
    assert!(out.patterns.is_empty());
    assert_eq!(compact(&file[..80]), Err(Refusal::FileLength));
}
