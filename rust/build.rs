//! Links libdoor.a: the one in the folder that CHORDAL_DOOR_LIB names, or else the one that `rt lib` makes in crates/door.

use std::path::{Path, PathBuf};
use std::process::Command;
use std::{env, fs};

const CALLS: [&str; 17] = [
    "chordal_pair_index",
    "chordal_pair_back",
    "chordal_inverse",
    "chordal_renumber",
    "chordal_sizes",
    "chordal_cut",
    "chordal_join",
    "chordal_same_layout",
    "chordal_change_route",
    "chordal_cut_between",
    "chordal_cut_many",
    "chordal_pool",
    "chordal_generate_sizes",
    "chordal_generate",
    "chordal_file_words",
    "chordal_read_file",
    "chordal_write_file",
];

fn main() {
    println!("cargo:rerun-if-changed=build.rs");
    println!("cargo:rerun-if-env-changed=CHORDAL_DOOR_LIB");
    let archive = match env::var_os("CHORDAL_DOOR_LIB") {
        Some(folder) => {
            let archive = PathBuf::from(folder).join("libdoor.a");
            println!("cargo:rerun-if-changed={}", archive.display());
            archive
        }
        None => made(),
    };
    let bytes = fs::read(&archive).unwrap_or_else(|e| panic!("{}: {e}", archive.display()));
    for call in CALLS {
        let there = bytes.windows(call.len()).any(|part| part == call.as_bytes());
        assert!(there, "{} has no {call}", archive.display());
    }
    // linked from a copy, which stays when out/ of the crate is removed
    let here = PathBuf::from(env::var_os("OUT_DIR").unwrap());
    fs::write(here.join("libdoor.a"), bytes).unwrap();
    println!("cargo:rustc-link-search=native={}", here.display());
    println!("cargo:rustc-link-lib=static=door");
}

// proves what has changed and makes the archive
fn made() -> PathBuf {
    let package = env::var_os("CARGO_MANIFEST_DIR").unwrap();
    let root = Path::new(&package).parent().unwrap();
    println!("cargo:rerun-if-changed={}", root.join("crates.txt").display());
    // each crate's text, and not what is made from it in out/
    for entry in fs::read_dir(root.join("crates")).unwrap() {
        for part in ["src", "specs", "proofs"] {
            let folder = entry.as_ref().unwrap().path().join(part);
            if folder.is_dir() {
                println!("cargo:rerun-if-changed={}", folder.display());
            }
        }
    }
    match Command::new("rt").arg("lib").current_dir(root.join("crates/door")).output() {
        Err(e) => panic!("rt: {e}; name the folder of a libdoor.a by CHORDAL_DOOR_LIB"),
        Ok(run) if !run.status.success() => {
            let said = [run.stdout, run.stderr].map(|text| String::from_utf8_lossy(&text).into_owned());
            panic!("rt lib has failed in crates/door\n{}", said.concat())
        }
        Ok(_) => root.join("crates/door/out/libdoor.a"),
    }
}
