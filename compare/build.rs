// Links the libdoor.a in the folder that CHORDAL_DOOR_LIB names; compare/run names it.
use std::path::PathBuf;
use std::{env, fs};

const CALLS: [&str; 17] = [
    "chordal_pair_index",
    "chordal_pair_back",
    "chordal_inverse",
    "chordal_renumber",
    "chordal_sizes",
    "chordal_cut",
    "chordal_join",
    "chordal_same_layout",
    "chordal_change_route",
    "chordal_cut_between",
    "chordal_cut_many",
    "chordal_pool",
    "chordal_generate_sizes",
    "chordal_generate",
    "chordal_file_words",
    "chordal_read_file",
    "chordal_write_file",
];

fn main() {
    println!("cargo:rustc-check-cfg=cfg(door)");
    println!("cargo:rerun-if-env-changed=CHORDAL_DOOR_LIB");
    let Some(folder) = env::var_os("CHORDAL_DOOR_LIB").map(PathBuf::from) else {
        return;
    };
    let archive = folder.join("libdoor.a");
    println!("cargo:rerun-if-changed={}", archive.display());
    let bytes = fs::read(&archive).unwrap_or_else(|e| panic!("{}: {e}", archive.display()));
    for call in CALLS {
        let there = bytes.windows(call.len()).any(|part| part == call.as_bytes());
        assert!(there, "{} has no {call}", archive.display());
    }
    println!("cargo:rustc-link-arg={}", archive.display());
    println!("cargo:rustc-cfg=door");
}
