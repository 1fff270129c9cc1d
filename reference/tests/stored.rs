//! The vectors that the repository stores for its programs are those made here, byte by byte, and no program is left out.

use std::collections::BTreeSet;
use std::fs;
use std::path::PathBuf;

use reference::vectors::{vectors, PROGRAMS};

fn crates() -> PathBuf {
    PathBuf::from(env!("CARGO_MANIFEST_DIR")).join("../crates")
}

/// Names of the crates that have a file or directory of this name.
fn having(name: &str) -> BTreeSet<String> {
    fs::read_dir(crates())
        .expect("the directory of crates")
        .map(|found| found.expect("a crate").path())
        .filter(|found| found.join(name).exists())
        .map(|found| found.file_name().unwrap().to_string_lossy().into_owned())
        .collect()
}

/// Where two files differ first.
fn place(one: &[u8], other: &[u8]) -> usize {
    let differing = one.iter().zip(other).position(|(a, b)| a != b);
    differing.unwrap_or(one.len().min(other.len()))
}

fn compare(program: &str, name: &str, made: &[u8]) {
    let file = crates().join(program).join(name);
    let stored = fs::read(&file)
        .unwrap_or_else(|error| panic!("crates/{program}/{name} cannot be read: {error}"));
    assert!(
        stored == made,
        "crates/{program}/{name} is not as made: byte {} differs; it has {} bytes, due are {}",
        place(&stored, made),
        stored.len(),
        made.len()
    );
}

#[test]
fn stored_files_are_as_made() {
    for program in PROGRAMS {
        let made = vectors(program).expect("its vectors");
        assert!(made.cases > 0 && !made.output.is_empty(), "{program}");
        compare(program, "stdin", &made.input);
        compare(program, "stdout", made.output.as_bytes());
    }
}

/// A program is a crate with a main function; each has vectors, and what is stored belongs to one.
#[test]
fn every_program_has_vectors() {
    let due: BTreeSet<String> = PROGRAMS.into_iter().map(String::from).collect();
    for name in ["src/main.rt", "stdin", "stdout"] {
        assert_eq!(having(name), due, "crates with {name}");
    }
}
