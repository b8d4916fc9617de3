//! Writes the cases that the program `vectors` reads and the lines that it must print, from the answers of
//! this package. Run it again, in the repository's root, after a change of the cases:
//!
//!     cargo run --release --manifest-path rust/reference/Cargo.toml --bin vectors
//!
//! It writes crates/vectors/stdin and crates/vectors/stdout. A folder may be given to write to instead, and
//! after it another seed than the stored cases have.

use std::fs;
use std::path::PathBuf;

use reference::vectors::answer::answer;
use reference::vectors::case::Case;
use reference::vectors::{cases, SEED};

fn main() {
    let folder = match std::env::args().nth(1) {
        Some(given) => PathBuf::from(given),
        None => PathBuf::from(env!("CARGO_MANIFEST_DIR")).join("../../crates/vectors"),
    };
    let seed = std::env::args()
        .nth(2)
        .map_or(SEED, |given| given.parse().expect("a seed"));
    let (cases, _) = cases(seed);
    let stdin: Vec<u8> = cases.iter().flat_map(Case::encoded).collect();
    let stdout: String = cases.iter().map(answer).collect();
    fs::write(folder.join("stdin"), &stdin).expect("stdin written");
    fs::write(folder.join("stdout"), &stdout).expect("stdout written");
    println!(
        "{} cases, {} bytes in, {} bytes out",
        cases.len(),
        stdin.len(),
        stdout.len()
    );
}
