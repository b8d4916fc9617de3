//! A second implementation of the reducer, in plain Rust, from the text of the paper alone.
//!
//! It is slow on purpose: every "least" is found by trying everything and counting again. Where trying
//! everything is out of reach (`trees`, `fast`), a cleverer way stands beside the plain one and the tests
//! hold it to the plain one. Its answers are what the proved crates are run against.

pub mod aiger;
pub mod assignment;
pub mod buried;
pub mod calls;
pub mod class;
pub mod compare;
pub mod entries;
pub mod evaluation;
pub mod fast;
pub mod file;
pub mod find;
pub mod generate;
pub mod graph;
pub mod join;
pub mod majority;
pub mod many;
pub mod moves;
pub mod packed;
pub mod preview;
pub mod random;
pub mod replay;
pub mod report;
pub mod resistive;
pub mod settling;
pub mod trees;
pub mod vectors;

#[cfg(test)]
mod aiger_tests;
#[cfg(test)]
mod assignment_tests;
#[cfg(test)]
mod class_tests;
#[cfg(test)]
mod compare_tests;
#[cfg(test)]
mod entry_tests;
#[cfg(test)]
mod find_tests;
#[cfg(test)]
mod join_tests;
#[cfg(test)]
mod lock_file_tests;
#[cfg(test)]
mod lock_tests;
#[cfg(test)]
mod majority_tests;
#[cfg(test)]
mod many_tests;
#[cfg(test)]
mod packed_tests;
#[cfg(test)]
mod preview_tests;
#[cfg(test)]
mod resistive_tests;
#[cfg(test)]
mod saving_tests;
#[cfg(test)]
mod tests;
