//! Cases for the program `vectors`, and the lines that it must print.
//!
//! How a case stands in the stream is said in crates/vectors/src/main.rt.
//!
//! A line has the answer's number (0 where it is accepted), three values of the answer, 0 where it has none, and then slices, each
//! by its length and a checksum: the bytes, both tables, each with its words of bits, and the locks. The field op shows the payload
//! before all this, and writing the length after the values. A join is into these slices. A list of calls shows how many words of answers it has there. A list
//! that is not replayed has the number 1, and shows scratch before that.
//!
//! The program makes a node, pair, tree, settling, many, majority or resistive call, and the finder, as a list of one; on graphs that no file has, with scratch looked at after a
//! refusal, and evaluation, the same cases are run through the C interface, by rust/differential.

use crate::random::Random;
use bit_cases::*;
use call_cases::*;
use case::Case;
use file_cases::*;
use hidden_cases::*;
use join_cases::*;
use many_cases::*;
use resistive_cases::*;

pub mod answer;
pub mod bit_cases;
pub mod call_cases;
pub mod case;
pub mod file_cases;
pub mod hidden_cases;
pub mod join_cases;
pub mod many_cases;
pub mod resistive_cases;
pub mod samples;

/// The cases of the program, and those of single calls and evaluation.
pub fn cases(seed: u64) -> (Vec<Case>, Vec<Case>) {
    let mut random = Random::new(seed);
    let mut stored = admission_cases(&mut random);
    stored.extend(field_cases(&mut random));
    stored.extend(load_cases(&mut random));
    stored.extend(write_cases(&mut random));
    let mut direct = evaluate_cases(&mut random);
    direct.extend(call_cases(&mut random));
    direct.extend(pair_cases(&mut random));
    direct.extend(tree_cases(&mut random));
    direct.extend(settle_cases(&mut random));
    stored.extend(direct.iter().filter_map(Case::as_list));
    stored.extend(list_cases(&mut random));
    let many = many_cases(&mut random);
    stored.extend(many.iter().filter_map(Case::as_list));
    stored.extend(many_list_cases(&mut random));
    direct.extend(many);
    let packed = packed_cases();
    stored.extend(packed.0);
    direct.extend(packed.1);
    // From a seed of their own, so that no other case moves.
    let other = &mut Random::new(seed + 1);
    let hidden = hidden_cases(other);
    let changing = hidden.iter().filter(|case| changes(case));
    stored.extend(changing.filter_map(Case::as_list));
    stored.extend(hidden_list_cases(other));
    direct.extend(hidden);
    let other = &mut Random::new(seed + 2);
    let resistive = resistive_cases(other);
    let changing = resistive.iter().filter(|case| changes(case));
    stored.extend(changing.filter_map(Case::as_list));
    stored.extend(resistive_list_cases(other));
    direct.extend(resistive);
    stored.extend(join_cases(&mut Random::new(seed + 3)));
    let mut lengthen = |cases: Vec<Case>| -> Vec<Case> {
        let all = cases.into_iter();
        all.map(|case| case.lengthened(&mut random)).collect()
    };
    (lengthen(stored), lengthen(direct))
}

/// The seed of the stored cases.
pub const SEED: u64 = 20_001;
