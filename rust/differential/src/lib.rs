//! The proved reducer held, through its C interface, to implementations that share no line with it.
//!
//! `plain` is a reducer in ordinary Rust by the same algorithms as the proved one: what the benchmark times it against, and
//! a fast second opinion on graphs that are too large for the crate `reference`, to which it is itself held on small ones.

pub mod assignment;
pub mod assignment_faults;
pub mod bit_faults;
pub mod call_faults;
pub mod cases;
pub mod class;
pub mod class_faults;
pub mod compare;
pub mod compare_faults;
pub mod exports;
pub mod extremes;
pub mod faults;
pub mod files;
pub mod hidden;
pub mod hidden_faults;
mod interface;
pub mod join;
pub mod join_faults;
pub mod lengths;
pub mod lists;
pub mod lock_fields;
pub mod many;
pub mod many_faults;
pub mod plain;
pub mod preview_faults;
pub mod previews;
pub mod raw;
pub mod replay_faults;
pub mod replays;
pub mod resistive;
pub mod savings;
pub mod shrink;
pub mod stored;
pub mod tables;
pub mod text_limits;
pub mod texts;
pub mod timing;
pub mod trial_faults;
pub mod trials;
pub mod words;
