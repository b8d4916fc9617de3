//! What two implementations are timed by, side by side: graphs, the clock, and runs in turn.
//!
//! Every figure is over 100,000 nodes: a batch of different graphs of one size and shape. A small graph timed again and
//! again would be learnt by heart by the processor's branch predictor, as the graph of a single call never is. A figure
//! is the least of several runs of its whole batch, on the processor; the two implementations and the three sizes take
//! turns: what else the machine does counts little. Both are lent the same tables, restored before the clock is read.

pub mod families;
pub mod found;
pub mod pairs;
pub mod patterns;
pub mod plain;
pub mod proved;
pub mod races;
pub mod samples;
pub mod single;
pub mod woods;

use std::time::Duration;

use reference::generate::Shape;

pub const SIZES: [u32; 3] = [1_000, 10_000, 100_000];
pub const SHAPES: [(&str, Shape); 3] =
    [("random", Shape::Random), ("tree-like", Shape::Tree), ("with XOR", Shape::Xor)];

/// How many nodes the graphs of a batch have together.
pub const BATCH_NODES: u32 = 100_000;
/// At how many nodes of each graph the node, pair and tree calls are made.
pub const SPREAD: usize = 8;
/// One in so many nodes is locked where some are.
pub const LOCKED_ONE_IN: u32 = 10;
/// How many runs a figure has at least, and how long the runs of a call on a shape may then take together.
pub const LEAST_RUNS: u32 = 10;
pub const ENOUGH: Duration = Duration::from_millis(1_500);

/// Seconds and nanoseconds.
type Time = [i64; 2];

extern "C" {
    /// Of the C library, which std links.
    fn clock_gettime(clock: i32, time: *mut Time) -> i32;
}

/// How long this thread has had the processor, in nanoseconds.
///
/// By the clock on the wall, other work would count against the slower of two, whose runs it is more likely to meet.
/// This clock is some microseconds slow at times, where a virtual machine's kernel takes off what it believes to have
/// been without a processor: it can lose all of a short call, but next to nothing of a batch.
fn on_processor() -> f64 {
    const OF_THREAD: i32 = 3;
    let mut time = [0; 2];
    let failed = unsafe { clock_gettime(OF_THREAD, &mut time) };
    assert_eq!(failed, 0, "the processor's time is not told");
    time[0] as f64 * 1e9 + time[1] as f64
}
