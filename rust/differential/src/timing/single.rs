//! Two implementations at work on one large sample, in turn.

use std::time::Instant;

use super::{on_processor, ENOUGH, LEAST_RUNS};

/// A call on a sample, and what it answers as one number.
pub type Made<S> = fn(&mut S) -> u64;

/// The least time of either implementation, in nanoseconds. Each has a fresh sample for each run, and either is first in turn; both must answer
/// and leave the same.
pub fn race<S: Clone, L: PartialEq>(name: &str, fresh: &S, made: [Made<S>; 2], left: fn(S) -> L) -> [f64; 2] {
    let (start, mut runs, mut times) = (Instant::now(), 0, [f64::INFINITY; 2]);
    while runs < LEAST_RUNS as usize || start.elapsed() < ENOUGH {
        let mut due: Option<(u64, L)> = None;
        for which in [runs % 2, 1 - runs % 2] {
            let mut sample = fresh.clone();
            let start = on_processor();
            let answer = made[which](&mut sample);
            let time = on_processor() - start;
            let got = (answer, left(sample));
            assert!(due.is_none_or(|due| due == got), "the two differ at {name}");
            times[which] = times[which].min(time);
            due = Some(got);
        }
        runs += 1;
    }
    times
}
