//! The finder timed, on one graph of each family.

use std::time::{Duration, Instant};

use reducer::scratch_words;
use reference::packed::Packed;

use super::families::Family;
use super::{on_processor, ENOUGH, LEAST_RUNS};

/// The finder of an implementation: the new N.
pub type Find = fn(&mut Packed, &mut [u32]) -> u32;

/// A figure has fewer runs where they take longer than this.
const TOO_LONG: Duration = Duration::from_secs(20);

/// The nodes before and after, and the least time of either implementation, in nanoseconds.
pub struct Figure {
    pub before: u32,
    pub after: u32,
    pub times: [f64; 2],
}

/// One implementation on a fresh graph: the graph that it leaves, and its time.
fn run(find: Find, fresh: &Packed, scratch: &mut [u32]) -> (Packed, f64) {
    let mut g = fresh.clone();
    let start = on_processor();
    let nodes = find(&mut g, scratch);
    let time = on_processor() - start;
    (Packed { nodes, ..g }, time)
}

/// The implementations take turns, and must leave the same.
pub fn time(family: &Family, nodes: u32, finds: [Find; 2]) -> Figure {
    let fresh = family.lent(nodes);
    let mut scratch = vec![0; scratch_words(fresh.nodes)];
    let (start, mut runs) = (Instant::now(), 0);
    let mut figure = Figure { before: fresh.nodes, after: 0, times: [f64::INFINITY; 2] };
    while start.elapsed() < TOO_LONG && (runs < LEAST_RUNS || start.elapsed() < ENOUGH) {
        let mut left: Option<Packed> = None;
        for (find, least) in finds.into_iter().zip(&mut figure.times) {
            let (g, time) = run(find, &fresh, &mut scratch);
            assert!(left.is_none_or(|left| left == g), "the two differ at {}", family.name);
            *least = least.min(time);
            figure.after = g.nodes;
            left = Some(g);
        }
        runs += 1;
    }
    figure
}
