//! Settling as rounds of single calls.

use crate::graph::{admit, Graph, Number};
use crate::moves::{check_scratch, is_root, node_call, pair_call, tree_call_by, Saving};
use crate::trees::best_within;

#[derive(Clone, Copy, Debug, PartialEq, Eq)]
pub struct Settled {
    pub rounds: u32,
    pub before: u32,
    pub after: u32,
    /// The sums of what all its calls save.
    pub own: i64,
    pub others: i64,
}

/// Trees of at most this many lists of moves are settled by trying all of them.
pub const MOST_TRIED: u64 = 256;

/// One round; the sum of what its calls save.
fn round(g: &mut Graph) -> Saving {
    let mut saved = Saving::default();
    let scratch = 8 * g.nodes as usize;
    for node in g.node_indices() {
        if is_root(g, node) {
            let find = |g: &Graph, nodes: &[u32]| best_within(MOST_TRIED, g, nodes);
            saved += tree_call_by(g, node, scratch, &find).expect("a root");
        }
    }
    for node in g.node_indices() {
        saved += node_call(g, node).expect("a node");
    }
    for node in g.node_indices() {
        for word in 1..=g.words_of(node) as u32 {
            saved += pair_call(g, node, word).expect("a word of a node");
        }
    }
    saved
}

pub fn settle(g: &mut Graph, scratch: usize) -> Result<Settled, Number> {
    admit(g)?;
    check_scratch(g, scratch)?;
    let before = g.c();
    let mut rounds = 0;
    let mut saved = Saving::default();
    loop {
        let start = g.c();
        saved += round(g);
        rounds += 1;
        if g.c() >= start {
            return Ok(Settled {
                rounds,
                before,
                after: g.c(),
                own: saved.own,
                others: saved.others,
            });
        }
    }
}
