//! Lists of calls, made one after the other on one graph.

use crate::find::find;
use crate::graph::{Graph, Number};
use crate::majority::{majority, Majority};
use crate::many::many;
use crate::moves::{node_call, pair_call, tree_call_by, Saving};
use crate::resistive::resistive_call;
use crate::settling::{settle, Settled, MOST_TRIED};
use crate::trees::best_within;

#[derive(Clone, Debug, PartialEq, Eq)]
pub enum Call {
    Node(u32),
    Pair(u32, u32),
    Tree(u32),
    Settle,
    Many {
        list: Vec<u32>,
        moves: Vec<u8>,
    },
    Majority {
        node: u32,
        three: [u32; 3],
    },
    Find,
    /// A tree for resistive memory.
    Resistive(u32),
}

#[derive(Clone, Copy, Debug, PartialEq, Eq)]
pub enum Answer {
    Saving(Saving),
    Settled(Settled),
    /// Of many moves: one number.
    Total(i64),
    Majority(Majority),
    /// Of the finder: the new N.
    Found(u32),
    Refused(Number),
}

fn saving(result: Result<Saving, Number>) -> Answer {
    match result {
        Ok(saved) => Answer::Saving(saved),
        Err(number) => Answer::Refused(number),
    }
}

pub fn step(g: &mut Graph, call: &Call, scratch: usize) -> Answer {
    let least = |g: &Graph, nodes: &[u32]| best_within(MOST_TRIED, g, nodes);
    match *call {
        Call::Node(node) => saving(node_call(g, node)),
        Call::Pair(node, word) => saving(pair_call(g, node, word)),
        Call::Tree(root) => saving(tree_call_by(g, root, scratch, &least)),
        Call::Settle => match settle(g, scratch) {
            Ok(settled) => Answer::Settled(settled),
            Err(number) => Answer::Refused(number),
        },
        Call::Many {
            ref list,
            ref moves,
        } => many(g, list, moves).map_or_else(Answer::Refused, Answer::Total),
        Call::Majority { node, three } => {
            majority(g, node, three, scratch).map_or_else(Answer::Refused, Answer::Majority)
        }
        Call::Find => find(g, scratch).map_or_else(Answer::Refused, Answer::Found),
        Call::Resistive(root) => saving(resistive_call(g, root, scratch, MOST_TRIED)),
    }
}

/// The answers, a refused call leaving the graph to the next one as it was.
pub fn run(g: &mut Graph, calls: &[Call], scratch: usize) -> Vec<Answer> {
    calls.iter().map(|call| step(g, call, scratch)).collect()
}
