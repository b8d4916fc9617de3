//! Two large graphs to time calls on both on.

use reference::fast::Fast;
use reference::generate::{graph, Shape};
use reference::moves::rows;
use reference::packed::{pack, Lengths, Packed};
use reference::random::Random;
use reference::vectors::case::unfilled;

/// Two graphs of one wiring, and a byte a node.
#[derive(Clone)]
pub struct Moved {
    pub first: Packed,
    pub second: Packed,
    pub moves: Vec<u8>,
}

impl Moved {
    /// The second after a random move at each node of the first.
    pub fn new(shape: Shape, nodes: u32) -> Moved {
        let mut random = Random::new(nodes.into());
        let g = graph(&mut random, shape, 256, nodes, 128);
        let mut made = Fast::new(g.clone());
        for node in g.node_indices() {
            made.make(node, random.below(rows(&g, node).len() as u32) as usize);
        }
        Moved { first: pack(&g), second: pack(&made.g), moves: vec![0; nodes as usize] }
    }
}

/// Two graphs that meet, and what is lent for the joined one.
#[derive(Clone)]
pub struct Stages {
    pub first: Packed,
    pub second: Packed,
    pub joined: Packed,
}

impl Stages {
    /// Of so many nodes each.
    pub fn new(shape: Shape, nodes: u32) -> Stages {
        let mut random = Random::new(nodes.into());
        let [first, second] = [0; 2].map(|_| pack(&graph(&mut random, shape, 128, nodes, 128)));
        Stages { first, second, joined: unfilled(Lengths::of(2 * nodes as usize, 128)) }
    }
}
