//! A large graph with a pattern that no assignment gives, so that all are tried.

use reference::generate::{graph, Shape};
use reference::graph::Graph;
use reference::packed::{pack, Packed};
use reference::random::Random;

/// A graph, the pattern, and scratch.
#[derive(Clone)]
pub struct Pattern {
    pub g: Packed,
    pub wanted: [u8; 2],
    pub scratch: Vec<u64>,
}

impl Pattern {
    /// Of 16 inputs: the last node and its complement are both wanted 1.
    pub fn new(shape: Shape, nodes: u32) -> Pattern {
        let g = graph(&mut Random::new(nodes.into()), shape, 16, nodes, 0);
        let last = 2 * (g.inputs + g.nodes);
        let g = Graph { outputs: 2, output_table: vec![last, last + 1], ..g };
        Pattern { g: pack(&g), wanted: [1, 1], scratch: vec![0; nodes as usize] }
    }
}

/// What is found as one number: none is 0.
pub fn told(found: Option<u32>) -> u64 {
    found.map_or(0, |number| u64::from(number) + 1)
}
