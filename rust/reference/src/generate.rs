//! Graphs to try, of several shapes.

use crate::graph::{Graph, MARK};
use crate::moves::moves_at;
use crate::packed::Packed;
use crate::random::Random;

#[derive(Clone, Copy, Debug, PartialEq, Eq)]
pub enum Shape {
    /// Words among all indices below.
    Random,
    /// Words among nodes that nothing reads yet, so that trees grow large.
    Tree,
    /// Each node reads the one before it.
    Chain,
    /// Mostly XOR.
    Xor,
    /// The constant in every place, often.
    Constants,
    /// One node read two or three times by another.
    Repeats,
    /// Nodes read by outputs alone, by several outputs often.
    OutputRoots,
    /// Few words name nodes, so most nodes are unread.
    Unread,
}

pub const SHAPES: [Shape; 8] = [
    Shape::Random,
    Shape::Tree,
    Shape::Chain,
    Shape::Xor,
    Shape::Constants,
    Shape::Repeats,
    Shape::OutputRoots,
    Shape::Unread,
];

/// Takes a node that nothing reads yet, mostly an early one, if there is any.
fn take_unread(random: &mut Random, unread: &mut Vec<u32>) -> Option<u32> {
    if unread.is_empty() {
        return None;
    }
    let span = (unread.len() as u32).min(4);
    Some(unread.remove(random.below(span) as usize))
}

fn pick(random: &mut Random, shape: Shape, inputs: u32, node: u32, unread: &mut Vec<u32>) -> u32 {
    let any = random.below(node);
    let low = random.below(inputs + 1);
    match shape {
        Shape::Random | Shape::Xor => any,
        Shape::Tree => {
            if random.one_in(2) {
                low
            } else {
                take_unread(random, unread).unwrap_or(low)
            }
        }
        Shape::Chain => {
            if random.one_in(2) {
                node - 1
            } else {
                low
            }
        }
        Shape::Constants => {
            if random.one_in(2) {
                0
            } else {
                any
            }
        }
        Shape::Repeats => any,
        Shape::OutputRoots | Shape::Unread => {
            if random.one_in(6) {
                any
            } else {
                low
            }
        }
    }
}

fn node_words(
    random: &mut Random,
    shape: Shape,
    inputs: u32,
    node: u32,
    unread: &mut Vec<u32>,
) -> [u32; 3] {
    let xor = match shape {
        Shape::Xor => !random.one_in(6),
        Shape::Chain => random.one_in(4),
        _ => random.one_in(3),
    };
    let mut indices = [0u32; 3];
    for index in indices.iter_mut().take(if xor { 2 } else { 3 }) {
        *index = pick(random, shape, inputs, node, unread);
    }
    if shape == Shape::Chain && node > inputs + 1 {
        indices[random.below(2) as usize] = node - 1;
    }
    if shape == Shape::Repeats {
        match random.below(4) {
            0 => indices[1] = indices[0],
            1 => indices[2] = indices[0],
            2 => indices = [indices[0]; 3],
            _ => {}
        }
    }
    let mut words = [0u32; 3];
    for (word, index) in words.iter_mut().zip(indices) {
        *word = 2 * index + random.bit();
    }
    if xor {
        words[2] = MARK;
    }
    words
}

/// An admitted graph with every node free, its tables and locks of just the right length.
pub fn graph(random: &mut Random, shape: Shape, inputs: u32, nodes: u32, outputs: u32) -> Graph {
    let mut node_table = Vec::new();
    let mut unread: Vec<u32> = Vec::new();
    for node in inputs + 1..=inputs + nodes {
        node_table.extend(node_words(random, shape, inputs, node, &mut unread));
        unread.push(node);
    }
    let mut output_table = Vec::new();
    for output in 0..outputs {
        let index = match shape {
            Shape::Tree | Shape::Chain if output == 0 => inputs + nodes,
            Shape::OutputRoots if nodes > 0 => random.between(inputs + 1, inputs + nodes),
            Shape::Unread => random.below(inputs + 1),
            Shape::Constants if random.one_in(2) => 0,
            _ => random.below(inputs + nodes + 1),
        };
        output_table.push(2 * index + random.bit());
    }
    Graph {
        inputs,
        nodes,
        outputs,
        node_table,
        output_table,
        locks: vec![0; nodes as usize],
    }
}

/// A graph whose three counts are random too, up to the bounds given.
pub fn small(random: &mut Random, most_inputs: u32, most_nodes: u32, most_outputs: u32) -> Graph {
    let shape = SHAPES[random.below(SHAPES.len() as u32) as usize];
    let inputs = random.between(0, most_inputs);
    let nodes = random.between(0, most_nodes);
    let outputs = random.between(0, most_outputs);
    graph(random, shape, inputs, nodes, outputs)
}

/// Each node locked with a chance of one in so many.
pub fn locked_one_in(random: &mut Random, mut g: Graph, many: u32) -> Graph {
    for byte in &mut g.locks[..g.nodes as usize] {
        *byte = random.one_in(many) as u8;
    }
    g
}

/// No node locked, or all, or some.
pub fn with_locks(random: &mut Random, g: Graph) -> Graph {
    match random.below(8) {
        0 | 1 => g,
        2 => locked_one_in(random, g, 1),
        3 | 4 => locked_one_in(random, g, 2),
        _ => locked_one_in(random, g, 5),
    }
}

/// A list of moves that is accepted: one in so many nodes by rising index, with a move that each has.
pub fn moves_of(random: &mut Random, g: &Graph, many: u32) -> (Vec<u32>, Vec<u8>) {
    let mut both = (Vec::new(), Vec::new());
    for node in g.node_indices() {
        if random.one_in(many) {
            both.0.push(node);
            both.1
                .push(random.below(moves_at(g, node).len() as u32) as u8);
        }
    }
    both
}

/// Words behind the graph in both tables, the mark among them, and bytes behind its locks, of which many are no lock.
pub fn with_tails(random: &mut Random, mut g: Graph, most: u32) -> Graph {
    for table in [&mut g.node_table, &mut g.output_table] {
        for _ in 0..random.between(0, most) {
            let word = if random.one_in(4) {
                MARK
            } else {
                random.below(1000)
            };
            table.push(word);
        }
    }
    for _ in 0..random.between(0, most) {
        g.locks.push([0, 1, 2, 200, 255][random.below(5) as usize]);
    }
    g
}

/// Any index: the mark, one of a small graph, or any word.
fn any_index(random: &mut Random) -> u32 {
    match random.below(3) {
        0 => MARK,
        1 => random.below(100),
        _ => random.word() as u32,
    }
}

/// No bit, every bit, or any bits.
fn any_bits(random: &mut Random) -> u64 {
    match random.below(4) {
        0 => 0,
        1 => u64::MAX,
        _ => random.word(),
    }
}

/// Up to so many words or bytes more behind the graph in each slice, with anything in them.
pub fn with_slack(random: &mut Random, mut p: Packed, most: u32) -> Packed {
    for table in [&mut p.node_table, &mut p.output_table] {
        let more = random.between(0, most);
        table.extend((0..more).map(|_| any_index(random)));
    }
    for bits in [&mut p.node_bits, &mut p.output_bits] {
        let more = random.between(0, most);
        bits.extend((0..more).map(|_| any_bits(random)));
    }
    for _ in 0..random.between(0, most) {
        p.locks.push([0, 1, 2, 200, 255][random.below(5) as usize]);
    }
    p
}
