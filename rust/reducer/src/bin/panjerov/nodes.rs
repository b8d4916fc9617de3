//! The words and the kind of a node, and the word of an output, of a graph that the library has admitted.

use reducer::{Graph, Node};

fn node(graph: &Graph, index: u32) -> Node {
    graph.node(index).expect("an admitted graph has this node")
}

/// The literals of a node: three of a majority, two of an XOR.
pub fn words_of(graph: &Graph, index: u32) -> impl Iterator<Item = u32> {
    let (words, many) = match node(graph, index) {
        Node::Majority(words) => (words, 3),
        Node::Xor([x, y]) => ([x, y, 0], 2),
    };
    words.into_iter().take(many)
}

pub fn is_xor(graph: &Graph, index: u32) -> bool {
    matches!(node(graph, index), Node::Xor(_))
}

/// The literal of an output; outputs count from 1.
pub fn output_of(graph: &Graph, output: u32) -> u32 {
    graph.output(output as usize - 1).expect("an admitted graph has this output")
}
