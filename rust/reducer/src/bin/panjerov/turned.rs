//! What turned between two graphs that the library has admitted, or why no moves lead from one to the other.

use crate::nodes::{is_xor, output_of, words_of};
use crate::parts::sizes;
use reducer::{Compared, Difference, Graph};

/// Why no moves lead from one graph to another.
#[derive(Debug, PartialEq, Eq)]
pub enum Apart {
    /// Sizes, kinds or indices differ, and where first.
    Wiring(String),
    /// The place that no moves explain, and what stands there.
    Bit(String, String),
    /// The library refuses a graph.
    Refused(String),
}

fn kind(graph: &Graph, node: u32) -> &'static str {
    if is_xor(graph, node) {
        "an XOR"
    } else {
        "a majority"
    }
}

/// The node and the word, from 1, at a place of the node table.
fn node_at(graph: &Graph, place: usize) -> (u32, usize) {
    (graph.size.inputs + 1 + (place / 3) as u32, 1 + place % 3)
}

fn other_node(graphs: [&Graph; 2], place: usize) -> String {
    let (node, word) = node_at(graphs[0], place);
    let [first, second] = graphs.map(|graph| kind(graph, node));
    if first != second {
        return format!("node {node} is {first} before and {second} after");
    }
    let [before, after] = graphs.map(|graph| words_of(graph, node).nth(word - 1).unwrap_or_default() / 2);
    format!("word {word} of node {node} names index {before} before and {after} after")
}

/// How a place is complemented in both graphs.
fn turned(place: String, literals: [u32; 2]) -> String {
    let [before, after] = literals.map(|literal| if literal % 2 == 1 { "complemented" } else { "plain" });
    format!("{place} is {before} before and {after} after")
}

/// What a difference says in words.
fn apart(graphs: [&Graph; 2], difference: Difference) -> Apart {
    let outputs = |place: usize| graphs.map(|graph| output_of(graph, place as u32 + 1));
    match difference {
        Difference::Inputs | Difference::Nodes | Difference::Outputs => {
            let [first, second] = graphs.map(|graph| sizes(graph.size).join(", "));
            Apart::Wiring(format!("{first} before and {second} after"))
        }
        Difference::NodeIndex(place) => Apart::Wiring(other_node(graphs, place)),
        Difference::OutputIndex(place) => {
            let [before, after] = outputs(place).map(|literal| literal / 2);
            Apart::Wiring(format!("output {} names index {before} before and {after} after", place + 1))
        }
        Difference::NodeBit(place) => {
            let (node, word) = node_at(graphs[0], place);
            let literals = graphs.map(|graph| words_of(graph, node).nth(word - 1).unwrap_or_default());
            Apart::Bit(format!("node {node}"), turned(format!("word {word} of node {node}"), literals))
        }
        Difference::OutputBit(place) => {
            let output = format!("output {}", place + 1);
            Apart::Bit(output.clone(), turned(output, outputs(place)))
        }
    }
}

/// A byte a node by rising index: the move that all moves made there come to.
pub fn moves(before: &Graph, after: &Graph) -> Result<Vec<u8>, Apart> {
    match before.compare(after) {
        Ok(Compared::Moves(moves)) => Ok(moves),
        Ok(Compared::Differ(difference)) => Err(apart([before, after], difference)),
        Err(refusal) => Err(Apart::Refused(refusal.to_string())),
    }
}

#[cfg(test)]
mod tests {
    use super::*;
    use reducer::MARK;

    fn graph(inputs: u32, node_table: &[u32], output_table: &[u32]) -> Graph {
        Graph::new(inputs, node_table.to_vec(), output_table.to_vec())
    }

    #[test]
    fn wirings() {
        let p3 = graph(5, &[3, 5, 6, 12, 9, 10], &[15]);
        let differs = |inputs, node_table: &[u32], output_table: &[u32]| match moves(
            &p3,
            &graph(inputs, node_table, output_table),
        ) {
            Err(Apart::Wiring(why)) => why,
            other => format!("{other:?}"),
        };
        assert_eq!(differs(5, &[2, 4, 7, 12, 8, 11], &[14]), "Ok([1, 1])");
        assert_eq!(
            differs(5, &[3, 5, 6], &[15]),
            "Err(Refused(\"refused 5: a literal names an index that is not allowed there\"))"
        );
        assert_eq!(
            differs(5, &[3, 5, 6], &[13]),
            "5 inputs, 2 nodes, 1 output before and 5 inputs, 1 node, 1 output after"
        );
        assert_eq!(differs(5, &[3, 5, 6, 12, 9, MARK], &[15]), "node 7 is a majority before and an XOR after");
        assert_eq!(differs(5, &[3, 5, 6, 12, 10, 9], &[15]), "word 2 of node 7 names index 4 before and 5 after");
        assert_eq!(differs(5, &[3, 5, 6, 12, 9, 10], &[13]), "output 1 names index 7 before and 6 after");
    }

    /// Document 01's worked graphs: P1, P2, P3, P5, P6, P9.
    #[test]
    fn moves_of_worked_graphs() {
        let told = |inputs, [x, y]: [&[u32]; 2], [o, p]: [&[u32]; 2]| moves(&graph(inputs, x, o), &graph(inputs, y, p));
        assert_eq!(told(3, [&[3, 5, 7], &[2, 4, 6]], [&[9], &[8]]), Ok(vec![1]));
        assert_eq!(told(5, [&[3, 5, 6, 13, 8, 11], &[2, 4, 7, 12, 8, 11]], [&[14], &[14]]), Ok(vec![1, 0]));
        assert_eq!(told(5, [&[3, 5, 6, 12, 9, 10], &[2, 4, 7, 12, 8, 11]], [&[15], &[14]]), Ok(vec![1, 1]));
        assert_eq!(told(2, [&[3, 5, MARK], &[2, 4, MARK]], [&[6], &[6]]), Ok(vec![1]));
        assert_eq!(told(2, [&[3, 4, MARK], &[2, 4, MARK]], [&[7], &[6]]), Ok(vec![2]));
        assert_eq!(told(2, [&[3, 4, MARK], &[3, 5, MARK]], [&[7], &[6]]), Ok(vec![3]));
        assert_eq!(told(3, [&[3, 5, 6], &[2, 4, 7]], [&[9, 8], &[8, 9]]), Ok(vec![1]));
        // One word, or one reader, is turned and not the others.
        let bit = |place: &str, what: &str| Err(Apart::Bit(place.into(), what.into()));
        let word = "word 2 of node 4 is complemented before and complemented after";
        assert_eq!(told(3, [&[3, 5, 6], &[2, 5, 6]], [&[9], &[9]]), bit("node 4", word));
        let output = "output 2 is plain before and plain after";
        assert_eq!(told(3, [&[3, 5, 6], &[2, 4, 7]], [&[9, 8], &[8, 8]]), bit("output 2", output));
        let output = "output 1 is complemented before and complemented after";
        assert_eq!(told(2, [&[3, 4, MARK], &[2, 4, MARK]], [&[7], &[7]]), bit("output 1", output));
    }
}
