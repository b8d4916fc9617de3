//! The nodes of a graph, one by one.

use reducer::{Graph, Node, Refusal, MARK};

#[test]
fn nodes_one_by_one() {
    let graph = Graph::new(3, vec![3, 4, 7, 8, 1, MARK, 0, 9, 10], vec![11, 12, 1, 2]);
    let nodes: Vec<(u32, Node)> = graph.nodes().unwrap().collect();
    assert_eq!(nodes, [(4, Node::Majority([3, 4, 7])), (5, Node::Xor([8, 1])), (6, Node::Majority([0, 9, 10]))]);
    assert_eq!(graph.nodes().unwrap().next_back(), Some(nodes[2]));
    assert_eq!(nodes.iter().flat_map(|(_, node)| *node).collect::<Vec<u32>>(), [3, 4, 7, 8, 1, 0, 9, 10]);
    assert_eq!(Graph::new(1, vec![4, 2, 2], vec![]).nodes().err(), Some(Refusal::BadLiteral));
}
