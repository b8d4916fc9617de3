//! Hidden majorities found, and what is told of it.

use crate::figures::Figures;
use crate::nodes::{is_xor, words_of};
use reducer::{Graph, Refusal};

/// Whether a node of a graph that the library has admitted is a majority of three different inputs or nodes.
fn is_majority(graph: &Graph, node: u32) -> bool {
    let named: Vec<u32> = words_of(graph, node).map(|literal| literal / 2).collect();
    let apart = |at: usize| named[at] != 0 && !named[..at].contains(&named[at]);
    !is_xor(graph, node) && (0..3).all(apart)
}

/// Nodes, majorities of three different inputs or nodes, and complemented edges.
fn told(graph: &Graph) -> Result<Figures, Refusal> {
    let (inputs, nodes) = (graph.size.inputs, graph.size.nodes);
    let majorities = (inputs + 1..=inputs + nodes).filter(|&node| is_majority(graph, node)).count();
    Figures::of("nodes", nodes).with("majorities", majorities).complemented(graph)
}

fn found(graph: &mut Graph) -> Result<Figures, Refusal> {
    let before = told(graph)?;
    graph.find()?;
    Ok(Figures::of("before", before).with("after", told(graph)?.locked(graph)))
}

/// Finds them; the figures of what was there before, and of what is there after.
pub fn find(graph: &mut Graph) -> Result<Figures, String> {
    found(graph).map_err(|refusal| refusal.to_string())
}

#[cfg(test)]
mod tests {
    use super::*;
    use reducer::MARK;

    #[test]
    fn majorities_of_three() {
        let one = |words: [u32; 3]| is_majority(&Graph::new(3, words.to_vec(), vec![]), 4);
        assert!(one([2, 4, 6]) && one([7, 3, 4]));
        for words in [[0, 2, 4], [2, 1, 4], [2, 4, 0], [2, 3, 4], [2, 4, 2], [4, 2, 3], [2, 4, MARK]] {
            assert!(!one(words), "{words:?}");
        }
    }
}
