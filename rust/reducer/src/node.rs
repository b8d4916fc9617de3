//! The nodes of a graph, one by one.

use crate::{Graph, Refusal};

/// A node's kind, with its literals.
#[derive(Clone, Copy, Debug, PartialEq, Eq, Hash)]
pub enum Node {
    Majority([u32; 3]),
    Xor([u32; 2]),
}

impl Node {
    /// Three of a majority, two of an XOR.
    #[must_use]
    pub fn literals(&self) -> &[u32] {
        match self {
            Node::Majority(literals) => literals,
            Node::Xor(literals) => literals,
        }
    }
}

impl IntoIterator for Node {
    type Item = u32;
    type IntoIter = std::iter::Take<std::array::IntoIter<u32, 3>>;

    fn into_iter(self) -> Self::IntoIter {
        let (literals, many) = match self {
            Node::Majority(literals) => (literals, 3),
            Node::Xor([x, y]) => ([x, y, 0], 2),
        };
        literals.into_iter().take(many)
    }
}

impl Graph {
    /// The nodes by rising index, each with its index. What is no graph is refused.
    pub fn nodes(&self) -> Result<impl DoubleEndedIterator<Item = (u32, Node)> + '_, Refusal> {
        self.complemented_edges()?;
        let first = self.size.inputs + 1;
        let node = |index| (index, self.node(index).expect("an admitted graph has this node"));
        Ok((first..first + self.size.nodes).map(node))
    }
}
