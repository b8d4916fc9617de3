//! The trees of a graph.

use crate::figures::Figures;
use crate::locks::is_locked;
use crate::nodes::{is_xor, output_of, words_of};
use reducer::{Graph, Refusal, Size};

/// Which tree each node is in, of a graph that the library has admitted.
pub struct Trees<'a> {
    graph: &'a Graph,
    /// By node from 0: the index of its tree's root.
    roots: Vec<u32>,
}

/// How many nodes of each kind a tree has, and how many of them are locked.
#[derive(Clone, Copy, Debug, Default, PartialEq, Eq)]
pub struct Kinds {
    pub majorities: u32,
    pub xors: u32,
    pub locked: u32,
}

impl Trees<'_> {
    pub fn of(graph: &Graph) -> Trees<'_> {
        let Size { inputs, nodes, outputs } = graph.size;
        let node_of = |literal: u32| (literal / 2).wrapping_sub(inputs + 1) as usize;
        // By node: its readers, an output counting twice, and the last node that reads it.
        let mut read = vec![(0, 0); nodes as usize];
        for at in 0..nodes {
            for literal in words_of(graph, inputs + 1 + at) {
                if let Some((readers, last)) = read.get_mut(node_of(literal)) {
                    *readers += 1;
                    *last = at as usize;
                }
            }
        }
        for output in 1..=outputs {
            if let Some((readers, _)) = read.get_mut(node_of(output_of(graph, output))) {
                *readers += 2;
            }
        }
        let mut roots = vec![0; nodes as usize];
        for at in (0..nodes as usize).rev() {
            let (readers, reader) = read[at];
            roots[at] = if readers == 1 { roots[reader] } else { inputs + 1 + at as u32 };
        }
        Trees { graph, roots }
    }

    pub fn is_xor(&self, node: u32) -> bool {
        is_xor(self.graph, node)
    }

    pub fn is_locked(&self, node: u32) -> bool {
        is_locked(self.graph, node)
    }

    /// The root of a node's tree; none where the index is no node's.
    pub fn root_of(&self, index: u32) -> Option<u32> {
        let at = index.checked_sub(self.graph.size.inputs + 1)?;
        self.roots.get(at as usize).copied()
    }

    /// The refusal of an index that is no root, and why it is none.
    pub fn no_root(&self, index: u32) -> String {
        let Size { inputs, nodes, .. } = self.graph.size;
        let why = match self.root_of(index) {
            Some(root) => format!("it is in the tree of root {root}"),
            None if nodes == 0 => "there are no nodes".into(),
            None => format!("nodes are {} to {}", inputs + 1, inputs + nodes),
        };
        format!("{}; {index} is no root: {why}", Refusal::NoSuchNode)
    }

    fn nodes(&self) -> impl Iterator<Item = (u32, u32)> + '_ {
        (self.graph.size.inputs + 1..).zip(self.roots.iter().copied())
    }

    /// The nodes of a root's tree by rising index.
    pub fn tree(&self, root: u32) -> impl Iterator<Item = u32> + '_ {
        self.nodes().filter(move |&(_, other)| other == root).map(|(node, _)| node)
    }

    /// All roots by rising index, with what their trees have.
    pub fn roots(&self) -> Vec<(u32, Kinds)> {
        let mut kinds = vec![Kinds::default(); self.roots.len()];
        let first = self.graph.size.inputs + 1;
        for (node, root) in self.nodes() {
            kinds[(root - first) as usize].add(self.is_xor(node), self.is_locked(node));
        }
        let is_root = |&(node, root): &(u32, u32)| node == root;
        self.nodes().filter(is_root).map(|(node, _)| (node, kinds[(node - first) as usize])).collect()
    }
}

impl Kinds {
    pub fn add(&mut self, xor: bool, locked: bool) {
        if xor {
            self.xors += 1;
        } else {
            self.majorities += 1;
        }
        self.locked += u32::from(locked);
    }

    pub fn figures(self) -> Figures {
        let Kinds { majorities, xors, locked } = self;
        let nodes = Figures::of("nodes", majorities + xors);
        nodes.with("majorities", majorities).with("xors", xors).with("locked", locked)
    }

    pub fn told(self) -> String {
        self.figures().words()
    }
}

#[cfg(test)]
mod tests {
    use super::*;
    use reducer::MARK;

    fn graph(inputs: u32, node_table: &[u32], output_table: &[u32]) -> Graph {
        Graph::new(inputs, node_table.to_vec(), output_table.to_vec())
    }

    fn roots_of(graph: &Graph) -> Vec<u32> {
        let trees = Trees::of(graph);
        (graph.size.inputs + 1..=graph.size.inputs + graph.size.nodes).filter_map(|node| trees.root_of(node)).collect()
    }

    #[test]
    fn trees() {
        assert_eq!(roots_of(&graph(2, &[], &[2])), []);
        // A chain; the first is named twice by one node; read by an output; read by nothing.
        assert_eq!(roots_of(&graph(2, &[2, 4, 0, 6, 4, MARK, 8, 2, 4], &[10])), [5, 5, 5]);
        assert_eq!(roots_of(&graph(2, &[2, 4, 0, 6, 6, MARK], &[9])), [3, 4]);
        assert_eq!(roots_of(&graph(2, &[2, 4, 0, 6, 4, MARK], &[6, 9])), [3, 4]);
        assert_eq!(roots_of(&graph(2, &[2, 4, 0, 2, 4, MARK], &[])), [3, 4]);
        let two = graph(3, &[3, 5, 7, 3, 5, MARK, 10, 8, 4], &[9, 12]);
        assert_eq!(roots_of(&two), [4, 6, 6]);
        let trees = Trees::of(&two);
        assert_eq!((trees.root_of(3), trees.root_of(7), trees.root_of(u32::MAX)), (None, None, None));
        assert_eq!(trees.tree(6).collect::<Vec<u32>>(), [5, 6]);
        let kinds = |majorities, xors, locked| Kinds { majorities, xors, locked };
        assert_eq!(trees.roots(), [(4, kinds(1, 0, 0)), (6, kinds(1, 1, 0))]);
        let mut locked = two.clone();
        [5, 6].iter().for_each(|&node| locked.lock(node).unwrap());
        assert_eq!(Trees::of(&locked).roots(), [(4, kinds(1, 0, 0)), (6, kinds(1, 1, 2))]);
        assert_eq!(kinds(1, 1, 2).told(), "nodes 2 majorities 1 xors 1 locked 2");
    }

    /// The library takes just these roots, and moves no node of another tree.
    #[test]
    fn roots_are_the_library_s() {
        for name in ["comparator4", "divider4", "multiplier4", "ripple_adder4"] {
            let path = format!("{}/../../examples/{name}.aag", env!("CARGO_MANIFEST_DIR"));
            let graph = Graph::import(&std::fs::read(path).unwrap()).unwrap();
            let trees = Trees::of(&graph);
            let mut taken = 0;
            for (node, root) in trees.nodes() {
                match graph.preview(node) {
                    Ok(told) => {
                        assert_eq!(root, node, "{name}");
                        let mut moved = trees.nodes().zip(told.moves).filter(|&(_, number)| number != 0);
                        assert!(moved.all(|((_, of), _)| of == node), "{name}");
                        taken += 1;
                    }
                    Err(refusal) => assert_eq!((refusal, root != node), (Refusal::NoSuchNode, true), "{name}"),
                }
            }
            assert_eq!(trees.roots().len(), taken, "{name}");
        }
    }
}
