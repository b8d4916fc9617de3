//! What the best moves of every tree would save.

use crate::locks::is_locked;
use crate::nodes::{is_xor, output_of, words_of};
use crate::progress::Progress;
use crate::trees::Trees;
use reducer::{Graph, Refusal, Saving, Size, MARK};

/// Every tree with what reads its root, of a graph that the library has admitted.
///
/// A tree call turns words of the tree's nodes and readers of its root, and weighs their complement bits alone, whatever else they name.
/// So a tree with the readers of its root is decided as a graph by itself in which every other edge comes from one input. All these
/// graphs together are linear in the whole one.
struct Parts<'a> {
    graph: &'a Graph,
    trees: &'a Trees<'a>,
    /// By node from 0, for roots: the nodes of its tree, those that read it, each once, and the outputs that do, all by rising index.
    own: Vec<Vec<u32>>,
    readers: Vec<Vec<u32>>,
    outputs: Vec<Vec<u32>>,
    /// By node from 0: its index where its tree stands by itself, after the one input.
    places: Vec<u32>,
}

impl<'a> Parts<'a> {
    fn of(graph: &'a Graph, trees: &'a Trees<'a>) -> Parts<'a> {
        let Size { inputs, nodes, outputs } = graph.size;
        let none = || vec![Vec::new(); nodes as usize];
        let (own, readers, read) = (none(), none(), none());
        let mut parts = Parts { graph, trees, own, readers, outputs: read, places: vec![0; nodes as usize] };
        for node in inputs + 1..=inputs + nodes {
            parts.add(node);
        }
        for output in 1..=outputs {
            let literal = output_of(graph, output);
            if let Some(root) = trees.root_of(literal / 2) {
                let at = parts.at(root);
                parts.outputs[at].push(literal);
            }
        }
        parts
    }

    fn at(&self, node: u32) -> usize {
        (node - self.graph.size.inputs - 1) as usize
    }

    /// A node added to its tree, and to the readers of the other trees' roots that it names.
    fn add(&mut self, node: u32) {
        let Some(root) = self.trees.root_of(node) else { return };
        let (at, tree) = (self.at(node), self.at(root));
        self.own[tree].push(node);
        self.places[at] = 1 + self.own[tree].len() as u32;
        for named in words_of(self.graph, node).filter_map(|literal| self.trees.root_of(literal / 2)) {
            let named_at = self.at(named);
            if named != root && self.readers[named_at].last() != Some(&node) {
                self.readers[named_at].push(node);
            }
        }
    }

    /// A literal as it is in the graph of a root's tree.
    fn literal(&self, root: u32, literal: u32) -> u32 {
        let index = match self.trees.root_of(literal / 2) {
            Some(of) if of == root => self.places[self.at(literal / 2)],
            _ => 1,
        };
        2 * index + literal % 2
    }

    /// The graph of a root's tree.
    fn alone(&self, root: u32) -> Result<Graph, Refusal> {
        let at = self.at(root);
        let mut words = Vec::new();
        for &node in self.own[at].iter().chain(&self.readers[at]) {
            words.extend(words_of(self.graph, node).map(|literal| self.literal(root, literal)));
            words.extend(is_xor(self.graph, node).then_some(MARK));
        }
        let outputs = self.outputs[at].iter().map(|&literal| self.literal(root, literal)).collect();
        let mut alone = Graph::new(1, words, outputs);
        for &node in self.own[at].iter().filter(|&&node| is_locked(self.graph, node)) {
            alone.lock(self.places[self.at(node)])?;
        }
        Ok(alone)
    }

    fn saving(&self, root: u32) -> Result<Saving, Refusal> {
        Ok(self.alone(root)?.preview(self.places[self.at(root)])?.saving)
    }
}

/// What the tree call at each of these roots would save.
pub fn of(graph: &Graph, trees: &Trees, roots: &[u32], working: &Progress) -> Result<Vec<Saving>, Refusal> {
    let parts = Parts::of(graph, trees);
    let saving = |(at, &root): (usize, &u32)| {
        working.reached(at + 1, roots.len());
        parts.saving(root)
    };
    roots.iter().enumerate().map(saving).collect()
}

#[cfg(test)]
mod tests {
    use super::*;

    /// That a preview of the whole graph tells the same at each root; how many would save something.
    fn agrees(graph: &Graph) -> usize {
        let trees = Trees::of(graph);
        let roots: Vec<u32> = trees.roots().iter().map(|(root, _)| *root).collect();
        let told = of(graph, &trees, &roots, &Progress::of("a test".into())).unwrap();
        for (&root, saving) in roots.iter().zip(&told) {
            assert_eq!(graph.preview(root).unwrap().saving, *saving, "root {root} of {graph:?}");
        }
        told.iter().filter(|saving| saving.total() != 0).count()
    }

    /// Numbers that follow each other without a pattern.
    struct Numbers(u64);

    impl Numbers {
        fn below(&mut self, end: u32) -> u32 {
            self.0 = self.0.wrapping_mul(6_364_136_223_846_793_005).wrapping_add(1_442_695_040_888_963_407);
            ((self.0 >> 33) % u64::from(end)) as u32
        }
    }

    fn some_graph(numbers: &mut Numbers) -> Graph {
        let (inputs, nodes) = (1 + numbers.below(3), 1 + numbers.below(12));
        let mut words = Vec::new();
        for node in inputs + 1..=inputs + nodes {
            words.extend([0; 3].map(|_| numbers.below(2 * node)));
            if numbers.below(3) == 0 {
                *words.last_mut().unwrap() = MARK;
            }
        }
        let outputs = (0..numbers.below(4)).map(|_| numbers.below(2 * (inputs + nodes + 1))).collect();
        let mut graph = Graph::new(inputs, words, outputs);
        for node in inputs + 1..=inputs + nodes {
            if numbers.below(5) == 0 {
                graph.lock(node).unwrap();
            }
        }
        graph
    }

    #[test]
    fn savings_are_the_previews_own() {
        let mut numbers = Numbers(34);
        let several: usize = (0..2_000).map(|_| agrees(&some_graph(&mut numbers))).sum();
        assert!(several > 1_000, "{several}");
        for name in ["comparator4", "divider4", "multiplier4", "ripple_adder4"] {
            let path = format!("{}/../../examples/{name}.aag", env!("CARGO_MANIFEST_DIR"));
            assert!(agrees(&Graph::import(&std::fs::read(path).unwrap()).unwrap()) > 0, "{name}");
        }
        assert_eq!(agrees(&Graph::new(2, vec![], vec![2])), 0);
    }
}
