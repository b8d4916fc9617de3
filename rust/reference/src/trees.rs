//! The best list of a whole tree, for trees too large to try everything: what lies below a node depends on
//! the node above only through the one edge between them.

use std::collections::HashMap;

use crate::graph::{adds, index_of, turned, Graph};
use crate::moves::{best, how_many, moves_at};

struct Tree<'a> {
    g: &'a Graph,
    nodes: &'a [u32],
    /// Least C of a node's own words and all below it, by node and by whether its readers are turned.
    known: HashMap<(u32, bool), Option<u32>>,
}

impl Tree<'_> {
    fn has(&self, index: u32) -> bool {
        self.nodes.contains(&index)
    }

    /// The least that one word and all below it can add, the word turned first if its node's move says so.
    fn word_cost(&mut self, literal: u32, turn: bool) -> u32 {
        let literal = if turn { turned(literal) } else { literal };
        let index = index_of(literal);
        if !self.has(index) {
            return adds(literal);
        }
        let stays = self.least(index, false).map(|below| below + adds(literal));
        let turns = self
            .least(index, true)
            .map(|below| below + adds(turned(literal)));
        [stays, turns]
            .into_iter()
            .flatten()
            .min()
            .expect("move 0 is always there")
    }

    /// The least of a node's own words and all below it, its move given.
    fn move_cost(&mut self, node: u32, number: usize) -> u32 {
        let row = &moves_at(self.g, node)[number];
        (0..self.g.words_of(node))
            .map(|word| self.word_cost(self.g.word(node, word), row.words[word]))
            .sum()
    }

    fn least(&mut self, node: u32, readers: bool) -> Option<u32> {
        if let Some(&found) = self.known.get(&(node, readers)) {
            return found;
        }
        let mut found: Option<u32> = None;
        for number in 0..moves_at(self.g, node).len() {
            if moves_at(self.g, node)[number].readers == readers {
                let cost = self.move_cost(node, number);
                found = Some(found.map_or(cost, |less: u32| less.min(cost)));
            }
        }
        self.known.insert((node, readers), found);
        found
    }

    /// The first least move of a node, when `reading` are the words that name it as they are now.
    fn choose(&mut self, node: u32, reading: &[u32]) -> usize {
        let mut found: Option<(u32, usize)> = None;
        for number in 0..moves_at(self.g, node).len() {
            let turn = moves_at(self.g, node)[number].readers;
            let read: u32 = reading
                .iter()
                .map(|&word| adds(if turn { turned(word) } else { word }))
                .sum();
            let cost = read + self.move_cost(node, number);
            if found.is_none_or(|less| cost < less.0) {
                found = Some((cost, number));
            }
        }
        found.expect("move 0 is always there").1
    }

    /// Chooses at a node, then at the nodes of the tree that it names.
    fn descend(&mut self, node: u32, reading: &[u32], chosen: &mut HashMap<u32, usize>) {
        let number = self.choose(node, reading);
        chosen.insert(node, number);
        for word in 0..self.g.words_of(node) {
            let literal = self.g.word(node, word);
            if self.has(index_of(literal)) {
                let turn = moves_at(self.g, node)[number].words[word];
                self.descend(
                    index_of(literal),
                    &[if turn { turned(literal) } else { literal }],
                    chosen,
                );
            }
        }
    }
}

/// The best list of a tree given by falling index, its root first.
///
/// Nodes in different branches do not meet, so the first least move at each, the nodes above being
/// settled, is the list that is least at its first difference.
pub fn best_of_tree(g: &Graph, nodes: &[u32]) -> Vec<usize> {
    let root = nodes[0];
    let reading: Vec<u32> = g
        .readers(root)
        .into_iter()
        .map(|place| g.at(place))
        .collect();
    let mut tree = Tree {
        g,
        nodes,
        known: HashMap::new(),
    };
    let mut chosen = HashMap::new();
    tree.descend(root, &reading, &mut chosen);
    nodes.iter().map(|node| chosen[node]).collect()
}

/// By trying everything where that is at most `most` lists, else by branches.
pub fn best_within(most: u64, g: &Graph, nodes: &[u32]) -> Vec<usize> {
    if how_many(g, nodes).is_some_and(|lists| lists <= most) {
        best(g, nodes)
    } else {
        best_of_tree(g, nodes)
    }
}
