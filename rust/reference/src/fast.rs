//! The same calls on large graphs: readers, roots and trees are found once, since no move changes the
//! wiring, and a move's effect on C is counted where it turns something. No checks: an admitted graph.

use crate::graph::{adds, index_of, turned, Graph, Place};
use crate::moves::{moves_at, rows, Saving};
use crate::settling::Settled;

pub struct Fast {
    pub g: Graph,
    readers: Vec<Vec<Place>>,
    root: Vec<bool>,
    /// By root: its tree by falling index.
    trees: Vec<Vec<u32>>,
    /// By node: least C of its words and all below, by whether its readers are turned.
    costs: Vec<[Option<u32>; 2]>,
}

impl Fast {
    pub fn new(g: Graph) -> Fast {
        let size = (g.inputs + g.nodes + 1) as usize;
        let mut readers: Vec<Vec<Place>> = vec![Vec::new(); size];
        for place in g.edges() {
            readers[index_of(g.at(place)) as usize].push(place);
        }
        let mut root = vec![false; size];
        let mut above = vec![0u32; size];
        let mut trees = vec![Vec::new(); size];
        for node in g.node_indices().rev() {
            let at = node as usize;
            above[at] = match readers[at][..] {
                [Place::OfNode(reader, _)] => above[reader as usize],
                _ => node,
            };
            root[at] = above[at] == node;
            trees[above[at] as usize].push(node);
        }
        Fast {
            g,
            readers,
            root,
            trees,
            costs: vec![[None; 2]; size],
        }
    }

    /// Whether an index is a root's.
    pub fn is_root(&self, index: u32) -> bool {
        self.root[index as usize]
    }

    /// One move made.
    pub fn make(&mut self, node: u32, number: usize) {
        let row = &rows(&self.g, node)[number];
        for word in 0..3 {
            if row.words[word] {
                self.g.turn(Place::OfNode(node, word));
            }
        }
        if row.readers {
            for &reader in &self.readers[node as usize] {
                self.g.turn(reader);
            }
        }
    }

    fn own(&self, node: u32) -> Vec<Place> {
        (0..self.g.words_of(node))
            .map(|word| Place::OfNode(node, word))
            .collect()
    }

    fn count(&self, places: &[Place]) -> u32 {
        places.iter().map(|&place| adds(self.g.at(place))).sum()
    }

    /// What of C the words of the nodes named are, and what the others that such a call can turn.
    fn count_both(&self, [own, others]: &[Vec<Place>; 2]) -> [u32; 2] {
        [self.count(own), self.count(others)]
    }

    /// What has been saved of these counts since.
    fn saved(&self, places: &[Vec<Place>; 2], before: [u32; 2]) -> Saving {
        let after = self.count_both(places);
        Saving {
            own: i64::from(before[0]) - i64::from(after[0]),
            others: i64::from(before[1]) - i64::from(after[1]),
        }
    }

    pub fn node_call(&mut self, node: u32) -> Saving {
        let places = [self.own(node), self.readers[node as usize].clone()];
        let before = self.count_both(&places);
        let mut least = (before.iter().sum(), 0);
        for number in 1..moves_at(&self.g, node).len() {
            self.make(node, number);
            let c: u32 = self.count_both(&places).iter().sum();
            self.make(node, number);
            if c < least.0 {
                least = (c, number);
            }
        }
        self.make(node, least.1);
        self.saved(&places, before)
    }

    /// Every word that a pair can turn, once: the node's own words are the named node's readers at times.
    fn places_of_pair(&self, named: u32, node: u32) -> [Vec<Place>; 2] {
        let mut own = self.own(named);
        own.extend(self.own(node));
        let mut others = self.readers[node as usize].clone();
        for &place in &self.readers[named as usize] {
            if !matches!(place, Place::OfNode(reader, _) if reader == node) {
                others.push(place);
            }
        }
        [own, others]
    }

    pub fn pair_call(&mut self, node: u32, word: u32) -> Saving {
        let named = index_of(self.g.word(node, word as usize - 1));
        if named <= self.g.inputs {
            return Saving::default();
        }
        let places = self.places_of_pair(named, node);
        let before = self.count_both(&places);
        let mut least = (before.iter().sum(), 0, 0);
        for first in 0..moves_at(&self.g, named).len() {
            for second in 0..moves_at(&self.g, node).len() {
                self.make(named, first);
                self.make(node, second);
                let c: u32 = self.count_both(&places).iter().sum();
                self.make(node, second);
                self.make(named, first);
                if c < least.0 {
                    least = (c, first, second);
                }
            }
        }
        self.make(named, least.1);
        self.make(node, least.2);
        self.saved(&places, before)
    }

    /// A word and all below it, the word as its own node's move leaves it.
    fn below(&self, literal: u32) -> u32 {
        let index = index_of(literal);
        if index <= self.g.inputs || self.root[index as usize] {
            return adds(literal);
        }
        let [stays, turns] = self.costs[index as usize];
        let stays = stays.expect("move 0 is always there") + adds(literal);
        turns.map_or(stays, |below| stays.min(below + adds(turned(literal))))
    }

    fn move_cost(&self, node: u32, number: usize) -> u32 {
        let row = &moves_at(&self.g, node)[number];
        (0..self.g.words_of(node))
            .map(|word| self.below(self.g.word(node, word) ^ row.words[word] as u32))
            .sum()
    }

    fn fill_costs(&mut self, node: u32) {
        let mut costs = [None; 2];
        for number in 0..moves_at(&self.g, node).len() {
            let cost = self.move_cost(node, number);
            let kept: &mut Option<u32> =
                &mut costs[moves_at(&self.g, node)[number].readers as usize];
            *kept = Some(kept.map_or(cost, |less| less.min(cost)));
        }
        self.costs[node as usize] = costs;
    }

    /// The first least move of a node as its readers stand.
    fn choose(&self, node: u32) -> usize {
        let places = &self.readers[node as usize];
        let odd = self.count(places);
        let other = places.len() as u32 - odd;
        let cost = |number: usize| {
            let read = if moves_at(&self.g, node)[number].readers {
                other
            } else {
                odd
            };
            read + self.move_cost(node, number)
        };
        (0..moves_at(&self.g, node).len())
            .min_by_key(|&number| (cost(number), number))
            .expect("move 0")
    }

    /// The best moves of a tree made: the tree by falling index with the move of each, and what they save.
    fn make_tree(&mut self, root: u32) -> (Vec<(u32, usize)>, Saving) {
        let tree = self.trees[root as usize].clone();
        for &node in tree.iter().rev() {
            self.fill_costs(node);
        }
        // An inner node's only reader is in the tree.
        let own = tree.iter().flat_map(|&node| self.own(node)).collect();
        let places = [own, self.readers[root as usize].clone()];
        let before = self.count_both(&places);
        let mut made = Vec::new();
        for &node in &tree {
            // The nodes above are done and the costs below are those of the words as they were, which a
            // node's own words still are when it is reached.
            let number = self.choose(node);
            self.make(node, number);
            made.push((node, number));
        }
        (made, self.saved(&places, before))
    }

    pub fn tree_call(&mut self, root: u32) -> Saving {
        self.make_tree(root).1
    }

    /// What the tree call saves, and a byte a node with its move. Each move is made once more, which takes it back.
    pub fn preview(&mut self, root: u32) -> (Saving, Vec<u8>) {
        let (made, saved) = self.make_tree(root);
        let mut moves = vec![0; self.g.nodes as usize];
        for (node, number) in made {
            self.make(node, number);
            moves[(node - self.g.inputs - 1) as usize] = number as u8;
        }
        (saved, moves)
    }

    /// The moves of a list that is accepted; C before less C after.
    pub fn many(&mut self, list: &[u32], moves: &[u8]) -> i64 {
        let before = self.g.c();
        for (&node, &number) in list.iter().zip(moves) {
            self.make(node, number.into());
        }
        i64::from(before) - i64::from(self.g.c())
    }

    fn round(&mut self) -> Saving {
        let mut saved = Saving::default();
        for node in self.g.node_indices() {
            if self.root[node as usize] {
                saved += self.tree_call(node);
            }
        }
        for node in self.g.node_indices() {
            saved += self.node_call(node);
        }
        for node in self.g.node_indices() {
            for word in 1..=self.g.words_of(node) as u32 {
                saved += self.pair_call(node, word);
            }
        }
        saved
    }

    pub fn settle(&mut self) -> Settled {
        let before = self.g.c();
        let mut all = Saving::default();
        let mut rounds = 0;
        loop {
            let saved = self.round();
            rounds += 1;
            all += saved;
            if saved.total() == 0 {
                return Settled {
                    rounds,
                    before,
                    after: self.g.c(),
                    own: all.own,
                    others: all.others,
                };
            }
        }
    }
}
