//! Graphs of one tree, and of many, to time calls for resistive memory on.

use std::collections::VecDeque;

use reducer::scratch_words;
use reference::generate::locked_one_in;
use reference::graph::{Graph, MARK};
use reference::packed::{pack, Packed};
use reference::random::Random;

use super::{LOCKED_ONE_IN, SPREAD};

/// How a tree's nodes name each other, whether half of them are XORs, and whether some are locked.
pub struct Wood {
    pub name: &'static str,
    chain: bool,
    xors: bool,
    locked: bool,
}

const fn wood(name: &'static str, chain: bool, xors: bool, locked: bool) -> Wood {
    Wood { name, chain, xors, locked }
}

pub const WOODS: [Wood; 5] = [
    wood("chains", true, false, false),
    wood("chains with XORs", true, true, false),
    wood("balanced", false, false, false),
    wood("balanced, with XORs", false, true, false),
    wood("balanced, a tenth locked", false, false, true),
];

const INPUTS: u32 = 256;

/// A graph, the roots that calls are made at, and scratch.
#[derive(Clone)]
pub struct Sample {
    pub g: Packed,
    pub roots: Vec<u32>,
    pub scratch: Vec<u32>,
}

impl Wood {
    /// The words of a node that names the first so many of those that nothing names yet.
    fn words(&self, random: &mut Random, unread: &mut VecDeque<u32>, names: usize) -> [u32; 3] {
        let mut words = [0; 3].map(|_| random.below(2 * INPUTS + 2));
        for word in &mut words[..names.min(unread.len())] {
            *word = 2 * unread.pop_front().unwrap_or(0) + random.bit();
        }
        if self.xors && random.one_in(2) {
            words[2] = MARK;
        }
        words
    }

    /// How many nodes a node names that has any to name: where there are XORs, as many as all have words for.
    fn names(&self) -> usize {
        match (self.chain, self.xors) {
            (true, _) => 1,
            (false, true) => 2,
            (false, false) => 3,
        }
    }

    /// The words of a tree of so many nodes, the first of this index: leaves as long as the nodes to come can still join all.
    fn grow(&self, random: &mut Random, first: u32, nodes: u32) -> Vec<u32> {
        let (mut table, mut unread) = (Vec::new(), VecDeque::new());
        for node in first..first + nodes {
            let to_come = (first + nodes - node) as usize - 1;
            let joins = unread.len() > to_come * (self.names() - 1);
            let names = if joins { self.names() } else { 0 };
            table.extend(self.words(random, &mut unread, names));
            unread.push_back(node);
        }
        table
    }

    /// So many trees of so many nodes, each with an output at its root. Calls are made at the roots of some.
    pub fn sample(&self, trees: u32, nodes: u32) -> Sample {
        let mut random = Random::new((trees + nodes).into());
        let starts = (0..trees).map(|tree| INPUTS + 1 + tree * nodes);
        let node_table: Vec<u32> = starts.clone().flat_map(|first| self.grow(&mut random, first, nodes)).collect();
        let all: Vec<u32> = starts.map(|first| first + nodes - 1).collect();
        let output_table = all.iter().map(|root| 2 * root).collect();
        let locks = vec![0; (trees * nodes) as usize];
        let mut g = Graph { inputs: INPUTS, nodes: trees * nodes, outputs: trees, node_table, output_table, locks };
        if self.locked {
            g = locked_one_in(&mut random, g, LOCKED_ONE_IN);
        }
        let spread = SPREAD.min(all.len());
        let roots = (0..spread).map(|k| all[k * all.len() / spread]).collect();
        Sample { scratch: vec![0; scratch_words(g.nodes)], roots, g: pack(&g) }
    }
}
