//! Graphs at the limits, each by its name: settled with no, some and all nodes locked, and held to the other implementations.

use crate::cases::lent;
use crate::lists::{differ, plain_step};
use crate::raw;
use reference::calls::{Answer, Call};
use reference::evaluation;
use reference::fast::Fast;
use reference::generate::{graph, locked_one_in, Shape};
use reference::graph::{Graph, MARK, MOST_INPUTS, MOST_NODES, MOST_OUTPUTS};
use reference::packed::{unpack, Packed};
use reference::random::Random;

pub struct Extreme {
    pub name: &'static str,
    build: fn(&mut Random) -> Graph,
    /// Whether the crate `reference` settles it too. Its pair call looks at every reader of the named node, and is made
    /// for each: 300,000 readers are out of its reach.
    by_reference: bool,
}

/// By seed.
pub const EXTREMES: [Extreme; 6] = [
    Extreme { name: "a chain of 100,000 majorities", build: chain, by_reference: true },
    Extreme { name: "a node that 299,997 words name", build: wide_star, by_reference: false },
    Extreme { name: "a node that 299,997 words and 4,096 outputs name", build: widest_star, by_reference: false },
    Extreme { name: "a node that all words of 3,999 others name", build: small_star, by_reference: true },
    Extreme { name: "a node that 4,096 outputs name", build: many_outputs, by_reference: true },
    Extreme { name: "100,000 nodes of XOR alone", build: only_xor, by_reference: true },
];

fn literal(random: &mut Random, index: u32) -> u32 {
    2 * index + random.bit()
}

/// Names an index below.
fn literal_below(random: &mut Random, end: u32) -> u32 {
    let index = random.below(end);
    literal(random, index)
}

/// As many outputs as there may be, on any index.
fn outputs_anywhere(random: &mut Random, nodes: u32) -> Vec<u32> {
    (0..MOST_OUTPUTS).map(|_| literal_below(random, MOST_INPUTS + 1 + nodes)).collect()
}

fn outputs_on(random: &mut Random, index: u32) -> Vec<u32> {
    (0..MOST_OUTPUTS).map(|_| literal(random, index)).collect()
}

/// The graph of so many nodes, whose words are told by index, and of these outputs.
fn graph_of(nodes: u32, words: impl FnMut(u32) -> [u32; 3], output_table: Vec<u32>) -> Graph {
    let indices = MOST_INPUTS + 1..=MOST_INPUTS + nodes;
    let node_table = indices.flat_map(words).collect();
    let locks = vec![0; nodes as usize];
    Graph { inputs: MOST_INPUTS, nodes, outputs: output_table.len() as u32, node_table, output_table, locks }
}

/// Each majority names the one before it, and inputs or the constant: one tree, as high as a tree can be.
fn chain(random: &mut Random) -> Graph {
    let outputs = vec![literal(random, MOST_INPUTS + MOST_NODES)];
    let words = |node: u32| {
        let mut words = [0; 3].map(|_| literal_below(random, MOST_INPUTS + 1));
        words[random.below(3) as usize] = literal(random, node - 1);
        words
    };
    graph_of(MOST_NODES, words, outputs)
}

const FIRST: u32 = MOST_INPUTS + 1;

/// All words of the nodes after the first name it; one in so many of these nodes is an XOR, and none if that is 0.
fn star(random: &mut Random, nodes: u32, xors: u32, outputs: Vec<u32>) -> Graph {
    let words = |node: u32| {
        if node == FIRST {
            return [0; 3].map(|_| literal_below(random, FIRST));
        }
        let mut words = [0; 3].map(|_| literal(random, FIRST));
        if xors > 0 && random.one_in(xors) {
            words[2] = MARK;
        }
        words
    };
    graph_of(nodes, words, outputs)
}

fn wide_star(random: &mut Random) -> Graph {
    let outputs = outputs_anywhere(random, MOST_NODES);
    star(random, MOST_NODES, 0, outputs)
}

/// No node can have more readers than this one's first.
fn widest_star(random: &mut Random) -> Graph {
    let outputs = outputs_on(random, FIRST);
    star(random, MOST_NODES, 0, outputs)
}

fn small_star(random: &mut Random) -> Graph {
    let outputs = outputs_anywhere(random, 4_000);
    star(random, 4_000, 3, outputs)
}

/// All outputs on the node in the middle.
fn many_outputs(random: &mut Random) -> Graph {
    let (inputs, nodes) = (64, 10_000);
    let output_table = outputs_on(random, inputs + nodes / 2);
    Graph { outputs: MOST_OUTPUTS, output_table, ..graph(random, Shape::Random, inputs, nodes, 0) }
}

fn only_xor(random: &mut Random) -> Graph {
    let outputs = outputs_anywhere(random, MOST_NODES);
    let words = |node: u32| [literal_below(random, node), literal_below(random, node), MARK];
    graph_of(MOST_NODES, words, outputs)
}

/// A settled graph and what settling answered.
type Outcome = (Answer, Packed);

/// Graphs are too large to be shown.
fn same(whose: &str, got: &Outcome, due: &Outcome) -> Result<(), String> {
    differ(&format!("settling, held to {whose}"), &got.0, &due.0)?;
    if got.1 != due.1 {
        return Err(format!("the settled graph is not that of {whose}"));
    }
    Ok(())
}

/// That the graph computes what it computed, and that both counts are right.
fn check_meaning(before: &Graph, (answer, after): &Outcome) -> Result<(), String> {
    let Answer::Settled(settled) = answer else { return Err(format!("settling: {answer:?}")) };
    let after = &unpack(after);
    differ("both counts", &(settled.before, settled.after), &(before.c(), after.c()))?;
    let mut random = Random::new(before.nodes.into());
    let words: Vec<u64> = (0..before.inputs).map(|_| random.word()).collect();
    let values = [before, after].map(|g| {
        let mut results = vec![0; g.outputs as usize];
        evaluation::evaluate(g, &words, g.nodes as usize, &mut results).map(|_| results)
    });
    if values[0] != values[1] {
        return Err("the settled graph's outputs have changed".into());
    }
    Ok(())
}

impl Extreme {
    /// With one in so many nodes locked, and none if that is 0.
    pub fn graph(&self, seed: u64, locked: u32) -> Graph {
        let mut random = Random::new(seed);
        let g = (self.build)(&mut random);
        match locked {
            0 => g,
            many => locked_one_in(&mut random, g, many),
        }
    }
}

/// How often nodes are locked: never, one in ten, each.
pub const LOCKED: [u32; 3] = [0, 10, 1];

pub fn check(extreme: &Extreme, seed: u64) -> Result<u64, String> {
    for locked in LOCKED {
        check_one(extreme, extreme.graph(seed, locked)).map_err(|wrong| format!("locked one in {locked}: {wrong}"))?;
    }
    Ok(LOCKED.len() as u64)
}

fn check_one(extreme: &Extreme, start: Graph) -> Result<(), String> {
    let (scratch, lent) = (8 * start.nodes as usize, lent(&start, start.nodes.into()));
    let mut g = lent.clone();
    let got = (raw::step(&mut g, &Call::Settle, scratch)?, g);
    let mut g = lent.clone();
    same("plain Rust", &got, &(plain_step(&mut g, &Call::Settle, scratch), g))?;
    if extreme.by_reference {
        let (mut g, mut fast) = (lent, Fast::new(start.clone()));
        let answer = Answer::Settled(fast.settle());
        g.put(&fast.g);
        same("the reference", &got, &(answer, g))?;
    }
    check_meaning(&start, &got)
}
