//! Graphs to time calls on, in the form that an implementation is lent, and what is lent beside them.

use reducer::{scratch_words, text_bytes, Saving, Settled, Size, MARK};
use reference::file::file_of;
use reference::generate::{graph, locked_one_in, moves_of, Shape};
use reference::graph::Graph;
use reference::packed::{pack, Packed};
use reference::random::Random;

use super::{BATCH_NODES, LOCKED_ONE_IN, SPREAD};

/// A graph as an implementation is lent it.
pub trait Form: Clone {
    fn of(g: &Graph) -> Self;
    fn size(&self) -> Size;
    /// Its tables as this one has them.
    fn restore(&mut self, fresh: &Self);
}

impl Form for Graph {
    fn of(g: &Graph) -> Graph {
        g.clone()
    }

    fn size(&self) -> Size {
        Size { inputs: self.inputs, nodes: self.nodes, outputs: self.outputs }
    }

    fn restore(&mut self, fresh: &Graph) {
        self.node_table.copy_from_slice(&fresh.node_table);
        self.output_table.copy_from_slice(&fresh.output_table);
    }
}

impl Form for Packed {
    fn of(g: &Graph) -> Packed {
        pack(g)
    }

    fn size(&self) -> Size {
        Size { inputs: self.inputs, nodes: self.nodes, outputs: self.outputs }
    }

    fn restore(&mut self, fresh: &Packed) {
        self.node_table.copy_from_slice(&fresh.node_table);
        self.node_bits.copy_from_slice(&fresh.node_bits);
        self.output_table.copy_from_slice(&fresh.output_table);
        self.output_bits.copy_from_slice(&fresh.output_bits);
    }
}

/// Whether two forms hold the same graph.
pub trait Same<Other> {
    fn same(&self, other: &Other) -> bool;
}

impl Same<Packed> for Packed {
    fn same(&self, other: &Packed) -> bool {
        self == other
    }
}

impl Same<Graph> for Packed {
    fn same(&self, other: &Graph) -> bool {
        *self == pack(other)
    }
}

/// A list of nodes, and their moves.
pub type Moves = (Vec<u32>, Vec<u8>);

/// A graph, its file, an AIGER text of as many gates as it has nodes, the nodes and roots that calls are made at, and lists of moves.
#[derive(Clone)]
pub struct Sample<G> {
    pub g: G,
    pub file: Vec<u8>,
    pub text: String,
    pub nodes: Vec<u32>,
    pub roots: Vec<u32>,
    /// All nodes with a move that each has, and one in ten of them.
    pub all: Moves,
    pub tenth: Moves,
}

/// Nodes spread over the graph, or roots among them.
fn spread(g: &Graph, roots: bool) -> Vec<u32> {
    let mut readers = vec![0u32; (g.inputs + g.nodes + 1) as usize];
    for &word in g.node_table.iter().filter(|&&word| word != MARK) {
        readers[word as usize / 2] += 1;
    }
    for &word in &g.output_table {
        readers[word as usize / 2] += 2;
    }
    let all: Vec<u32> = g.node_indices().filter(|&node| !roots || readers[node as usize] != 1).collect();
    (0..SPREAD).map(|k| all[(all.len() - 1) * k / (SPREAD - 1)]).collect()
}

/// Each gate has a node's first two words.
fn text_of_gates(g: &Graph) -> String {
    let mut lines = vec![format!("aag {} {} 0 {} {}", g.inputs + g.nodes, g.inputs, g.outputs, g.nodes)];
    lines.extend((1..=g.inputs).map(|input| (2 * input).to_string()));
    lines.extend(g.output_table.iter().map(u32::to_string));
    lines.extend(g.node_indices().map(|node| format!("{} {} {}", 2 * node, g.word(node, 0), g.word(node, 1))));
    lines.join("\n") + "\n"
}

impl Sample<Graph> {
    pub fn new(seed: u64, shape: Shape, nodes: u32, locked: bool) -> Sample<Graph> {
        let mut random = Random::new(seed);
        let mut g = graph(&mut random, shape, 256, nodes, 128);
        if locked {
            g = locked_one_in(&mut random, g, LOCKED_ONE_IN);
        }
        let (file, text) = (file_of(&g), text_of_gates(&g));
        let [all, tenth] = [1, 10].map(|share| moves_of(&mut random, &g, share));
        Sample { file, text, nodes: spread(&g, false), roots: spread(&g, true), all, tenth, g }
    }

    /// The same with its graph in another form.
    pub fn lent<G: Form>(&self) -> Sample<G> {
        let Sample { g, file, text, nodes, roots, all, tenth } = self.clone();
        Sample { g: G::of(&g), file, text, nodes, roots, all, tenth }
    }
}

pub fn batch(shape: Shape, nodes: u32, locked: bool) -> Vec<Sample<Graph>> {
    (0..BATCH_NODES / nodes).map(|k| Sample::new((nodes + k).into(), shape, nodes, locked)).collect()
}

/// What is lent beside the tables, to one graph of a batch after the other.
pub struct Lent {
    pub buffer: Vec<u8>,
    pub words: Vec<u64>,
    pub moves: Vec<u8>,
    pub scratch: Vec<u32>,
    pub long_scratch: Vec<u64>,
    pub results: Vec<u64>,
    /// Settling's sums of savings, own and others.
    pub sums: [i64; 2],
}

impl Lent {
    pub fn new(size: Size) -> Lent {
        Lent {
            // Enough for a file too.
            buffer: vec![0; text_bytes(size)],
            words: (0..size.inputs as u64).map(|k| (k + 1).wrapping_mul(0x9e37_79b9_7f4a_7c15)).collect(),
            moves: vec![0; size.nodes as usize],
            scratch: vec![0; scratch_words(size.nodes)],
            long_scratch: vec![0; size.nodes as usize],
            results: vec![0; size.outputs as usize],
            sums: [0; 2],
        }
    }

    /// Settling's rounds, its sums being kept.
    pub fn settled(&mut self, settled: Settled) -> u64 {
        self.sums = [settled.own, settled.others];
        settled.rounds.into()
    }

    /// Whether a call left the same in both. Scratch is free.
    pub fn same(&self, other: &Lent) -> bool {
        let bytes = self.buffer == other.buffer && self.moves == other.moves;
        bytes && self.results == other.results && self.sums == other.sums
    }
}

/// A part of a saving, or that of many moves: it is less than 2 to the 20th from 0.
pub fn part(number: i64) -> u64 {
    (number + (1 << 20)) as u64
}

/// A saving as one number.
pub fn as_one(saving: Saving) -> u64 {
    part(saving.own) << 21 | part(saving.others)
}
