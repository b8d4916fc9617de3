//! One case, and how it stands in the stream.

use crate::file::file_of;
use crate::generate::with_slack;
use crate::graph::{check_limits, Graph};
use crate::packed::{admit, check_lengths, pack, unpack, Lengths, Packed};
use crate::random::Random;

/// Ops that the program has.
pub const ADMIT: u32 = 1;
pub const EDGES: u32 = 2;
pub const FIELD: u32 = 3;
pub const LOAD: u32 = 4;
pub const WRITE: u32 = 5;
pub const CALLS: u32 = 6;
pub const JOIN: u32 = 16;
/// Ops that are run through the C interface.
pub const EVALUATE: u32 = 7;
pub const NODE: u32 = 8;
pub const PAIR: u32 = 9;
pub const TREE: u32 = 10;
pub const SETTLE: u32 = 11;
pub const MANY: u32 = 12;
pub const MAJORITY: u32 = 13;
pub const FIND: u32 = 14;
pub const RESISTIVE: u32 = 15;

#[derive(Clone)]
pub struct Case {
    pub op: u32,
    /// The graph as it is lent, or the slices that one is loaded into.
    pub g: Packed,
    pub x: u32,
    pub y: u32,
    pub scratch: u32,
    pub bytes: Vec<u8>,
    /// The words of a list of calls, and the inputs of an evaluation.
    pub calls: Vec<u32>,
    /// The nodes of many moves, and the moves; the triple of a majority call.
    pub list: Vec<u32>,
    pub moves: Vec<u8>,
    pub longs: Vec<u64>,
    pub result: u32,
    /// The two graphs that a join takes.
    pub parts: Vec<Packed>,
}

impl Case {
    pub fn new(op: u32, g: &Graph) -> Case {
        Case::lent(op, pack(g))
    }

    pub fn lent(op: u32, g: Packed) -> Case {
        Case {
            op,
            g,
            x: 0,
            y: 0,
            scratch: 0,
            bytes: Vec::new(),
            calls: Vec::new(),
            list: Vec::new(),
            moves: Vec::new(),
            longs: Vec::new(),
            result: 0,
            parts: Vec::new(),
        }
    }

    /// The call of an op that is one, as the words of a list have it.
    fn call(&self) -> Option<[u32; 3]> {
        match self.op {
            NODE => Some([0, self.x, 0]),
            PAIR => Some([1, self.x, self.y]),
            TREE => Some([2, self.x, 0]),
            SETTLE => Some([3, 0, 0]),
            MANY => Some([4, 0, self.list.len() as u32]),
            MAJORITY => Some([5, self.x, 0]),
            FIND => Some([6, 0, 0]),
            RESISTIVE => Some([7, self.x, 0]),
            _ => None,
        }
    }

    /// The same with some words and bytes behind the graph in its slices, where these are long enough for it.
    pub fn lengthened(mut self, random: &mut Random) -> Case {
        let Packed { nodes, outputs, .. } = self.g;
        let takes_graph = ![FIELD, LOAD, CALLS, JOIN].contains(&self.op);
        let within = check_limits(self.g.inputs, nodes, outputs)
            .and_then(|()| check_lengths(nodes, outputs, self.g.lengths()));
        if takes_graph && within.is_ok() && random.one_in(2) {
            self.g = with_slack(random, self.g, 3);
        }
        self
    }

    /// The case as a list of one call on the file of its graph, where it has one. A file of thousands of outputs is left to loading.
    pub fn as_list(&self) -> Option<Case> {
        let calls = self.call()?.to_vec();
        admit(&self.g).ok()?;
        let small = self.g.outputs < 1_000;
        small.then(|| Case {
            list: self.list.clone(),
            moves: self.moves.clone(),
            ..list_of(&unpack(&self.g), calls, self.scratch, 3)
        })
    }

    /// The case as bytes, within the space that the program has.
    pub fn encoded(&self) -> Vec<u8> {
        let at = |op, length: u32| if self.op == op { length } else { 0 };
        let bytes = self.bytes.len() as u32;
        let mut lengths = vec![bytes + at(WRITE, self.result)];
        lengths.extend(lengths_of(&self.g));
        let space = [65_536, 4_096, 72, 4_352, 72, 2_048];
        assert!(lengths
            .iter()
            .zip(space)
            .all(|(&length, most)| length <= most));
        let mut all = Vec::new();
        put_words(&mut all, &[1]);
        put_words(&mut all, &lengths);
        put_words(&mut all, &[bytes]);
        all.extend(&self.bytes);
        put_slices(&mut all, &self.g);
        put_words(&mut all, &[self.op]);
        match self.op {
            ADMIT | EDGES | WRITE => {
                put_words(&mut all, &[self.g.inputs, self.g.nodes, self.g.outputs])
            }
            CALLS => self.put_calls(&mut all),
            JOIN => self.put_parts(&mut all),
            _ => {}
        }
        all
    }

    /// What a list of calls reads by itself.
    fn put_calls(&self, all: &mut Vec<u8>) {
        let lent = [self.calls.len(), self.list.len(), self.moves.len()];
        assert!(lent.iter().all(|&length| length <= 128));
        assert!(self.scratch <= 4_096 && self.result <= 128);
        put_table(all, &self.calls);
        put_table(all, &self.list);
        put_words(all, &[lent[2] as u32]);
        all.extend(&self.moves);
        put_words(all, &lent.map(|length| length as u32));
        put_words(all, &[self.scratch, self.result]);
    }

    /// What a join reads by itself.
    fn put_parts(&self, all: &mut Vec<u8>) {
        self.parts.iter().for_each(|part| put_slices(all, part));
        for part in &self.parts {
            let lengths = lengths_of(part);
            let space = [512, 16, 128, 16, 256];
            assert!(lengths
                .iter()
                .zip(space)
                .all(|(&length, most)| length <= most));
            put_words(all, &lengths);
        }
        for part in &self.parts {
            put_words(all, &[part.inputs, part.nodes, part.outputs]);
        }
    }
}

/// The lengths of a graph's five slices.
fn lengths_of(g: &Packed) -> [u32; 5] {
    let lent = g.lengths();
    let lengths = [
        lent.node_words,
        lent.node_bits,
        lent.output_words,
        lent.output_bits,
        lent.lock_bytes,
    ];
    lengths.map(|length| length as u32)
}

/// For each slice how many elements are given for its front, and these.
fn put_slices(all: &mut Vec<u8>, g: &Packed) {
    put_table(all, &g.node_table);
    put_bits(all, &g.node_bits);
    put_table(all, &g.output_table);
    put_bits(all, &g.output_bits);
    put_locks(all, &g.locks);
}

/// Slices of these lengths that a graph is to be loaded into: every bit is set.
pub fn unfilled(lengths: Lengths) -> Packed {
    Packed {
        inputs: 0,
        nodes: 0,
        outputs: 0,
        node_table: (1_000..).take(lengths.node_words).collect(),
        node_bits: vec![u64::MAX; lengths.node_bits],
        output_table: (2_000..).take(lengths.output_words).collect(),
        output_bits: vec![u64::MAX; lengths.output_bits],
        locks: (0..lengths.lock_bytes)
            .map(|byte| 100 + byte as u8 % 100)
            .collect(),
    }
}

/// A list of calls on the file of a graph, loaded into slices as long as the graph's, with so many words for the answers.
pub fn list_of(g: &Graph, calls: Vec<u32>, scratch: u32, result: u32) -> Case {
    let lengths = Lengths::of(g.nodes as usize, g.outputs as usize);
    Case {
        bytes: file_of(g),
        calls,
        scratch,
        result,
        ..Case::lent(CALLS, unfilled(lengths))
    }
}

/// Up to the last that is not zero: what is not given reads as zero.
fn given<T: Copy + Into<u64>>(slice: &[T]) -> &[T] {
    let last = slice.iter().rposition(|&element| element.into() != 0);
    &slice[..last.map_or(0, |last| last + 1)]
}

/// How many words are given, and these.
fn put_table(all: &mut Vec<u8>, table: &[u32]) {
    let given = given(table);
    put_words(all, &[given.len() as u32]);
    put_words(all, given);
}

/// How many words of bits are given, and these, the upper half of each first.
fn put_bits(all: &mut Vec<u8>, bits: &[u64]) {
    let given = given(bits);
    put_words(all, &[given.len() as u32]);
    given.iter().for_each(|word| all.extend(word.to_be_bytes()));
}

/// How many bytes are given, and these.
fn put_locks(all: &mut Vec<u8>, locks: &[u8]) {
    let given = given(locks);
    put_words(all, &[given.len() as u32]);
    all.extend(given);
}

fn put_words(all: &mut Vec<u8>, words: &[u32]) {
    words.iter().for_each(|word| all.extend(word.to_be_bytes()));
}
