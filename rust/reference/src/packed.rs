//! The graph as it is lent: each table is a slice of indices, and beside it words of 64 bits with the
//! complement bits of its literals.

use crate::graph::{check_limits, Graph, Number, Room, MARK};

/// I, N and O with all that is lent for a graph. Every slice may be longer (or, refused, shorter) than the graph.
#[derive(Clone, Debug, PartialEq, Eq)]
pub struct Packed {
    pub inputs: u32,
    pub nodes: u32,
    pub outputs: u32,
    pub node_table: Vec<u32>,
    pub node_bits: Vec<u64>,
    pub output_table: Vec<u32>,
    pub output_bits: Vec<u64>,
    pub locks: Vec<u8>,
}

/// How long each slice is.
#[derive(Clone, Copy, Debug, PartialEq, Eq)]
pub struct Lengths {
    pub node_words: usize,
    pub node_bits: usize,
    pub output_words: usize,
    pub output_bits: usize,
    pub lock_bytes: usize,
}

/// How many words have a bit for each of so many places.
pub fn words_for(places: usize) -> usize {
    places.div_ceil(64)
}

/// Whether the bit of a place is set.
pub fn bit_at(bits: &[u64], place: usize) -> bool {
    bits[place / 64] >> (place % 64) & 1 == 1
}

pub fn set_bit(bits: &mut [u64], place: usize) {
    bits[place / 64] |= 1 << (place % 64);
}

/// How many bits are set.
pub fn ones(bits: &[u64]) -> u32 {
    let places = 0..64 * bits.len();
    places.filter(|&place| bit_at(bits, place)).count() as u32
}

/// The indices and the bits of literals, of which the mark has no bit.
pub fn pack_table(literals: &[u32]) -> (Vec<u32>, Vec<u64>) {
    let mut bits = vec![0; words_for(literals.len())];
    let mut indices = Vec::new();
    for (place, &literal) in literals.iter().enumerate() {
        if literal == MARK {
            indices.push(MARK);
        } else {
            indices.push(literal / 2);
            if literal % 2 == 1 {
                set_bit(&mut bits, place);
            }
        }
    }
    (indices, bits)
}

/// The literals of the first so many places, where each index is the mark or has a literal.
pub fn unpack_table(indices: &[u32], bits: &[u64], places: usize) -> Vec<u32> {
    let literal = |place: usize| match indices[place] {
        MARK => MARK,
        index => 2 * index + u32::from(bit_at(bits, place)),
    };
    (0..places).map(literal).collect()
}

impl Lengths {
    /// Just enough for so many nodes and outputs.
    pub fn of(nodes: usize, outputs: usize) -> Lengths {
        Lengths {
            node_words: 3 * nodes,
            node_bits: words_for(3 * nodes),
            output_words: outputs,
            output_bits: words_for(outputs),
            lock_bytes: nodes,
        }
    }

    /// How many literals each table has room for: an index and a bit for each.
    pub fn room(self) -> Room {
        Room {
            node_words: self.node_words.min(64 * self.node_bits),
            output_words: self.output_words.min(64 * self.output_bits),
            lock_bytes: self.lock_bytes,
        }
    }
}

impl Packed {
    pub fn lengths(&self) -> Lengths {
        Lengths {
            node_words: self.node_table.len(),
            node_bits: self.node_bits.len(),
            output_words: self.output_table.len(),
            output_bits: self.output_bits.len(),
            lock_bytes: self.locks.len(),
        }
    }

    /// The literals and locks of a graph put at the front, its bits in whole words. What stands behind is left.
    pub fn put(&mut self, g: &Graph) {
        let (places, outputs) = (3 * g.nodes as usize, g.outputs as usize);
        let (indices, bits) = pack_table(&g.node_table[..places]);
        self.node_table[..places].copy_from_slice(&indices);
        self.node_bits[..bits.len()].copy_from_slice(&bits);
        let (indices, bits) = pack_table(&g.output_table[..outputs]);
        self.output_table[..outputs].copy_from_slice(&indices);
        self.output_bits[..bits.len()].copy_from_slice(&bits);
        let nodes = g.nodes as usize;
        self.locks[..nodes].copy_from_slice(&g.locks[..nodes]);
        (self.inputs, self.nodes, self.outputs) = (g.inputs, g.nodes, g.outputs);
    }
}

/// The whole tables of a graph of literals, whether it is admitted or not.
pub fn pack(g: &Graph) -> Packed {
    let (node_table, node_bits) = pack_table(&g.node_table);
    let (output_table, output_bits) = pack_table(&g.output_table);
    Packed {
        inputs: g.inputs,
        nodes: g.nodes,
        outputs: g.outputs,
        node_table,
        node_bits,
        output_table,
        output_bits,
        locks: g.locks.clone(),
    }
}

/// The graph of literals that an admitted one holds, with tables and locks of just its size.
pub fn unpack(p: &Packed) -> Graph {
    Graph {
        inputs: p.inputs,
        nodes: p.nodes,
        outputs: p.outputs,
        node_table: unpack_table(&p.node_table, &p.node_bits, 3 * p.nodes as usize),
        output_table: unpack_table(&p.output_table, &p.output_bits, p.outputs as usize),
        locks: p.locks[..p.nodes as usize].to_vec(),
    }
}

/// 4 for a table with fewer indices or bits than it has literals, and for too few locks.
pub fn check_lengths(nodes: u32, outputs: u32, lent: Lengths) -> Result<(), Number> {
    let needed = Lengths::of(nodes as usize, outputs as usize);
    let short = lent.node_words < needed.node_words
        || lent.node_bits < needed.node_bits
        || lent.output_words < needed.output_words
        || lent.output_bits < needed.output_bits
        || lent.lock_bytes < needed.lock_bytes;
    if short {
        Err(4)
    } else {
        Ok(())
    }
}

/// Whether a bit is set past the last of so many places, in its word.
fn has_stray(bits: &[u64], places: usize) -> bool {
    (places..64 * words_for(places)).any(|place| bit_at(bits, place))
}

/// Whether a place of the node table has what is not allowed there.
fn is_bad(p: &Packed, place: usize) -> bool {
    let node = u64::from(p.inputs) + 1 + place as u64 / 3;
    match p.node_table[place] {
        MARK if place % 3 == 2 => bit_at(&p.node_bits, place),
        index => u64::from(index) >= node,
    }
}

/// 5 for an index not allowed where it stands, for a mark's bit, and for a bit past the last literal.
pub fn check_words(p: &Packed) -> Result<(), Number> {
    let (places, outputs) = (3 * p.nodes as usize, p.outputs as usize);
    let last = p.inputs + p.nodes;
    let bad = (0..places).any(|place| is_bad(p, place))
        || p.output_table[..outputs].iter().any(|&index| index > last)
        || has_stray(&p.node_bits, places)
        || has_stray(&p.output_bits, outputs);
    if bad {
        Err(5)
    } else {
        Ok(())
    }
}

pub fn check_locks(p: &Packed) -> Result<(), Number> {
    match p.locks[..p.nodes as usize].iter().all(|&byte| byte <= 1) {
        true => Ok(()),
        false => Err(13),
    }
}

/// 3, 4, 5, 13 in that order.
pub fn admit(p: &Packed) -> Result<(), Number> {
    check_limits(p.inputs, p.nodes, p.outputs)?;
    check_lengths(p.nodes, p.outputs, p.lengths())?;
    check_words(p)?;
    check_locks(p)
}
