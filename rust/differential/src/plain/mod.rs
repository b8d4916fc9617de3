//! The reducer in plain Rust: the same algorithms as the proved one's, written without thought of proof.

pub mod aiger;
pub mod assignment;
pub mod bits;
pub mod calls;
pub mod class;
pub mod compare;
pub mod decide;
pub mod evaluate;
pub mod file;
pub mod find;
pub mod join;
pub mod many;
pub mod near;
pub mod preview;
pub mod resistive;
pub mod settle;
pub mod sweeps;
pub mod tree;
pub mod truth;

use bits::{bit, ones, strays, twelve, words_for};
use reducer::{MARK, MOST_INPUTS, MOST_NODES, MOST_OUTPUTS};

/// A refusal is its number.
pub type Number = u32;

/// I, N and O with the lent tables, their bits, and the locks.
#[derive(Clone, Copy)]
pub struct View<'a> {
    pub inputs: u32,
    pub nodes: u32,
    pub outputs: u32,
    pub node_table: &'a [u32],
    pub node_bits: &'a [u64],
    pub output_table: &'a [u32],
    pub output_bits: &'a [u64],
    pub locks: &'a [u8],
}

impl<'a> View<'a> {
    /// Three indices a node.
    pub fn indices(&self) -> &'a [u32] {
        &self.node_table[..3 * self.nodes as usize]
    }

    pub fn bits(&self) -> &'a [u64] {
        &self.node_bits[..words_for(3 * self.nodes as usize)]
    }

    pub fn outs(&self) -> &'a [u32] {
        &self.output_table[..self.outputs as usize]
    }

    pub fn out_bits(&self) -> &'a [u64] {
        &self.output_bits[..words_for(self.outputs as usize)]
    }

    /// A byte a node.
    pub fn node_locks(&self) -> &'a [u8] {
        &self.locks[..self.nodes as usize]
    }

    pub fn room(&self) -> Room {
        Room {
            places: self.node_table.len().min(64 * self.node_bits.len()),
            outputs: self.output_table.len().min(64 * self.output_bits.len()),
            locks: self.locks.len(),
        }
    }
}

/// The tables, bits and locks that a load or an import fills.
pub struct Filled<'a> {
    pub node_table: &'a mut [u32],
    pub node_bits: &'a mut [u64],
    pub output_table: &'a mut [u32],
    pub output_bits: &'a mut [u64],
    pub locks: &'a mut [u8],
}

impl Filled<'_> {
    pub fn room(&self) -> Room {
        Room {
            places: self.node_table.len().min(64 * self.node_bits.len()),
            outputs: self.output_table.len().min(64 * self.output_bits.len()),
            locks: self.locks.len(),
        }
    }
}

/// How much is lent for a graph: literals of both tables, an index and a bit each, and locks.
#[derive(Clone, Copy)]
pub struct Room {
    pub places: usize,
    pub outputs: usize,
    pub locks: usize,
}

pub fn check_limits(inputs: u32, nodes: u32, outputs: u32) -> Result<(), Number> {
    if inputs > MOST_INPUTS || nodes > MOST_NODES || outputs > MOST_OUTPUTS {
        return Err(3);
    }
    Ok(())
}

pub fn check_room(nodes: u32, outputs: u32, room: Room) -> Result<(), Number> {
    let tables = room.places < 3 * nodes as usize || room.outputs < outputs as usize;
    if tables || room.locks < nodes as usize {
        return Err(4);
    }
    Ok(())
}

/// How many words of a node are at fault, where a mark with its bit counts for that bit as it stands. Nothing jumps on a mark: 1 more than it is 0.
fn node_faults(words: &[u32], last: u32, bit: u32) -> u32 {
    let high = (words[0] > last) as u32 + (words[1] > last) as u32 + (words[2].wrapping_add(1) > last + 1) as u32;
    high + if words[2] == MARK { bit } else { 0 }
}

/// Whether a word of the nodes is at fault: four nodes a turn with a sum for each, of which the compiler makes vectors.
fn nodes_at_fault(g: &View) -> bool {
    let bits = g.bits();
    let turns = g.indices().chunks_exact(12);
    let rest = turns.remainder();
    let mut last = g.inputs;
    let [mut first, mut second, mut third, mut fourth] = [0; 4];
    for (turn, words) in turns.enumerate() {
        let b = twelve(bits, 12 * turn);
        first += node_faults(&words[..3], last, b & 4);
        second += node_faults(&words[3..6], last + 1, b & 32);
        third += node_faults(&words[6..9], last + 2, b & 256);
        fourth += node_faults(&words[9..], last + 3, b & 2048);
        last += 4;
    }
    for (words, v) in rest.chunks_exact(3).zip(last - g.inputs..) {
        first += node_faults(words, g.inputs + v, bit(bits, 3 * v as usize + 2));
    }
    first + second + third + fourth != 0
}

fn outs_over(g: &View) -> bool {
    let last = g.inputs + g.nodes;
    g.outs().iter().fold(0, |over, &index| over | (index > last) as u32) != 0
}

pub fn check_literals(g: &View) -> Result<(), Number> {
    let strays = strays(g.bits(), 3 * g.nodes as usize) || strays(g.out_bits(), g.outputs as usize);
    if nodes_at_fault(g) || outs_over(g) || strays {
        return Err(5);
    }
    Ok(())
}

/// By the greatest byte, so that no byte is jumped on.
pub fn check_locks(g: &View) -> Result<(), Number> {
    if g.node_locks().iter().fold(0, |greatest: u8, &byte| greatest.max(byte)) > 1 {
        return Err(13);
    }
    Ok(())
}

/// 3, 4, 5, 13 in that order.
pub fn admit(g: &View) -> Result<(), Number> {
    check_limits(g.inputs, g.nodes, g.outputs)?;
    check_room(g.nodes, g.outputs, g.room())?;
    check_literals(g)?;
    check_locks(g)
}

/// C of an admitted graph.
pub fn complemented(g: &View) -> u32 {
    ones(g.bits()) + ones(g.out_bits())
}

pub fn complemented_edges(g: &View) -> Result<u32, Number> {
    admit(g)?;
    Ok(complemented(g))
}
