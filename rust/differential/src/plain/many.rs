//! Many moves together. Nodes go by rising index, and the list is walked beside them; whether the readers of an index are turned is noted in a
//! bit, so that nothing is searched for. Turned bits are gathered and stored a word at a time.

use super::bits::{bit, bits_of, words_for, Gather};
use super::calls::{is_node, Tables};
use super::decide::flags;
use super::{check_limits, check_literals, check_locks, check_room, complemented, Number, View};
use reducer::{MARK, MOST_INPUTS, MOST_NODES};

/// The moves that a kind has.
fn moves_of_kind(xor: bool) -> u8 {
    if xor {
        4
    } else {
        2
    }
}

/// 7, 14, 15 and 16 of an entry, the one before being at this index, or 0.
fn check_entry(g: &View, before: u32, node: u32, number: u8) -> Result<(), Number> {
    if !is_node(g, node) {
        return Err(7);
    }
    if node <= before {
        return Err(14);
    }
    let v = (node - g.inputs - 1) as usize;
    if number >= moves_of_kind(g.node_table[3 * v + 2] == MARK) {
        return Err(15);
    }
    if g.locks[v] == 1 && number != 0 {
        return Err(16);
    }
    Ok(())
}

/// 3, 4 for the tables, the locks and the moves, 5, 13, then entry by entry.
fn check(g: &View, list: &[u32], moves: &[u8]) -> Result<(), Number> {
    check_limits(g.inputs, g.nodes, g.outputs)?;
    check_room(g.nodes, g.outputs, g.room())?;
    if moves.len() < list.len() {
        return Err(4);
    }
    check_literals(g)?;
    check_locks(g)?;
    let mut before = 0;
    for (&node, &number) in list.iter().zip(moves) {
        check_entry(g, before, node, number)?;
        before = node;
    }
    Ok(())
}

const SEEN_WORDS: usize = words_for((1 + MOST_INPUTS + MOST_NODES) as usize);

/// A bit of each index that a graph can have: whether its readers are turned.
type Seen = [u64; SEEN_WORDS];

/// The move of a node, if the list has it at this place.
fn move_at(list: &[u32], moves: &[u8], node: u32, at: usize) -> Option<u8> {
    (list.get(at) == Some(&node)).then(|| moves[at])
}

/// What of a node's words the nodes turn that they name, the first lowest. An XOR has no third: its first is looked up in its place, so that nothing
/// jumps by the kind.
fn turned_by_others(seen: &Seen, indices: &[u32]) -> u32 {
    let xor = indices[2] == MARK;
    let third = if xor { indices[0] } else { indices[2] };
    let [x, y, z] = [indices[0], indices[1], third].map(|index| bit(seen, index as usize));
    x | y << 1 | (z & !xor as u32) << 2
}

/// The list is walked beside the nodes. A node's words name indices below its own, of which `seen` tells when the sweep comes to it.
fn turn_nodes(inputs: u32, node_table: &[u32], bits: &mut [u64], list: &[u32], moves: &[u8], seen: &mut Seen) {
    let mut gathered = Gather::new(bits);
    let mut at = 0;
    for (v, indices) in node_table.chunks_exact(3).enumerate() {
        let node = inputs + 1 + v as u32;
        let found = move_at(list, moves, node, at);
        at += found.is_some() as usize;
        let [x, y, z, readers] = *flags(indices[2] == MARK, found.unwrap_or(0).into());
        gathered.three(bits_of(gathered.bits, v) ^ turned_by_others(seen, indices) ^ (x | y << 1 | z << 2));
        seen[node as usize / 64] |= u64::from(readers) << (node % 64);
    }
    gathered.end();
}

fn turn_outputs(outs: &[u32], bits: &mut [u64], seen: &Seen) {
    let mut gathered = Gather::new(bits);
    for (o, &index) in outs.iter().enumerate() {
        gathered.one(bit(gathered.bits, o) ^ bit(seen, index as usize));
    }
    gathered.end();
}

pub fn many(t: &mut Tables, list: &[u32], moves: &[u8]) -> Result<i64, Number> {
    check(&t.view(), list, moves)?;
    let before = complemented(&t.view());
    let (places, outputs) = (3 * t.nodes as usize, t.outputs as usize);
    let mut seen: Seen = [0; SEEN_WORDS];
    turn_nodes(t.inputs, &t.node_table[..places], &mut t.node_bits[..words_for(places)], list, moves, &mut seen);
    turn_outputs(&t.output_table[..outputs], &mut t.output_bits[..words_for(outputs)], &seen);
    Ok(i64::from(before) - i64::from(complemented(&t.view())))
}
