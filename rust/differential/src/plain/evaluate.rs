//! Evaluation, a word of 64 assignments at a time.

use super::bits::{bit, bits_of, twelve};
use super::{check_limits, check_literals, check_locks, check_room, Number, View};
use reducer::MARK;

/// The value of an index, turned where the bit is 1. It is looked up without waiting for the bit, and the slice is picked before it is read, so
/// that there is one read and no branch that inputs and nodes take in turn.
fn value(inputs: u32, input_words: &[u64], values: &[u64], index: u32, bit: u32) -> u64 {
    let mask = u64::from(bit).wrapping_neg();
    if index == 0 {
        return mask;
    }
    let (words, first) = if index <= inputs { (input_words, 1) } else { (values, inputs + 1) };
    words[(index - first) as usize] ^ mask
}

/// The value of a node by its indices and bits. An XOR looks up its first index twice, so that nothing jumps on the kind.
fn node_value(inputs: u32, input_words: &[u64], values: &[u64], indices: &[u32], bits: u32) -> u64 {
    let xor = indices[2] == MARK;
    let third = if xor { indices[0] } else { indices[2] };
    let of = |index: u32, k: u32| value(inputs, input_words, values, index, bits >> k & 1);
    let (x, y, z) = (of(indices[0], 0), of(indices[1], 1), of(third, 2));
    if xor {
        x ^ y
    } else {
        x & y | x & z | y & z
    }
}

pub fn evaluate(g: &View, input_words: &[u64], scratch: &mut [u64], results: &mut [u64]) -> Result<(), Number> {
    check_limits(g.inputs, g.nodes, g.outputs)?;
    check_room(g.nodes, g.outputs, g.room())?;
    if input_words.len() < g.inputs as usize || results.len() < g.outputs as usize {
        return Err(4);
    }
    check_literals(g)?;
    check_locks(g)?;
    if scratch.len() < g.nodes as usize {
        return Err(8);
    }
    let mut fill = |v: usize, indices: &[u32], bits: u32| {
        let (values, rest) = scratch.split_at_mut(v);
        rest[0] = node_value(g.inputs, input_words, values, indices, bits);
    };
    // The bits of four nodes at once.
    let turns = g.indices().chunks_exact(12);
    let rest = turns.remainder();
    for (turn, indices) in turns.enumerate() {
        let bits = twelve(g.bits(), 12 * turn);
        (0..4).for_each(|k| fill(4 * turn + k, &indices[3 * k..3 * k + 3], bits >> (3 * k)));
    }
    for (v, indices) in (g.nodes as usize / 4 * 4..).zip(rest.chunks_exact(3)) {
        fill(v, indices, bits_of(g.bits(), v));
    }
    for (o, (result, &index)) in results.iter_mut().zip(g.outs()).enumerate() {
        *result = value(g.inputs, input_words, scratch, index, bit(g.out_bits(), o));
    }
    Ok(())
}
