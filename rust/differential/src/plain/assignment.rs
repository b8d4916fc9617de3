//! The least assignment for a wanted output pattern: 64 assignments a block. The nodes that wanted outputs ask for are evaluated in eight
//! stretches, and after each the outputs that name them are looked at: where no place is left the block is done.

use std::ops::Range;

use super::bits::{bit, bits_of, twelve};
use super::{check_limits, check_literals, check_locks, check_room, Number, View};
use reducer::MARK;

const MOST_SEARCHED: u32 = 16;
const MASKS: [u64; 6] = [
    0xaaaa_aaaa_aaaa_aaaa,
    0xcccc_cccc_cccc_cccc,
    0xf0f0_f0f0_f0f0_f0f0,
    0xff00_ff00_ff00_ff00,
    0xffff_0000_ffff_0000,
    0xffff_ffff_0000_0000,
];

/// The words of a block by index, the constant's first: six inputs go through all that they can be, the others are all ones or all zeros by
/// the block's number. Nodes have theirs as far as they are filled.
fn start(inputs: u32, block: u32, values: &mut [u64]) {
    for (k, word) in values[1..1 + inputs as usize].iter_mut().enumerate() {
        *word = match MASKS.get(k) {
            Some(&mask) => mask,
            None => u64::from(block >> (k - 6) & 1).wrapping_neg(),
        };
    }
}

fn value(values: &[u64], index: u32, bit: u32) -> u64 {
    values[index as usize] ^ u64::from(bit).wrapping_neg()
}

/// An XOR looks up its first index twice, so that nothing jumps on the kind.
fn node_value(values: &[u64], indices: &[u32], bits: u32) -> u64 {
    let xor = indices[2] == MARK;
    let third = if xor { indices[0] } else { indices[2] };
    let of = |index: u32, k: u32| value(values, index, bits >> k & 1);
    let (x, y, z) = (of(indices[0], 0), of(indices[1], 1), of(third, 2));
    let m = u64::from(xor).wrapping_neg();
    let t = x ^ y;
    (x & y & !m) | ((z | m) & t)
}

/// Nodes from one to before another, the bits of four at once where there are as many.
fn fill(g: &View, from: usize, to: usize, values: &mut [u64]) {
    let first = 1 + g.inputs as usize;
    let (indices, bits) = (&g.indices()[3 * from..3 * to], g.bits());
    let turns = indices.chunks_exact(12);
    let rest = turns.remainder();
    let mut v = from;
    for four in turns {
        let bits = twelve(bits, 3 * v);
        for k in 0..4 {
            values[first + v + k] = node_value(values, &four[3 * k..3 * k + 3], bits >> (3 * k));
        }
        v += 4;
    }
    for indices in rest.chunks_exact(3) {
        values[first + v] = node_value(values, indices, bits_of(bits, v));
        v += 1;
    }
}

/// What is left of places by the wanted outputs that name an index in a range.
fn narrowed(g: &View, wanted: &[u8], values: &[u64], range: Range<u32>, mut left: u64) -> u64 {
    for (o, (&index, &byte)) in g.outs().iter().zip(wanted).enumerate() {
        if byte != 2 && range.contains(&index) {
            let word = value(values, index, bit(g.out_bits(), o));
            left &= if byte == 1 { word } else { !word };
        }
    }
    left
}

/// The places of a block that give the pattern, for which the first so many nodes are asked.
fn places(g: &View, wanted: &[u8], top: usize, block: u32, values: &mut [u64]) -> u64 {
    start(g.inputs, block, values);
    let (first, step) = (g.inputs + 1, top / 8 + 1);
    let mut left = narrowed(g, wanted, values, 0..first, u64::MAX);
    let mut known = 0;
    while known < top && left != 0 {
        let next = (known + step).min(top);
        fill(g, known, next, values);
        left = narrowed(g, wanted, values, first + known as u32..first + next as u32, left);
        known = next;
    }
    left
}

fn search(g: &View, wanted: &[u8]) -> Option<u32> {
    let asked = g.outs().iter().zip(wanted).filter(|(_, &byte)| byte != 2);
    let top = asked.map(|(&index, _)| index.saturating_sub(g.inputs)).max().unwrap_or(0) as usize;
    let mut values = vec![0; 1 + g.inputs as usize + g.nodes as usize];
    let mut blocks = 0..1 << g.inputs.saturating_sub(6);
    blocks.find_map(|block| match places(g, wanted, top, block, &mut values) {
        0 => None,
        left => Some(64 * block + left.trailing_zeros()),
    })
}

/// 3, 4 for the tables, the locks and the pattern, 5, 13, 17, 18, 8 in that order.
fn check(g: &View, wanted: &[u8], scratch: usize) -> Result<(), Number> {
    check_limits(g.inputs, g.nodes, g.outputs)?;
    check_room(g.nodes, g.outputs, g.room())?;
    if wanted.len() < g.outputs as usize {
        return Err(4);
    }
    check_literals(g)?;
    check_locks(g)?;
    if g.inputs > MOST_SEARCHED {
        return Err(17);
    }
    if wanted[..g.outputs as usize].iter().any(|&byte| byte > 2) {
        return Err(18);
    }
    if scratch < g.nodes as usize {
        return Err(8);
    }
    Ok(())
}

/// Values stand by index in one vector of its own; of scratch only the length is looked at.
pub fn assignment(g: &View, wanted: &[u8], scratch: usize) -> Result<Option<u32>, Number> {
    check(g, wanted, scratch)?;
    Ok(search(g, wanted))
}
