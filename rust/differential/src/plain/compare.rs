//! Two graphs compared, in linear time: sizes, indices, then bits. Nodes go by rising index; a bit tells of each index whether its readers are
//! turned, so that words 1 and 2 of a node tell its move.

use super::bits::{bit, bits_of, words_for};
use super::decide::flags;
use super::{check_limits, check_literals, check_locks, check_room, Number, View};
use reducer::{MARK, MOST_INPUTS, MOST_NODES};

const SEEN_WORDS: usize = words_for((1 + MOST_INPUTS + MOST_NODES) as usize);

/// A bit of each index that a graph can have: whether its readers are turned.
type Seen = [u64; SEEN_WORDS];

/// 3, 4 of the first graph and of the bytes, 3, 4 of the second, 5, 13 of the first, and of the second.
fn check(g: &View, h: &View, bytes: usize) -> Result<(), Number> {
    check_limits(g.inputs, g.nodes, g.outputs)?;
    check_room(g.nodes, g.outputs, g.room())?;
    if bytes < g.nodes as usize {
        return Err(4);
    }
    check_limits(h.inputs, h.nodes, h.outputs)?;
    check_room(h.nodes, h.outputs, h.room())?;
    check_literals(g)?;
    check_locks(g)?;
    check_literals(h)?;
    check_locks(h)
}

/// The first place where two tables differ.
fn apart(table: &[u32], other: &[u32]) -> Option<u32> {
    let place = table.iter().zip(other).position(|(index, other)| index != other);
    place.map(|place| place as u32)
}

fn wiring_apart(g: &View, h: &View) -> Option<[u32; 2]> {
    let sizes = [(g.inputs, h.inputs), (g.nodes, h.nodes), (g.outputs, h.outputs)];
    if let Some(which) = sizes.iter().position(|(size, other)| size != other) {
        return Some([1, which as u32]);
    }
    let nodes = apart(g.indices(), h.indices()).map(|place| [2, place]);
    nodes.or_else(|| apart(g.outs(), h.outs()).map(|place| [3, place]))
}

/// How a node's words are to be turned by its own move, the first lowest: where the bits differ and the nodes named do not turn them. An XOR
/// has no third: its first is looked up in its place, so that nothing jumps by the kind.
fn own_turns(seen: &Seen, indices: &[u32], differ: u32) -> u32 {
    let xor = indices[2] == MARK;
    let third = if xor { indices[0] } else { indices[2] };
    let [x, y, z] = [indices[0], indices[1], third].map(|index| bit(seen, index as usize));
    differ ^ (x | y << 1 | (z & !xor as u32) << 2)
}

/// The move that words 1 and 2 tell, by kind and by how they are to be turned, the first lowest.
const TOLD: [[u8; 4]; 2] = [[0, 1, 0, 1], [0, 2, 3, 1]];

fn move_told(xor: bool, turns: u32) -> u8 {
    TOLD[xor as usize][(turns & 3) as usize]
}

/// By rising index: whose readers are turned is noted, up to the first place that no move explains.
fn tell_nodes(g: &View, h: &View, seen: &mut Seen) -> Option<u32> {
    for (v, indices) in g.indices().chunks_exact(3).enumerate() {
        let xor = indices[2] == MARK;
        let turns = own_turns(seen, indices, bits_of(g.bits(), v) ^ bits_of(h.bits(), v));
        let [x, y, z, readers] = *flags(xor, move_told(xor, turns).into());
        let unfit = turns ^ (x | y << 1 | z << 2);
        if unfit != 0 {
            return Some(3 * v as u32 + unfit.trailing_zeros());
        }
        let node = g.inputs as usize + 1 + v;
        seen[node / 64] |= u64::from(readers) << (node % 64);
    }
    None
}

fn tell_outputs(g: &View, h: &View, seen: &Seen) -> Option<u32> {
    let fits = |o: usize, index: u32| bit(g.out_bits(), o) ^ bit(h.out_bits(), o) == bit(seen, index as usize);
    let place = g.outs().iter().enumerate().position(|(o, &index)| !fits(o, index));
    place.map(|place| place as u32)
}

/// Told once more, now that all places are explained.
fn fill_moves(g: &View, h: &View, seen: &Seen, moves: &mut [u8]) {
    for (v, (indices, told)) in g.indices().chunks_exact(3).zip(moves).enumerate() {
        let turns = own_turns(seen, indices, bits_of(g.bits(), v) ^ bits_of(h.bits(), v));
        *told = move_told(indices[2] == MARK, turns);
    }
}

pub fn compare(g: &View, h: &View, moves: &mut [u8]) -> Result<[u32; 2], Number> {
    check(g, h, moves.len())?;
    if let Some(told) = wiring_apart(g, h) {
        return Ok(told);
    }
    let mut seen: Seen = [0; SEEN_WORDS];
    if let Some(place) = tell_nodes(g, h, &mut seen) {
        return Ok([4, place]);
    }
    if let Some(place) = tell_outputs(g, h, &seen) {
        return Ok([5, place]);
    }
    fill_moves(g, h, &seen, moves);
    Ok([0, 0])
}
