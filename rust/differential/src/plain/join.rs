//! Two graphs joined: the first's words are copied at once, the second's put node by node as the first meets them, and bits are gathered in whole words.

use super::bits::{bit, bits_of, words_for, Gather};
use super::{admit, check_limits, check_room, Filled, Number, View};
use reducer::MARK;

/// 3, 4, 5, 13 of the first and then of the second, 19, and 3 and 4 of the joined one.
fn check(g: &View, h: &View, joined: &Filled) -> Result<(), Number> {
    admit(g)?;
    admit(h)?;
    if g.outputs != h.inputs {
        return Err(19);
    }
    check_limits(g.inputs, g.nodes + h.nodes, h.outputs)?;
    check_room(g.nodes + h.nodes, h.outputs, joined.room())
}

/// An index of the second and its bit as the first meets them. Most name nodes: that is asked first.
fn met(g: &View, h: &View, index: u32, own: u32) -> (u32, u32) {
    if index > h.inputs {
        return (index - h.inputs + g.inputs + g.nodes, own);
    }
    if index == 0 {
        return (0, own);
    }
    let output = index as usize - 1;
    (g.output_table[output], own ^ bit(g.output_bits, output))
}

/// The same of a third word, which may be the mark.
fn met_third(g: &View, h: &View, index: u32, own: u32) -> (u32, u32) {
    if index == MARK {
        return (MARK, 0);
    }
    met(g, h, index, own)
}

fn meet_nodes(g: &View, h: &View, table: &mut [u32], gathered: &mut Gather) {
    for (v, (indices, put)) in h.indices().chunks_exact(3).zip(table.chunks_exact_mut(3)).enumerate() {
        let own = bits_of(h.bits(), v);
        let (x, y) = (met(g, h, indices[0], own & 1), met(g, h, indices[1], own >> 1 & 1));
        let z = met_third(g, h, indices[2], own >> 2);
        put.copy_from_slice(&[x.0, y.0, z.0]);
        gathered.three(x.1 | y.1 << 1 | z.1 << 2);
    }
}

fn meet_outputs(g: &View, h: &View, table: &mut [u32], bits: &mut [u64]) {
    let mut gathered = Gather::new(bits);
    for (o, (&index, put)) in h.outs().iter().zip(table).enumerate() {
        let (index, bit) = met(g, h, index, bit(h.out_bits(), o));
        *put = index;
        gathered.one(bit);
    }
    gathered.end();
}

/// The first's words and bits at once.
fn copy_nodes(g: &View, table: &mut [u32], gathered: &mut Gather) {
    table.copy_from_slice(g.indices());
    gathered.all(g.bits(), 3 * g.nodes as usize);
}

pub fn join(g: &View, h: &View, joined: Filled) -> Result<(u32, u32, u32), Number> {
    check(g, h, &joined)?;
    let (nodes, outputs) = ((g.nodes + h.nodes) as usize, h.outputs as usize);
    let (first, second) = joined.node_table[..3 * nodes].split_at_mut(3 * g.nodes as usize);
    let mut gathered = Gather::new(&mut joined.node_bits[..words_for(3 * nodes)]);
    copy_nodes(g, first, &mut gathered);
    meet_nodes(g, h, second, &mut gathered);
    gathered.end();
    meet_outputs(g, h, &mut joined.output_table[..outputs], &mut joined.output_bits[..words_for(outputs)]);
    let (first, second) = joined.locks[..nodes].split_at_mut(g.nodes as usize);
    first.copy_from_slice(g.node_locks());
    second.copy_from_slice(h.node_locks());
    Ok((g.inputs, g.nodes + h.nodes, h.outputs))
}
