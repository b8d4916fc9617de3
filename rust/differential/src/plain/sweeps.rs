//! The tree call by another programme: the costs of all nodes by one sweep, the moves of the tree by another, and one sweep that writes.

use super::bits::{bit, bits_of, words_for, Gather};
use super::calls::{bit_costs, is_node, readers_of, Tables};
use super::decide::{flags, least_of, parted, Costs, Kind};
use super::{admit, complemented, Number, View};
use reducer::{Saving, MARK};

/// What a tree call keeps of a node.
#[derive(Clone, Copy)]
struct Kept {
    /// The place of its only reading word, or the mark at a root.
    place: u32,
    readers: u32,
    /// How much its cost, shown 0 and 1, exceeds the other.
    costs: [u8; 2],
    /// What its move turns.
    turned: [u8; 4],
    chosen: bool,
}

/// Where the node of an index is kept: beyond the end for the mark, the constant and the inputs.
fn kept_at(inputs: u32, index: u32) -> usize {
    index.wrapping_sub(inputs + 1) as usize
}

fn find_places(g: &View) -> Vec<Kept> {
    let none = Kept { place: MARK, readers: 0, costs: [0; 2], turned: [0; 4], chosen: false };
    let mut kept = vec![none; g.nodes as usize];
    for (place, &index) in g.indices().iter().enumerate() {
        if let Some(node) = kept.get_mut(kept_at(g.inputs, index)) {
            node.place = place as u32;
            node.readers += 1;
        }
    }
    for &index in g.outs() {
        if let Some(node) = kept.get_mut(kept_at(g.inputs, index)) {
            node.readers += 2;
        }
    }
    for node in &mut kept {
        if node.readers != 1 {
            node.place = MARK;
        }
    }
    kept
}

/// What a word costs as it stands and turned, with the best below it where it names a non-root.
fn edge_costs(g: &View, kept: &[Kept], index: u32, bit: u32) -> [u32; 2] {
    match kept.get(kept_at(g.inputs, index)) {
        Some(node) if node.place != MARK => {
            let bit = bit as usize;
            [node.costs[bit].into(), node.costs[1 - bit].into()]
        }
        _ if index == MARK => [0, 0],
        _ => bit_costs(bit),
    }
}

fn tree_costs(g: &View, kept: &[Kept], v: usize) -> Costs {
    let (indices, bits) = (&g.node_table[3 * v..3 * v + 3], bits_of(g.bits(), v));
    [0, 1, 2].map(|k| edge_costs(g, kept, indices[k], bits >> k & 1))
}

fn kind(g: &View, v: usize) -> Kind {
    Kind { xor: g.node_table[3 * v + 2] == MARK, locked: g.locks[v] == 1 }
}

fn fill_costs(g: &View, kept: &mut [Kept]) {
    for v in 0..kept.len() {
        let costs = tree_costs(g, kept, v);
        let least = |readers| least_of(kind(g, v), &costs, readers).cost as u8;
        let (a, b) = (least([0, 1]), least([1, 0]));
        kept[v].costs = [a.saturating_sub(b), b.saturating_sub(a)];
    }
}

/// The bit that the only reader of a node shows it once the reader's move is made; none outside the tree.
fn shown(g: &View, kept: &[Kept], v: usize) -> Option<u32> {
    let place = kept[v].place as usize;
    // A third of the mark is beyond the end.
    let reader = kept.get(place / 3).filter(|reader| reader.chosen)?;
    Some(bit(g.bits(), place) ^ u32::from(reader.turned[place % 3]))
}

/// The move of a node whose readers cost so much, left and turned.
fn choose_at(g: &View, kept: &mut [Kept], v: usize, readers: [u32; 2]) {
    let kind = kind(g, v);
    let least = least_of(kind, &tree_costs(g, kept, v), readers);
    kept[v].turned = flags(kind.xor, least.number).map(|flag| flag as u8);
    kept[v].chosen = true;
}

/// The moves of a root's tree, by falling index; how many of the root's readers are complemented before them and after.
fn choose(g: &View, kept: &mut [Kept], root: usize) -> [u32; 2] {
    let (readers, odd) = readers_of(g, g.inputs + 1 + root as u32);
    choose_at(g, kept, root, [odd, readers - odd]);
    for v in (0..root).rev() {
        if let Some(bit) = shown(g, kept, v) {
            choose_at(g, kept, v, [bit, 1 - bit]);
        }
    }
    [odd, [odd, readers - odd][usize::from(kept[root].turned[3])]]
}

fn turn_tree(t: &mut Tables, kept: &[Kept]) {
    let inputs = t.inputs;
    let readers = |index: u32| kept.get(kept_at(inputs, index)).map_or(0, |node| u32::from(node.turned[3]));
    let mut gathered = Gather::new(&mut t.node_bits[..words_for(3 * t.nodes as usize)]);
    for (v, (indices, own)) in t.node_table.chunks_exact(3).zip(kept).enumerate() {
        // The mark names no node, and no move of an XOR turns a third word.
        let [x, y, z] = [0, 1, 2].map(|k| u32::from(own.turned[k]) ^ readers(indices[k]));
        gathered.three(bits_of(gathered.bits, v) ^ (x | y << 1 | z << 2));
    }
    gathered.end();
    for (o, &index) in t.output_table[..t.outputs as usize].iter().enumerate() {
        t.output_bits[o / 64] ^= u64::from(readers(index)) << (o % 64);
    }
}

pub fn tree_call(t: &mut Tables, root: u32, scratch: usize) -> Result<Saving, Number> {
    let g = t.view();
    admit(&g)?;
    if !is_node(&g, root) {
        return Err(7);
    }
    let v = (root - g.inputs - 1) as usize;
    let mut kept = find_places(&g);
    if kept[v].place != MARK {
        return Err(7);
    }
    if scratch < 8 * g.nodes as usize {
        return Err(8);
    }
    let before = complemented(&g);
    fill_costs(&g, &mut kept);
    let odd = choose(&g, &mut kept, v);
    turn_tree(t, &kept);
    Ok(parted(before - complemented(&t.view()), odd))
}
