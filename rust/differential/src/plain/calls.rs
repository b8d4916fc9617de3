//! The node and pair calls: each decides, then turns the bits of its words and of their readers. A bit is looked at only where the index is
//! the one that is looked for.

use super::bits::{bit, bits_of};
use super::decide::{best_pair, flags, parted, Costs, Kind, Numbers};
use super::{admit, Number, View};
use reducer::{Saving, MARK};

/// The places of a table that name an index, and how many of them are complemented.
fn names(table: &[u32], bits: &[u64], index: u32) -> (u32, u32) {
    let (mut all, mut odd) = (0, 0);
    for (place, &other) in table.iter().enumerate() {
        if other == index {
            all += 1;
            odd += bit(bits, place);
        }
    }
    (all, odd)
}

/// Readers of an index, and how many of them are complemented.
pub(super) fn readers_of(g: &View, index: u32) -> (u32, u32) {
    let (words, odd_words) = names(g.indices(), g.bits(), index);
    let (outs, odd_outs) = names(g.outs(), g.out_bits(), index);
    (words + outs, odd_words + odd_outs)
}

/// What a literal with this bit costs as it stands and turned.
pub(super) fn bit_costs(bit: u32) -> [u32; 2] {
    [bit, bit ^ 1]
}

fn own_costs(bits: u32, xor: bool) -> Costs {
    let third = if xor { [0, 0] } else { bit_costs(bits >> 2) };
    [bit_costs(bits & 1), bit_costs(bits >> 1 & 1), third]
}

fn numbers_of(g: &View, node: u32) -> Numbers {
    let v = (node - g.inputs - 1) as usize;
    let (readers, odd) = readers_of(g, node);
    let kind = Kind { xor: g.node_table[3 * v + 2] == MARK, locked: g.locks[v] == 1 };
    Numbers { kind, costs: own_costs(bits_of(g.node_bits, v), kind.xor), readers, odd }
}

pub(super) fn is_node(g: &View, index: u32) -> bool {
    index > g.inputs && index - g.inputs <= g.nodes
}

/// The tables of a call that turns literals.
pub struct Tables<'a> {
    pub inputs: u32,
    pub nodes: u32,
    pub outputs: u32,
    pub node_table: &'a [u32],
    pub node_bits: &'a mut [u64],
    pub output_table: &'a [u32],
    pub output_bits: &'a mut [u64],
    pub locks: &'a [u8],
}

pub(super) fn turn(bits: &mut [u64], place: usize, turned: u32) {
    bits[place / 64] ^= u64::from(turned) << (place % 64);
}

pub(super) fn turn_names(table: &[u32], bits: &mut [u64], index: u32) {
    for (place, &other) in table.iter().enumerate() {
        if other == index {
            turn(bits, place, 1);
        }
    }
}

impl Tables<'_> {
    pub fn view(&self) -> View<'_> {
        View {
            inputs: self.inputs,
            nodes: self.nodes,
            outputs: self.outputs,
            node_table: self.node_table,
            node_bits: self.node_bits,
            output_table: self.output_table,
            output_bits: self.output_bits,
            locks: self.locks,
        }
    }

    /// A move at a node: its own words, then its readers.
    fn make(&mut self, node: u32, turned: &[u32; 4]) {
        let first = 3 * (node - self.inputs - 1) as usize;
        (0..3).for_each(|k| turn(self.node_bits, first + k, turned[k]));
        if turned[3] == 1 {
            turn_names(&self.node_table[..3 * self.nodes as usize], self.node_bits, node);
            turn_names(&self.output_table[..self.outputs as usize], self.output_bits, node);
        }
    }
}

pub fn node_call(t: &mut Tables, node: u32) -> Result<Saving, Number> {
    let g = t.view();
    admit(&g)?;
    if !is_node(&g, node) {
        return Err(7);
    }
    let numbers = numbers_of(&g, node);
    let least = numbers.best();
    t.make(node, flags(numbers.kind.xor, least.number));
    Ok(parted(numbers.cost(0) - least.cost, numbers.odd_around(least.number)))
}

pub fn pair_call(t: &mut Tables, node: u32, word: u32) -> Result<Saving, Number> {
    let g = t.view();
    admit(&g)?;
    if !is_node(&g, node) {
        return Err(7);
    }
    let at = 3 * (node - g.inputs - 1) as usize;
    let last = if g.node_table[at + 2] == MARK { 2 } else { 3 };
    if word < 1 || word > last {
        return Err(7);
    }
    let named = g.node_table[at + word as usize - 1];
    if named <= g.inputs {
        return Ok(Saving::default());
    }
    let which = [0, 1, 2].map(|k| g.node_table[at + k] == named);
    let (first, second) = (numbers_of(&g, named), numbers_of(&g, node));
    let best = best_pair(&first, &second, which);
    t.make(named, flags(first.kind.xor, best.named));
    t.make(node, flags(second.kind.xor, best.node));
    Ok(parted(best.saved, best.odd))
}
