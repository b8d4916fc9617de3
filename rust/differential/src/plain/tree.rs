//! The tree call: the tree is decided, its moves are made in the state, which tells what they save, and then they are written where they turn
//! something. A node below the root has one reader, whose place is known.

use super::calls::{is_node, readers_of, turn, turn_names, Tables};
use super::decide::{flags, least_of, parted};
use super::settle::{Kept, State};
use super::{admit, Number, View};
use reducer::Saving;

impl State<'_> {
    /// The bit that the only reader of a node shows it once the reader's move is made.
    fn shown(&self, v: usize) -> u32 {
        let place = self.kept[v].place as usize;
        let (reader, k) = (place / 3, place % 3);
        let bit = self.kept[reader].own() >> k & 1 ^ self.kept[v].pending();
        bit ^ flags(self.is_xor(reader), self.kept[reader].costs)[k]
    }

    /// A decided node's costs are looked at no more: its move takes their place.
    fn decide(&mut self, v: usize, readers: [u32; 2]) {
        self.kept[v].costs = least_of(self.kind(v), &self.tree_costs(v), readers).number;
    }

    /// The next node of a tree by falling index; past the lowest there is none.
    pub(super) fn next(&self, root: usize, v: usize) -> Option<usize> {
        (v != self.kept[root].lowest as usize).then(|| self.kept[v].below as usize)
    }

    /// The moves of a root's tree by falling index.
    pub(super) fn decide_tree(&mut self, root: usize) {
        self.store_tree_costs(root);
        let Kept { readers, odd, .. } = self.kept[root];
        self.decide(root, [odd, readers - odd]);
        let mut at = self.next(root, root);
        while let Some(v) = at {
            let bit = self.shown(v);
            self.decide(v, [bit, 1 - bit]);
            at = self.next(root, v);
        }
    }

    /// What the moves of a decided tree save, made in the state. Of all readers of its nodes, only the root's are outside.
    pub(super) fn make_decided(&mut self, root: usize) -> Saving {
        let (before, odd) = (self.count, self.kept[root].odd);
        let mut at = Some(root);
        while let Some(v) = at {
            let (number, own) = (self.kept[v].costs, self.own_numbers(v));
            self.count = self.count + own.cost(number) - own.cost(0);
            self.make(v, number);
            at = self.next(root, v);
        }
        parted(before - self.count, [odd, self.kept[root].odd])
    }

    pub(super) fn write_decided(&self, root: usize, node_bits: &mut [u64], output_bits: &mut [u64]) {
        let mut at = Some(root);
        while let Some(v) = at {
            let turned = flags(self.is_xor(v), self.kept[v].costs);
            (0..3).for_each(|k| turn(node_bits, 3 * v + k, turned[k]));
            if v != root {
                turn(node_bits, self.kept[v].place as usize, turned[3]);
            } else if turned[3] == 1 {
                let index = self.index_of(v);
                turn_names(self.indices.as_flattened(), node_bits, index);
                turn_names(self.outs, output_bits, index);
            }
            at = self.next(root, v);
        }
    }
}

/// A root is found by a scan, before scratch is looked at.
pub(super) fn is_root(g: &View, root: u32) -> bool {
    readers_of(g, root).0 != 1 || g.outs().contains(&root)
}

/// 3, 4, 5, 13, 7, 8 in that order; else where the root is kept.
pub(super) fn check_call(g: &View, root: u32, scratch: usize) -> Result<usize, Number> {
    admit(g)?;
    if !is_node(g, root) || !is_root(g, root) {
        return Err(7);
    }
    if scratch < 8 * g.nodes as usize {
        return Err(8);
    }
    Ok((root - g.inputs - 1) as usize)
}

pub fn tree_call(t: &mut Tables, root: u32, scratch: usize) -> Result<Saving, Number> {
    let v = check_call(&t.view(), root, scratch)?;
    let (mut s, node_bits, output_bits) = t.state();
    s.decide_tree(v);
    let saving = s.make_decided(v);
    s.write_decided(v, node_bits, output_bits);
    Ok(saving)
}
