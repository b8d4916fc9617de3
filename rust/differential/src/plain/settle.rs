//! Settling in linear time a round, and the state that it shares with the tree call. A node's three complement bits stand beside its pending turn, a bit that turns all its
//! readers; both are filled once, and a last sweep writes words of bits whole. No table is written before. Readers, roots and trees are found
//! once, since no move changes the wiring.

use super::bits::{bit, bits_of, ones, words_for, Gather};
use super::calls::{bit_costs, Tables};
use super::decide::{best_pair, flags, least_of, Costs, Kind, Numbers};
use super::{admit, Number};
use reducer::{Settled, MARK};

/// The bit of a node's turns that is pending; its own three bits follow it.
const PENDING: u32 = 1;

#[derive(Clone, Copy, Default)]
pub(super) struct Kept {
    pub(super) readers: u32,
    /// How many of them are complemented now.
    pub(super) odd: u32,
    /// Bit 0: whether all readers are turned relative to their own bits. Bits 1 to 3: the bits of the node's words.
    turns: u32,
    /// The place of the only reading word, or the mark at a root.
    pub(super) place: u32,
    /// How much its cost, shown 0 and 1, exceeds the other: two bits.
    pub(super) costs: u32,
    /// The next node of its tree by rising index, and by falling index; at a root, the tree's lowest.
    pub(super) above: u32,
    pub(super) below: u32,
    pub(super) lowest: u32,
}

impl Kept {
    /// The bits of the node's words.
    pub(super) fn own(&self) -> u32 {
        self.turns >> 1
    }

    pub(super) fn pending(&self) -> u32 {
        self.turns & PENDING
    }
}

/// The wiring, and what is kept of each node.
pub(super) struct State<'a> {
    inputs: u32,
    /// Three a node.
    pub(super) indices: &'a [[u32; 3]],
    pub(super) outs: &'a [u32],
    /// A byte a node.
    locks: &'a [u8],
    pub(super) kept: Vec<Kept>,
    pub(super) count: u32,
    /// The complemented readers outside of the nodes that a call names, before it and after it, summed over the calls made.
    odd: [u64; 2],
}

impl<'a> State<'a> {
    /// With everything found; the bits are those of the nodes' words and of the outputs, no more than needed.
    pub(super) fn new(inputs: u32, table: &'a [u32], outs: &'a [u32], locks: &'a [u8], bits: [&[u64]; 2]) -> Self {
        let (indices, _) = table.as_chunks();
        // Put there by the sweep that counts readers, the bits made that sweep slower.
        let of = |v: usize| Kept { turns: bits_of(bits[0], v) << 1, ..Kept::default() };
        let kept = (0..indices.len()).map(of).collect();
        let count = ones(bits[0]) + ones(bits[1]);
        let mut s = State { inputs, indices, outs, locks, kept, count, odd: [0; 2] };
        s.find_readers(bits[1]);
        s.find_trees();
        s
    }

    /// Where the node of an index is kept: beyond the end for the mark, the constant and the inputs.
    pub(super) fn node_of(&self, index: u32) -> usize {
        index.wrapping_sub(self.inputs + 1) as usize
    }

    pub(super) fn index_of(&self, v: usize) -> u32 {
        self.inputs + 1 + v as u32
    }

    fn find_readers(&mut self, out_bits: &[u64]) {
        for v in 0..self.indices.len() {
            let own = self.kept[v].own();
            for (k, index) in self.indices[v].into_iter().enumerate() {
                self.count_reader(index, own >> k & 1, (3 * v + k) as u32);
            }
        }
        for node in &mut self.kept {
            if node.readers != 1 {
                node.place = MARK;
            }
        }
        for o in 0..self.outs.len() {
            self.count_reader(self.outs[o], bit(out_bits, o), MARK);
        }
    }

    /// One reader more, at this place, for the node of an index, if it is one's.
    fn count_reader(&mut self, index: u32, bit: u32, place: u32) {
        let v = self.node_of(index);
        if let Some(node) = self.kept.get_mut(v) {
            node.readers += 1;
            node.odd += bit;
            node.place = place;
        }
    }

    fn find_trees(&mut self) {
        let mut root = vec![0u32; self.kept.len()];
        for v in (0..self.kept.len()).rev() {
            let place = self.kept[v].place;
            if place == MARK {
                root[v] = v as u32;
                self.kept[v].lowest = v as u32;
            } else {
                root[v] = root[place as usize / 3];
                let r = root[v] as usize;
                let last = self.kept[r].lowest;
                self.kept[v].above = last;
                self.kept[last as usize].below = v as u32;
                self.kept[r].lowest = v as u32;
            }
        }
    }

    pub(super) fn is_xor(&self, v: usize) -> bool {
        self.indices[v][2] == MARK
    }

    pub(super) fn kind(&self, v: usize) -> Kind {
        Kind { xor: self.is_xor(v), locked: self.locks[v] == 1 }
    }

    /// The indices of a node's words, each with its own bit.
    fn words(&self, v: usize) -> [(u32, u32); 3] {
        let (indices, own) = (self.indices[v], self.kept[v].own());
        [0, 1, 2].map(|k| (indices[k], own >> k & 1))
    }

    /// What a word costs as it stands and turned: nothing where it is the mark.
    fn word_costs(&self, (index, bit): (u32, u32)) -> [u32; 2] {
        let counts = (index != MARK) as u32;
        let pending = self.kept.get(self.node_of(index)).map_or(0, |node| node.pending());
        bit_costs(bit ^ pending).map(|cost| counts & cost)
    }

    pub(super) fn own_numbers(&self, v: usize) -> Numbers {
        let Kept { readers, odd, .. } = self.kept[v];
        Numbers { kind: self.kind(v), costs: self.words(v).map(|word| self.word_costs(word)), readers, odd }
    }

    /// What a word costs as it stands and turned, with the best below it where it names a non-root.
    fn edge_costs(&self, (index, bit): (u32, u32)) -> [u32; 2] {
        match self.kept.get(self.node_of(index)) {
            Some(node) if node.place != MARK => {
                let bit = bit ^ node.pending();
                [node.costs >> bit & 1, node.costs >> (1 - bit) & 1]
            }
            _ => self.word_costs((index, bit)),
        }
    }

    pub(super) fn tree_costs(&self, v: usize) -> Costs {
        self.words(v).map(|word| self.edge_costs(word))
    }

    fn store_costs(&mut self, v: usize) {
        let costs = self.tree_costs(v);
        let least = |readers| least_of(self.kind(v), &costs, readers).cost;
        let (a, b) = (least([0, 1]), least([1, 0]));
        self.kept[v].costs = a.saturating_sub(b) | b.saturating_sub(a) << 1;
    }

    /// The costs of a tree's nodes by rising index, all but the root's.
    pub(super) fn store_tree_costs(&mut self, root: usize) {
        let mut v = self.kept[root].lowest as usize;
        while v != root {
            self.store_costs(v);
            v = self.kept[v].above as usize;
        }
    }

    fn turn_word(&mut self, v: usize, k: usize) {
        let bit = self.kept[v].own() >> k & 1;
        self.kept[v].turns ^= 2 << k;
        let u = self.node_of(self.indices[v][k]);
        if let Some(node) = self.kept.get_mut(u) {
            if bit ^ node.pending() == 1 {
                node.odd -= 1;
            } else {
                node.odd += 1;
            }
        }
    }

    pub(super) fn make(&mut self, v: usize, number: u32) {
        let turned = flags(self.is_xor(v), number);
        for k in 0..3 {
            if turned[k] == 1 {
                self.turn_word(v, k);
            }
        }
        if turned[3] == 1 {
            let node = &mut self.kept[v];
            node.odd = node.readers - node.odd;
            node.turns ^= PENDING;
        }
    }

    fn add_odd(&mut self, odd: [u32; 2]) {
        self.odd[0] += u64::from(odd[0]);
        self.odd[1] += u64::from(odd[1]);
    }

    /// A tree decided, then its moves made. Of all readers of its nodes, only the root's are outside.
    fn tree_step(&mut self, root: usize) {
        let before = self.kept[root].odd;
        self.decide_tree(root);
        self.make_decided(root);
        self.add_odd([before, self.kept[root].odd]);
    }

    fn node_step(&mut self, v: usize) {
        let numbers = self.own_numbers(v);
        let least = numbers.best();
        if least.number != 0 {
            self.count -= numbers.cost(0) - least.cost;
            self.add_odd(numbers.odd_around(least.number));
            self.make(v, least.number);
        }
    }

    fn pair_step(&mut self, v: usize, k: usize) {
        let index = self.indices[v][k];
        let u = self.node_of(index);
        if u >= self.kept.len() {
            return;
        }
        let which = self.indices[v].map(|other| other == index);
        let best = best_pair(&self.own_numbers(u), &self.own_numbers(v), which);
        if best.saved != 0 {
            self.count -= best.saved;
            self.add_odd(best.odd);
            self.make(u, best.named);
            self.make(v, best.node);
        }
    }

    fn round(&mut self) {
        let nodes = self.kept.len();
        for v in 0..nodes {
            if self.kept[v].place == MARK {
                self.tree_step(v);
            }
        }
        for v in 0..nodes {
            self.node_step(v);
        }
        for v in 0..nodes {
            for k in 0..if self.is_xor(v) { 2 } else { 3 } {
                self.pair_step(v, k);
            }
        }
    }

    /// Whether a turn of an index's readers is pending, for a sweep: it is read at some node before it is known whether the index is a
    /// node's, and nothing is jumped on. There is a node.
    fn due(&self, index: u32) -> u32 {
        let v = self.node_of(index);
        let nearest = v.min(self.kept.len() - 1);
        self.kept[nearest].turns & (nearest == v) as u32
    }

    /// The words of bits as they are to be; those of the outputs are as they were.
    fn write_out(&self, node_bits: &mut [u64], output_bits: &mut [u64]) {
        if self.kept.is_empty() {
            return;
        }
        let mut gathered = Gather::new(node_bits);
        for (indices, node) in self.indices.iter().zip(&self.kept) {
            let [x, y, z] = indices.map(|index| self.due(index));
            gathered.three(node.own() ^ (x | y << 1 | z << 2));
        }
        gathered.end();
        for (outs, word) in self.outs.chunks(64).zip(output_bits) {
            for (o, &index) in outs.iter().enumerate() {
                *word ^= u64::from(self.due(index)) << o;
            }
        }
    }
}

impl<'a> Tables<'a> {
    /// Its state, and the words of bits that it is written out to.
    pub(super) fn state(&mut self) -> (State<'a>, &mut [u64], &mut [u64]) {
        let (places, outputs, nodes) = (3 * self.nodes as usize, self.outputs as usize, self.nodes as usize);
        let (table, outs) = (&self.node_table[..places], &self.output_table[..outputs]);
        let node_bits = &mut self.node_bits[..words_for(places)];
        let output_bits = &mut self.output_bits[..words_for(outputs)];
        let state = State::new(self.inputs, table, outs, &self.locks[..nodes], [node_bits, output_bits]);
        (state, node_bits, output_bits)
    }
}

pub fn settle(t: &mut Tables, scratch: usize) -> Result<Settled, Number> {
    admit(&t.view())?;
    if scratch < 8 * t.nodes as usize {
        return Err(8);
    }
    let (mut s, node_bits, output_bits) = t.state();
    let before = s.count;
    let mut rounds = 0;
    loop {
        let start = s.count;
        s.round();
        rounds += 1;
        if s.count == start {
            break;
        }
    }
    s.write_out(node_bits, output_bits);
    let (after, odd) = (s.count, s.odd);
    let others = odd[0] as i64 - odd[1] as i64;
    Ok(Settled { rounds, before, after, own: i64::from(before - after) - others, others })
}
