//! The finder: a pass over the nodes by rising index, then one falling and one rising sweep that drop what is unread.

use super::bits::{bits_of, words_for, Gather};
use super::truth::{of_words, Finder, Triple, Wired};
use super::{admit, Number};
use reducer::MARK;

/// The values of an input under 32 assignments. Any will do; mixed ones let few triples pass.
fn input_sign(input: u32) -> u32 {
    let mixed = (u64::from(input) + 1).wrapping_mul(0x9e37_79b9_7f4a_7c15);
    (mixed >> 13) as u32 ^ (mixed >> 35) as u32
}

impl Finder<'_> {
    fn sign(&self, index: u32) -> u32 {
        match index {
            0 | MARK => 0,
            _ if index <= self.inputs => input_sign(index),
            _ => self.kept[self.place(index)].sign,
        }
    }

    /// The values of a node under the assignments; no majority that is made changes them.
    fn set_sign(&mut self, v: usize) {
        let words = self.words(v);
        let signs = words.map(|index| self.sign(index));
        self.kept[v].sign = of_words(signs, bits_of(self.bits, v), words[2] == MARK, u32::MAX);
    }

    /// Whether the node can be a majority of the triple, as far as the assignments tell: two of the three, complemented somehow, never
    /// differ from a majority at once.
    fn could_be(&self, v: usize, t: Triple) -> bool {
        let [x, y, z] = t.map(|index| self.sign(index) ^ self.kept[v].sign);
        [(x, y), (x, !y), (!x, y), (!x, !y)].iter().any(|&(x, y)| x & y == 0 && ((x | y) & z == 0 || (x | y) & !z == 0))
    }

    /// Whether the node names three different indices other than 0.
    fn is_plain(&self, v: usize) -> bool {
        let [x, y, z] = self.words(v);
        z != MARK && x != 0 && y != 0 && z != 0 && x != y && x != z && y != z
    }

    /// The triples with these two lowest, up to one that is made.
    fn try_thirds(&mut self, v: usize, two: [u32; 2], list: &[u32], thirds: u64) -> bool {
        let mut left = thirds;
        while left != 0 {
            let t = [two[0], two[1], list[left.trailing_zeros() as usize]];
            if self.could_be(v, t) && self.try_triple(v, t) {
                return true;
            }
            left &= left - 1;
        }
        false
    }

    /// The triples near a node in rising order, up to one that is made.
    fn try_node(&mut self, v: usize) {
        if self.nothing_to_find(v) {
            return;
        }
        let near = self.near(v);
        let (list, allowed) = (near.list(), self.allowed(&near, v));
        if list.len() <= 3 && allowed & 7 != 7 {
            return;
        }
        let ways = self.ways(&near, v, allowed);
        if ways.spread(allowed) {
            return;
        }
        let is_allowed = |at: &usize| allowed >> at & 1 == 1;
        for a in (0..list.len()).filter(is_allowed) {
            for b in (a + 1..list.len()).filter(is_allowed) {
                let above = (1 << list.len()) - (2 << b);
                let thirds = ways.thirds(allowed & above, 1 << a | 1 << b);
                if self.try_thirds(v, [list[a], list[b]], list, thirds) {
                    return;
                }
            }
        }
    }

    fn pass(&mut self, locks: &[u8]) {
        for (v, &lock) in locks.iter().enumerate() {
            self.set_sign(v);
            if lock == 0 && !self.is_plain(v) {
                self.try_node(v);
            }
            self.set_down(v);
        }
    }
}

/// 1 for each node that lives: locked, or read by an output or a node that lives.
fn living(t: &Wired) -> Vec<u32> {
    let g = t.view();
    let mut marks: Vec<u32> = g.node_locks().iter().map(|&lock| lock.into()).collect();
    let mark = |index: u32, marks: &mut [u32]| {
        if index > g.inputs && index != MARK {
            marks[(index - g.inputs - 1) as usize] = 1;
        }
    };
    g.outs().iter().for_each(|&index| mark(index, &mut marks));
    for (v, words) in g.indices().chunks_exact(3).enumerate().rev() {
        if marks[v] == 1 {
            words.iter().for_each(|&index| mark(index, &mut marks));
        }
    }
    marks
}

/// Moves what lives to the front by rising index, with its locks; what is freed becomes 0. How many live.
fn drop_unread(t: &mut Wired) -> usize {
    let (nodes, inputs) = (t.nodes as usize, t.inputs);
    // Of each node that lives, by rising index, its new index takes the place of its mark.
    let mut numbers = living(t);
    let renumbered = |index: u32, numbers: &[u32]| match index {
        MARK => MARK,
        _ if index <= inputs => index,
        _ => numbers[(index - inputs - 1) as usize],
    };
    let mut left = 0;
    let mut gathered = Gather::new(&mut t.node_bits[..words_for(3 * nodes)]);
    for v in 0..nodes {
        if numbers[v] == 0 {
            continue;
        }
        gathered.three(bits_of(gathered.bits, v));
        for k in 0..3 {
            t.node_table[3 * left + k] = renumbered(t.node_table[3 * v + k], &numbers);
        }
        t.locks[left] = t.locks[v];
        left += 1;
        numbers[v] = inputs + left as u32;
    }
    gathered.end();
    for index in &mut t.output_table[..t.outputs as usize] {
        *index = renumbered(*index, &numbers);
    }
    t.node_table[3 * left..3 * nodes].fill(0);
    t.node_bits[words_for(3 * left)..words_for(3 * nodes)].fill(0);
    t.locks[left..nodes].fill(0);
    left
}

/// The new N.
pub fn find(t: &mut Wired, scratch: usize) -> Result<u32, Number> {
    admit(&t.view())?;
    if scratch < 8 * t.nodes as usize {
        return Err(8);
    }
    let locks = t.view().node_locks().to_vec();
    t.finder().pass(&locks);
    Ok(drop_unread(t) as u32)
}
