//! A node's truth value over three lower indices, and the majority call.

use super::bits::bits_of;
use super::calls::is_node;
use super::{admit, Number, View};
use reducer::MARK;

/// The tables of a call that rewires, and the locks.
pub struct Wired<'a> {
    pub inputs: u32,
    pub nodes: u32,
    pub outputs: u32,
    pub node_table: &'a mut [u32],
    pub node_bits: &'a mut [u64],
    pub output_table: &'a mut [u32],
    pub output_bits: &'a mut [u64],
    pub locks: &'a mut [u8],
}

impl Wired<'_> {
    pub fn view(&self) -> View<'_> {
        View {
            inputs: self.inputs,
            nodes: self.nodes,
            outputs: self.outputs,
            node_table: self.node_table,
            node_bits: self.node_bits,
            output_table: self.output_table,
            output_bits: self.output_bits,
            locks: self.locks,
        }
    }

    /// The nodes with nothing known of any.
    pub(super) fn finder(&mut self) -> Finder<'_> {
        let nodes = self.nodes as usize;
        Finder {
            inputs: self.inputs,
            indices: &mut self.node_table[..3 * nodes],
            bits: self.node_bits,
            kept: vec![Kept::default(); nodes],
        }
    }
}

/// Three indices that rise.
pub type Triple = [u32; 3];

/// A value that a way down to an input misses the triple on, and one that is not known yet.
pub(super) const LEAK: u32 = 256;
const UNKNOWN: u32 = 511;
/// Words to an input that are no longer told apart.
const MANY: u32 = 8;

/// What is known of a node. It stays true while higher nodes are made, so that nothing is ever undone.
#[derive(Clone, Copy, Default)]
pub(super) struct Kept {
    /// Twice an index that it names from which a way leads to an input, 0 where there is none.
    pub down: u32,
    /// How many words that way has.
    words: u32,
    /// Which node waits for its value.
    waiting: u32,
    /// A triple, none where its first is 0, and the node's value over it.
    triple: Triple,
    value: u32,
    /// Its values under 32 assignments.
    pub sign: u32,
}

pub(super) struct Finder<'a> {
    pub inputs: u32,
    /// Three a node.
    pub indices: &'a mut [u32],
    pub bits: &'a mut [u64],
    pub kept: Vec<Kept>,
}

/// The complements of the words, the first lowest, of the majority that has this truth value.
fn complements(value: u32) -> Option<u32> {
    [232, 212, 178, 113, 142, 77, 43, 23].iter().position(|&byte| byte == value).map(|c| c as u32)
}

/// The majority of three words, or their parity where the third index is the mark; `all` are as many ones as a word has.
pub(super) fn of_words(x: [u32; 3], bits: u32, xor: bool, all: u32) -> u32 {
    let [x, y, z] = [0, 1, 2].map(|k| x[k] ^ (all * (bits >> k & 1)));
    if xor {
        x ^ y
    } else {
        x & y | z & (x | y)
    }
}

impl Finder<'_> {
    pub fn place(&self, node: u32) -> usize {
        (node - self.inputs - 1) as usize
    }

    pub fn words(&self, v: usize) -> [u32; 3] {
        [self.indices[3 * v], self.indices[3 * v + 1], self.indices[3 * v + 2]]
    }

    /// The value of an index over the triple as far as it is known without work, the mark's being 0.
    fn known(&self, t: Triple, index: u32) -> u32 {
        match index {
            _ if index == t[0] => 170,
            _ if index == t[1] => 204,
            _ if index == t[2] => 240,
            0 | MARK => 0,
            _ if index <= self.inputs => LEAK,
            _ => self.known_node(t, index),
        }
    }

    fn known_node(&self, t: Triple, index: u32) -> u32 {
        let kept = &self.kept[self.place(index)];
        if index < t[0] && kept.down >= 2 {
            LEAK
        } else if kept.triple == t {
            kept.value
        } else {
            UNKNOWN
        }
    }

    /// The value of a node over the triple, or the first node below it that must be valued before.
    fn look(&self, v: usize, t: Triple) -> Result<u32, usize> {
        let words = self.words(v);
        let x = words.map(|index| self.known(t, index));
        if x.contains(&LEAK) {
            return Ok(LEAK);
        }
        match x.iter().position(|&value| value == UNKNOWN) {
            Some(k) => Err(self.place(words[k])),
            None => Ok(of_words(x, bits_of(self.bits, v), words[2] == MARK, 255)),
        }
    }

    /// The truth value of a node. Nodes that wait are linked, and their indices fall; a leak is a value like any other.
    pub fn truth(&mut self, root: usize, t: Triple) -> u32 {
        let mut v = root;
        loop {
            match self.look(v, t) {
                Err(below) => {
                    self.kept[below].waiting = v as u32;
                    v = below;
                }
                Ok(value) => {
                    let kept = &mut self.kept[v];
                    (kept.triple, kept.value) = (t, value);
                    if v == root {
                        return value;
                    }
                    v = kept.waiting as usize;
                }
            }
        }
    }

    /// The node as a majority of the triple, if its truth value is one's. That is then still its value.
    pub fn try_triple(&mut self, v: usize, t: Triple) -> bool {
        let value = self.truth(v, t);
        let Some(c) = complements(value) else { return false };
        self.indices[3 * v..3 * v + 3].copy_from_slice(&t);
        for k in 0..3 {
            let (word, at) = ((3 * v + k) / 64, (3 * v + k) % 64);
            self.bits[word] = self.bits[word] & !(1 << at) | u64::from(c >> k & 1) << at;
        }
        true
    }

    pub fn is_open(&self, index: u32) -> bool {
        index != 0 && index != MARK && (index <= self.inputs || self.kept[self.place(index)].down > 1)
    }

    /// How many words lead from an index to an input by the ways that are told.
    pub fn words_from(&self, index: u32) -> u32 {
        if index <= self.inputs {
            0
        } else {
            self.kept[self.place(index)].words
        }
    }

    /// What lies below a node, whose words below have been looked at: the way with the fewest words, and where many have many, by the lowest index.
    pub fn set_down(&mut self, v: usize) {
        let open = self.words(v).into_iter().filter(|&index| self.is_open(index));
        let nearest = open.min_by_key(|&index| (self.words_from(index).min(MANY), index)).unwrap_or(0);
        self.kept[v].words = self.words_from(nearest) + 1;
        self.kept[v].down = 2 * nearest;
    }
}

/// 0 where the node is made, 1 where it is no majority of the three, 2 where they do not cover it.
pub fn majority(t: &mut Wired, node: u32, three: Triple, scratch: usize) -> Result<u32, Number> {
    let g = t.view();
    admit(&g)?;
    let rising = 0 < three[0] && three[0] < three[1] && three[1] < three[2] && three[2] < node;
    if !is_node(&g, node) || !rising {
        return Err(7);
    }
    let v = (node - g.inputs - 1) as usize;
    if g.locks[v] == 1 {
        return Err(16);
    }
    if scratch < 8 * g.nodes as usize {
        return Err(8);
    }
    let mut finder = t.finder();
    (0..v).for_each(|below| finder.set_down(below));
    if finder.try_triple(v, three) {
        return Ok(0);
    }
    Ok(if finder.kept[v].value == LEAK { 2 } else { 1 })
}
