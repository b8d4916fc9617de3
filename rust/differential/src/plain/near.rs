//! What lies near a node, and which triples of it need not be tried: those that a way down to an input misses, and those that have an index
//! which no majority over the node can have.

use super::truth::Finder;
use reducer::MARK;

/// The most indices that are near a node: three, three for each, three for each of those.
const MOST: usize = 39;
/// The ways of three words.
const MOST_WAYS: usize = 27;
/// The most ways within two words, the one of none among them.
const MOST_HEADS: usize = 13;
/// How far a way is followed to see where it ends.
const FAR: u32 = 40;

/// The indices other than 0 within three words of a node, by rising index.
pub(super) struct Near {
    list: [u32; MOST],
    many: usize,
}

impl Near {
    pub fn list(&self) -> &[u32] {
        &self.list[..self.many]
    }

    fn insert(&mut self, index: u32) {
        let mut at = self.many;
        while at > 0 && self.list[at - 1] > index {
            at -= 1;
        }
        if at > 0 && self.list[at - 1] == index {
            return;
        }
        self.list.copy_within(at..self.many, at + 1);
        self.list[at] = index;
        self.many += 1;
    }

    /// The bit of an index in masks of the list.
    fn bit(&self, index: u32) -> u64 {
        self.list().binary_search(&index).map_or(0, |at| 1 << at)
    }
}

/// The index that a way has come to, and the near indices that it has met, as a mask.
#[derive(Clone, Copy, Default)]
struct Head {
    index: u32,
    mask: u64,
}

/// The near indices on each of some ways down to an input, as masks.
pub(super) struct Ways {
    masks: [u64; MOST_WAYS],
    many: usize,
}

impl Ways {
    fn add(&mut self, mask: u64) {
        self.masks[self.many] = mask;
        self.many += 1;
    }

    /// Whether no three places that are allowed meet every way: one has no such place, or four share none.
    pub fn spread(&self, allowed: u64) -> bool {
        let (mut seen, mut apart) = (0, 0);
        for mask in self.masks[..self.many].iter().map(|mask| mask & allowed) {
            if mask & seen == 0 {
                seen |= mask;
                apart += 1;
            }
            if mask == 0 || apart > 3 {
                return true;
            }
        }
        false
    }

    /// Of the places that are allowed, those that meet every way which the indices at these two miss.
    pub fn thirds(&self, allowed: u64, two: u64) -> u64 {
        let missed = self.masks[..self.many].iter().filter(|&&mask| mask & two == 0);
        missed.fold(allowed, |thirds, &mask| thirds & mask)
    }
}

impl Finder<'_> {
    fn is_node(&self, index: u32) -> bool {
        index > self.inputs && index != MARK
    }

    /// The indices that a node names.
    fn named(&self, v: usize) -> impl Iterator<Item = u32> {
        self.words(v).into_iter().filter(|&index| index != MARK)
    }

    /// The nodes that a node names.
    fn below(&self, v: usize) -> impl Iterator<Item = usize> + '_ {
        self.words(v).into_iter().filter(|&index| self.is_node(index)).map(|index| self.place(index))
    }

    fn gather(&self, near: &mut Near, v: usize) {
        self.named(v).filter(|&index| index != 0).for_each(|index| near.insert(index));
    }

    pub fn near(&self, v: usize) -> Near {
        let mut near = Near { list: [0; MOST], many: 0 };
        self.gather(&mut near, v);
        for w in self.below(v) {
            self.gather(&mut near, w);
            self.below(w).for_each(|u| self.gather(&mut near, u));
        }
        near
    }

    /// Whether a way may end at an index: at an input, or below all that is near, where a way leads on.
    fn ends(&self, near: &Near, index: u32) -> bool {
        index <= self.inputs || index < near.list[0] && self.is_open(index)
    }

    /// A way by the ways that are told, unless it would be given up: where an input is near it must be followed to its end.
    fn follow(&self, near: &Near, head: Head) -> Option<u64> {
        if near.list[0] <= self.inputs && self.words_from(head.index) > FAR {
            return None;
        }
        let Head { mut index, mut mask } = head;
        for _ in 0..FAR {
            if self.ends(near, index) {
                return Some(mask);
            }
            index = self.kept[self.place(index)].down / 2;
            if index == 0 {
                return None;
            }
            mask |= near.bit(index);
        }
        None
    }

    /// A way one word further. One that has come to an input stays, for one of the words.
    fn step(&self, near: &Near, head: Head, word: usize) -> Option<Head> {
        if head.index <= self.inputs {
            return (word == 1).then_some(head);
        }
        match self.words(self.place(head.index))[word] {
            0 | MARK => None,
            index => Some(Head { index, mask: head.mask | near.bit(index) }),
        }
    }

    /// The ways at places from up to n one word further, put behind these. How many there are then.
    fn further(&self, near: &Near, heads: &mut [Head], from: usize, n: usize) -> usize {
        let mut to = n;
        for at in from..n {
            let head = heads[at];
            if head.index <= self.inputs {
                heads[to] = head;
                to += 1;
                continue;
            }
            for index in self.named(self.place(head.index)).filter(|&index| index != 0) {
                heads[to] = Head { index, mask: head.mask | near.bit(index) };
                to += 1;
            }
        }
        to
    }

    fn ways_by(&self, near: &Near, heads: &[Head], word: usize, ways: &mut Ways) {
        let further = heads.iter().filter_map(|&head| self.step(near, head, word));
        further.filter_map(|head| self.follow(near, head)).for_each(|mask| ways.add(mask));
    }

    /// The ways down by each three words and on from there, or so many of them that no three places meet them. A first word is often the
    /// constant, so that the second is taken first.
    pub fn ways(&self, near: &Near, v: usize, allowed: u64) -> Ways {
        let mut heads = [Head::default(); MOST_HEADS];
        heads[0].index = self.inputs + 1 + v as u32;
        let first = self.further(near, &mut heads, 0, 1);
        let second = self.further(near, &mut heads, 1, first);
        let heads = &heads[first..second];
        let mut ways = Ways { masks: [0; MOST_WAYS], many: 0 };
        self.ways_by(near, heads, 1, &mut ways);
        if !ways.spread(allowed) {
            self.ways_by(near, heads, 2, &mut ways);
            self.ways_by(near, heads, 0, &mut ways);
        }
        ways
    }

    /// Whether no triple of a majority has what the node names: an AND that names an input is constant over one of its values, or leaks.
    pub fn nothing_to_find(&self, v: usize) -> bool {
        let words = self.words(v);
        let is_input = |index: u32| index != 0 && index <= self.inputs;
        words[2] != MARK && words[0] == 0 && (is_input(words[1]) || is_input(words[2]))
    }

    /// The places that a triple may have: not those of what an AND names, which is constant over one of their values, and not that of the
    /// higher index that an XOR names, which turns it.
    pub fn allowed(&self, near: &Near, v: usize) -> u64 {
        match self.words(v) {
            [x, y, MARK] => u64::MAX ^ if x == y { 0 } else { near.bit(x.max(y)) },
            [0, x, y] => u64::MAX ^ (near.bit(x) | near.bit(y)),
            _ => u64::MAX,
        }
    }
}
