//! The call on a tree for resistive memory, over the tree call's state. Siblings meet in their reader, so that a cost is that of a node with its
//! move and the best turns of what is free below it: its family.

use super::bits::ones;
use super::calls::Tables;
use super::decide::{flags, parted, Kind};
use super::settle::State;
use super::tree::check_call;
use super::Number;
use reducer::{Saving, MARK};

/// What a turn costs that is out of the question. No turn changes what a node adds by more.
const NEVER: u32 = 304_100;

/// What a majority and an XOR add by their complemented inputs. C is at most 304,096: a majority that has not just one comes before it.
const WEIGHTS: [[u32; 4]; 2] = [[304_097, 1, 304_099, 304_100], [0, 1, 2, 3]];

/// For each word of a node what it costs that it ends with bit 0 and with bit 1, the node's own move apart.
type Ends = [[u32; 2]; 3];

fn in_order([x, y]: [u32; 2], turned: u32) -> [u32; 2] {
    if turned == 0 {
        [x, y]
    } else {
        [y, x]
    }
}

/// The least of a node with this move and of all that is free below it: word by word from the last, by how many words before are complemented.
///
/// It is put in where it is called, so that the compiler knows the kind and the move there.
#[inline(always)]
fn family(xor: bool, ends: &Ends, number: u32) -> u32 {
    let (weights, turned) = (&WEIGHTS[xor as usize], flags(xor, number));
    let [first, second, third] = [0, 1, 2].map(|k| in_order(ends[k], turned[k]));
    let last = [0, 1, 2].map(|odd| (third[0] + weights[odd]).min(third[1] + weights[odd + 1]));
    let middle = [0, 1].map(|odd| (second[0] + last[odd]).min(second[1] + last[odd + 1]));
    (first[0] + middle[0]).min(first[1] + middle[1])
}

/// The first least of a majority's two moves, where the readers cost so much left and turned.
fn first_of_majority(ends: &Ends, [still, turned]: [u32; 2]) -> u32 {
    (family(false, ends, 1) + turned < family(false, ends, 0) + still) as u32
}

/// The first least of an XOR's first so many moves, two or four: costs are small, and the number stands below them.
fn first_of_xor(ends: &Ends, moves: u32, [still, turned]: [u32; 2]) -> u32 {
    let of = |number: u32, readers: u32| 4 * (family(true, ends, number) + readers) + number;
    let two = of(0, still).min(of(1, still));
    let least = if moves == 2 { two } else { two.min(of(2, turned)).min(of(3, turned)) };
    least % 4
}

/// Two costs less the lesser in one word: their difference, and in the lowest bit whether the first is the dearer.
fn as_word([still, turned]: [u32; 2]) -> u32 {
    2 * still.abs_diff(turned) + (turned < still) as u32
}

impl State<'_> {
    /// What both turns of an index cost while node v is decided, as one word: below it there are costs, above it moves, and v itself is still.
    fn turns(&self, index: u32, v: usize) -> u32 {
        let u = self.node_of(index);
        match self.kept.get(u) {
            Some(node) if node.place != MARK && u < v => node.costs,
            Some(node) if node.place != MARK && u > v => 2 * NEVER + flags(self.is_xor(u), node.costs)[3],
            _ => 2 * NEVER,
        }
    }

    /// The ends of node w's words while v is decided. The mark has no bit and is never turned.
    #[inline(always)]
    fn ends(&self, xor: bool, w: usize, v: usize) -> Ends {
        let (indices, own) = (self.indices[w], self.kept[w].own());
        let end = |k: usize| {
            let word = self.turns(indices[k], v) ^ (own >> k & 1);
            in_order([0, word >> 1], word & 1)
        };
        [end(0), end(1), if xor { [0, NEVER] } else { end(2) }]
    }

    fn key(&self, v: usize) -> u32 {
        let kind = self.kind(v);
        if kind.locked {
            return 2 * NEVER;
        }
        if kind.xor {
            let ends = self.ends(true, v, v);
            let of = |number: u32| family(true, &ends, number);
            as_word([of(0).min(of(1)), of(2).min(of(3))])
        } else {
            let ends = self.ends(false, v, v);
            as_word([0, 1].map(|number| family(false, &ends, number)))
        }
    }

    /// The costs of a tree's nodes by rising index, all but the root's.
    fn store_keys(&mut self, root: usize) {
        let mut v = self.kept[root].lowest as usize;
        while v != root {
            self.kept[v].costs = self.key(v);
            v = self.kept[v].above as usize;
        }
    }

    /// The family of a reader of this kind with v still, and turned: its word k then ends otherwise.
    #[inline(always)]
    fn families(&self, xor: bool, reader: usize, k: usize, v: usize) -> [u32; 2] {
        let (mut ends, number) = (self.ends(xor, reader, v), self.kept[reader].costs);
        let still = family(xor, &ends, number);
        ends[k].swap(0, 1);
        [still, family(xor, &ends, number)]
    }

    fn beside(&self, v: usize) -> [u32; 2] {
        let place = self.kept[v].place as usize;
        let (reader, k) = (place / 3, place % 3);
        if self.is_xor(reader) {
            self.families(true, reader, k, v)
        } else {
            self.families(false, reader, k, v)
        }
    }

    /// The move of a node that is not locked.
    fn choose(&self, v: usize) -> u32 {
        let readers = self.beside(v);
        if self.is_xor(v) {
            first_of_xor(&self.ends(true, v, v), 4, readers)
        } else {
            first_of_majority(&self.ends(false, v, v), readers)
        }
    }

    /// The root takes those of its moves that leave its readers: a majority's first, an XOR's first two.
    fn choose_root(&self, root: usize) -> u32 {
        match self.kind(root) {
            Kind { xor: true, locked: false } => first_of_xor(&self.ends(true, root, root), 2, [0, 0]),
            _ => 0,
        }
    }

    /// By falling index; a node's move takes the place of its costs.
    fn decide_still(&mut self, root: usize) {
        self.store_keys(root);
        self.kept[root].costs = self.choose_root(root);
        let mut at = self.next(root, root);
        while let Some(v) = at {
            self.kept[v].costs = if self.kind(v).locked { 0 } else { self.choose(v) };
            at = self.next(root, v);
        }
    }
}

/// Refused as the tree call is. No moves are made in the state: C is counted once they are written, and other edges keep what they add.
pub fn resistive_call(t: &mut Tables, root: u32, scratch: usize) -> Result<Saving, Number> {
    let v = check_call(&t.view(), root, scratch)?;
    let (mut s, node_bits, output_bits) = t.state();
    s.decide_still(v);
    s.write_decided(v, node_bits, output_bits);
    let after = ones(node_bits) + ones(output_bits);
    Ok(parted(i64::from(s.count) - i64::from(after), [0; 2]))
}
