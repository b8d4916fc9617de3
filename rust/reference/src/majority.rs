//! A node's truth value over three lower indices, its class, and the call that makes the node one majority of the three.

use crate::evaluation::node_value;
use crate::graph::{admit, index_of, Graph, Number};
use crate::moves::check_scratch;

/// What the call answers where it is accepted.
#[derive(Clone, Copy, Debug, PartialEq, Eq)]
pub enum Majority {
    Made,
    Not,
    /// Some way down to an input misses all three.
    NotCovered,
}

impl Majority {
    pub fn number(self) -> u32 {
        match self {
            Majority::Made => 0,
            Majority::Not => 1,
            Majority::NotCovered => 2,
        }
    }
}

/// Whether the bit of variable j is set in assignment k.
fn bit(k: usize, j: usize) -> bool {
    k >> j & 1 == 1
}

/// The byte whose bit k is what is told of assignment k.
fn byte_of(told: impl Fn(usize) -> bool) -> u8 {
    (0..8).map(|k| u8::from(told(k)) << k).sum()
}

/// The truth value of the majority of three variables, complemented where it is said.
fn majority_of(complemented: [bool; 3]) -> u8 {
    byte_of(|k| {
        let [x, y, z] = [0, 1, 2].map(|j| bit(k, j) != complemented[j]);
        (x & y) | (x & z) | (y & z)
    })
}

/// By index: whether every way down from it to an input meets one of the three.
fn covered(g: &Graph, three: [u32; 3]) -> Vec<bool> {
    let mut all: Vec<bool> = vec![true];
    all.extend((1..=g.inputs).map(|input| three.contains(&input)));
    for node in g.node_indices() {
        let mut words = (0..g.words_of(node)).map(|word| index_of(g.word(node, word)));
        all.push(three.contains(&node) || words.all(|below| all[below as usize]));
    }
    all
}

/// A node's value where the three have the bits of assignment k. All other inputs are false, which no covered node shows.
fn value_under(g: &Graph, three: [u32; 3], node: u32, k: usize) -> bool {
    let free = |index: u32| three.iter().position(|&of| of == index);
    let mut all = vec![false];
    all.extend((1..=g.inputs).map(|input| free(input).is_some_and(|j| bit(k, j))));
    for node in g.node_indices() {
        let value = match free(node) {
            Some(j) => bit(k, j),
            None => node_value(g, node, &all),
        };
        all.push(value);
    }
    all[node as usize]
}

/// A node's truth value over three indices as free variables, the first being the lowest bit of an assignment; none where it is not
/// covered.
pub fn truth(g: &Graph, three: [u32; 3], node: u32) -> Option<u8> {
    covered(g, three)[node as usize].then(|| byte_of(|k| value_under(g, three, node, k)))
}

const ORDERS: [[usize; 3]; 6] = [
    [0, 1, 2],
    [0, 2, 1],
    [1, 0, 2],
    [1, 2, 0],
    [2, 0, 1],
    [2, 1, 0],
];

/// Every truth value that comes of one by another order of the inputs, complemented inputs and a complemented output.
pub fn variants(value: u8) -> Vec<u8> {
    let mut all = Vec::new();
    for order in ORDERS {
        for turned in 0..8 {
            let at = |k: usize| -> usize {
                (0..3)
                    .map(|j| usize::from(bit(k, j) != bit(turned, j)) << order[j])
                    .sum()
            };
            let other = byte_of(|k| bit(value.into(), at(k)));
            all.extend([other, !other]);
        }
    }
    all
}

/// The least truth value of the class.
pub fn class_of(value: u8) -> u8 {
    variants(value).into_iter().min().expect("itself is there")
}

/// Which words are complemented in the majority of the three that has this truth value.
fn complements(value: u8) -> [bool; 3] {
    let choice = |c: usize| [0, 1, 2].map(|j| bit(c, j));
    let all = (0..8).map(choice);
    let mut fit = all.filter(|&choice| majority_of(choice) == value);
    fit.next().expect("majority's class has no other")
}

/// The call on an admitted graph, at a node with three lower indices.
pub fn make_majority(g: &mut Graph, node: u32, three: [u32; 3]) -> Majority {
    let Some(value) = truth(g, three, node) else {
        return Majority::NotCovered;
    };
    if class_of(value) != class_of(majority_of([false; 3])) {
        return Majority::Not;
    }
    let complemented = complements(value);
    for word in 0..3 {
        g.set_word(node, word, 2 * three[word] + u32::from(complemented[word]));
    }
    Majority::Made
}

/// 3, 4, 5, 13, 7 for the node, 7 for the three, 16, 8 in that order.
fn check_majority(g: &Graph, node: u32, three: [u32; 3], scratch: usize) -> Result<(), Number> {
    admit(g)?;
    let [first, second, third] = three;
    let rising = 0 < first && first < second && second < third && third < node;
    if !g.is_node(node) || !rising {
        return Err(7);
    }
    if g.is_locked(node) {
        return Err(16);
    }
    check_scratch(g, scratch)
}

pub fn majority(
    g: &mut Graph,
    node: u32,
    three: [u32; 3],
    scratch: usize,
) -> Result<Majority, Number> {
    check_majority(g, node, three, scratch)?;
    Ok(make_majority(g, node, three))
}
