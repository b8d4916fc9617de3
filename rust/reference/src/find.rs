//! The finder: every free node tried with every triple near it, then unread free nodes dropped one by one.

use std::collections::BTreeSet;

use crate::graph::{admit, index_of, Graph, Number, MARK};
use crate::majority::{make_majority, Majority};
use crate::moves::check_scratch;

/// Adds the indices that up to so many words lead down to.
fn reach(g: &Graph, index: u32, words: u32, reached: &mut BTreeSet<u32>) {
    if words == 0 || !g.is_node(index) {
        return;
    }
    for word in 0..g.words_of(index) {
        let below = index_of(g.word(index, word));
        reached.insert(below);
        reach(g, below, words - 1, reached);
    }
}

/// The indices other than 0 within three words downward, by rising index.
pub fn near(g: &Graph, node: u32) -> Vec<u32> {
    let mut reached = BTreeSet::new();
    reach(g, node, 3, &mut reached);
    reached.remove(&0);
    reached.into_iter().collect()
}

/// Every three of a rising list, those whose lowest index is less first.
pub fn triples(list: &[u32]) -> Vec<[u32; 3]> {
    let mut all = Vec::new();
    for (a, &first) in list.iter().enumerate() {
        for (b, &second) in list.iter().enumerate().skip(a + 1) {
            let thirds = list.iter().skip(b + 1);
            all.extend(thirds.map(|&third| [first, second, third]));
        }
    }
    all
}

/// Whether the node is a majority whose words name three different indices other than 0.
pub fn is_plain(g: &Graph, node: u32) -> bool {
    if g.is_xor(node) {
        return false;
    }
    let named: BTreeSet<u32> = (0..3).map(|word| index_of(g.word(node, word))).collect();
    named.len() == 3 && !named.contains(&0)
}

/// A node with each triple near it in turn, up to the first that makes it a majority.
fn try_node(g: &mut Graph, node: u32) {
    for three in triples(&near(g, node)) {
        if make_majority(g, node, three) == Majority::Made {
            return;
        }
    }
}

/// A literal once a node that nothing reads is no more.
fn lowered(literal: u32, gone: u32) -> u32 {
    if literal != MARK && index_of(literal) > gone {
        literal - 2
    } else {
        literal
    }
}

/// Without a node that nothing reads: those above are one lower with their locks, and the words and lock byte of the last are 0.
fn drop_node(g: &mut Graph, gone: u32) {
    let (places, nodes) = (3 * g.nodes as usize, g.nodes as usize);
    let at = (gone - g.inputs - 1) as usize;
    g.node_table[3 * at..places].rotate_left(3);
    g.node_table[places - 3..places].fill(0);
    g.locks[at..nodes].rotate_left(1);
    g.locks[nodes - 1] = 0;
    g.nodes -= 1;
    for word in &mut g.node_table[..places - 3] {
        *word = lowered(*word, gone);
    }
    for word in &mut g.output_table[..g.outputs as usize] {
        *word = lowered(*word, gone);
    }
}

/// The lowest free node that nothing reads.
pub fn unread(g: &Graph) -> Option<u32> {
    g.node_indices()
        .find(|&node| !g.is_locked(node) && g.readers(node).is_empty())
}

/// The new N, which the graph then has. Freed words and lock bytes, up to the old N, are 0.
pub fn find(g: &mut Graph, scratch: usize) -> Result<u32, Number> {
    admit(g)?;
    check_scratch(g, scratch)?;
    for node in g.node_indices() {
        if !g.is_locked(node) && !is_plain(g, node) {
            try_node(g, node);
        }
    }
    while let Some(node) = unread(g) {
        drop_node(g, node);
    }
    Ok(g.nodes)
}
