//! The six rows, and the node, pair and tree calls by trying every list of moves.

use std::ops::AddAssign;

use crate::graph::{adds, admit, index_of, Graph, Number, Place};

/// What a call saves: over the words of the nodes that it names, and over all other edges.
#[derive(Clone, Copy, Debug, Default, PartialEq, Eq)]
pub struct Saving {
    pub own: i64,
    pub others: i64,
}

impl Saving {
    /// C before less C after.
    pub fn total(self) -> i64 {
        self.own + self.others
    }
}

impl AddAssign for Saving {
    fn add_assign(&mut self, more: Saving) {
        self.own += more.own;
        self.others += more.others;
    }
}

/// What of C the words of these nodes make up, and what all other edges.
fn parts(g: &Graph, nodes: &[u32]) -> Saving {
    let mut counted = Saving::default();
    for place in g.edges() {
        let odd = i64::from(adds(g.at(place)));
        match place {
            Place::OfNode(node, _) if nodes.contains(&node) => counted.own += odd,
            _ => counted.others += odd,
        }
    }
    counted
}

/// What a call that names these nodes has saved, from the graphs before and after it.
pub fn saving(before: &Graph, after: &Graph, nodes: &[u32]) -> Saving {
    let (old, new) = (parts(before, nodes), parts(after, nodes));
    Saving {
        own: old.own - new.own,
        others: old.others - new.others,
    }
}

/// What a move turns: words 1 to 3, and every reader.
pub struct Row {
    pub words: [bool; 3],
    pub readers: bool,
}

const fn row(one: bool, two: bool, three: bool, readers: bool) -> Row {
    Row {
        words: [one, two, three],
        readers,
    }
}

const MAJORITY: [Row; 2] = [row(false, false, false, false), row(true, true, true, true)];
const XOR: [Row; 4] = [
    row(false, false, false, false),
    row(true, true, false, false),
    row(true, false, false, true),
    row(false, true, false, true),
];

/// The rows of the node's kind.
pub fn rows(g: &Graph, node: u32) -> &'static [Row] {
    if g.is_xor(node) {
        &XOR
    } else {
        &MAJORITY
    }
}

/// The rows of the moves that the node has: its kind's, or where it is locked move 0 alone.
pub fn moves_at(g: &Graph, node: u32) -> &'static [Row] {
    if g.is_locked(node) {
        &rows(g, node)[..1]
    } else {
        rows(g, node)
    }
}

/// One move of the node's kind made, locked or not. Moves made one after the other turn an edge as often as they say together.
pub fn make(g: &mut Graph, node: u32, number: usize) {
    let row = &rows(g, node)[number];
    for word in 0..3 {
        if row.words[word] {
            g.turn(Place::OfNode(node, word));
        }
    }
    if row.readers {
        for reader in g.readers(node) {
            g.turn(reader);
        }
    }
}

/// Every list of moves that these nodes have, the list that is less at its first difference first.
pub fn all_lists(g: &Graph, nodes: &[u32]) -> Vec<Vec<usize>> {
    let mut all = vec![vec![]];
    for &node in nodes {
        let mut longer = Vec::new();
        for list in &all {
            for number in 0..moves_at(g, node).len() {
                let mut next: Vec<usize> = list.clone();
                next.push(number);
                longer.push(next);
            }
        }
        all = longer;
    }
    all
}

/// The graph after a list of moves for these nodes.
pub fn after(g: &Graph, nodes: &[u32], list: &[usize]) -> Graph {
    let mut next = g.clone();
    for (&node, &number) in nodes.iter().zip(list) {
        make(&mut next, node, number);
    }
    next
}

/// The first list among those with the least C after.
pub fn best(g: &Graph, nodes: &[u32]) -> Vec<usize> {
    let mut least: Option<(u32, Vec<usize>)> = None;
    for list in all_lists(g, nodes) {
        let c = after(g, nodes, &list).c();
        if least.as_ref().is_none_or(|found| c < found.0) {
            least = Some((c, list));
        }
    }
    least.expect("the list of zeros is there").1
}

/// How many lists of moves there are, or none if that is beyond counting.
pub fn how_many(g: &Graph, nodes: &[u32]) -> Option<u64> {
    nodes.iter().try_fold(1u64, |product, &node| {
        product.checked_mul(moves_at(g, node).len() as u64)
    })
}

fn make_best(g: &mut Graph, nodes: &[u32], list: &[usize]) -> Saving {
    let before = g.clone();
    *g = after(g, nodes, list);
    saving(&before, g, nodes)
}

pub fn node_call(g: &mut Graph, node: u32) -> Result<Saving, Number> {
    admit(g)?;
    if !g.is_node(node) {
        return Err(7);
    }
    let list = best(g, &[node]);
    Ok(make_best(g, &[node], &list))
}

pub fn pair_call(g: &mut Graph, node: u32, word: u32) -> Result<Saving, Number> {
    admit(g)?;
    if !g.is_node(node) || word < 1 || word as usize > g.words_of(node) {
        return Err(7);
    }
    let named = index_of(g.word(node, word as usize - 1));
    if !g.is_node(named) {
        return Ok(Saving::default());
    }
    let list = best(g, &[named, node]);
    Ok(make_best(g, &[named, node], &list))
}

/// 15 for a move that the node's kind lacks, 16 for one other than 0 at a locked node.
pub fn check_move(g: &Graph, node: u32, number: usize) -> Result<(), Number> {
    if number >= rows(g, node).len() {
        return Err(15);
    }
    if g.is_locked(node) && number != 0 {
        return Err(16);
    }
    Ok(())
}

/// What two moves on a pair would save: both made on a copy, and C counted again. The named node's move is tested first; where the word
/// names no node only the other is, and nothing is made.
pub fn trial(
    g: &Graph,
    node: u32,
    word: u32,
    named_move: u32,
    node_move: u32,
) -> Result<i64, Number> {
    admit(g)?;
    if !g.is_node(node) || word < 1 || word as usize > g.words_of(node) {
        return Err(7);
    }
    let named = index_of(g.word(node, word as usize - 1));
    let (first, second) = (named_move as usize, node_move as usize);
    if !g.is_node(named) {
        return check_move(g, node, second).map(|()| 0);
    }
    check_move(g, named, first)?;
    check_move(g, node, second)?;
    let next = after(g, &[named, node], &[first, second]);
    Ok(i64::from(g.c()) - i64::from(next.c()))
}

pub fn is_root(g: &Graph, node: u32) -> bool {
    let readers = g.readers(node);
    !(readers.len() == 1 && matches!(readers[0], Place::OfNode(_, _)))
}

/// Whether a node leads to the root through non-roots only.
fn leads_to(g: &Graph, node: u32, root: u32) -> bool {
    if node == root {
        return true;
    }
    if is_root(g, node) {
        return false;
    }
    match g.readers(node)[0] {
        Place::OfNode(reader, _) => leads_to(g, reader, root),
        Place::OfOutput(_) => false,
    }
}

/// The tree of a root by falling index.
pub fn tree(g: &Graph, root: u32) -> Vec<u32> {
    g.node_indices()
        .rev()
        .filter(|&node| leads_to(g, node, root))
        .collect()
}

/// 3, 4, 5, 13, 7, 8 in that order.
pub fn check_tree_call(g: &Graph, root: u32, scratch: usize) -> Result<(), Number> {
    admit(g)?;
    if !g.is_node(root) || !is_root(g, root) {
        return Err(7);
    }
    check_scratch(g, scratch)
}

pub fn check_scratch(g: &Graph, scratch: usize) -> Result<(), Number> {
    if (scratch as u64) < 8 * g.nodes as u64 {
        Err(8)
    } else {
        Ok(())
    }
}

/// The tree call by trying everything.
pub fn tree_call(g: &mut Graph, root: u32, scratch: usize) -> Result<Saving, Number> {
    check_tree_call(g, root, scratch)?;
    let nodes = tree(g, root);
    let list = best(g, &nodes);
    Ok(make_best(g, &nodes, &list))
}

/// The tree call with another way to find the best list.
pub fn tree_call_by(
    g: &mut Graph,
    root: u32,
    scratch: usize,
    find: &dyn Fn(&Graph, &[u32]) -> Vec<usize>,
) -> Result<Saving, Number> {
    check_tree_call(g, root, scratch)?;
    let nodes = tree(g, root);
    let list = find(g, &nodes);
    Ok(make_best(g, &nodes, &list))
}
