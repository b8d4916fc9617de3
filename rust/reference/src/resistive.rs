//! The call on a tree for resistive memory: the most majorities with just one complemented input, and among these the least C. By trying
//! every list; and for larger trees by sums from below, the whole tree worked out again for each move of each node.

use std::cmp::Reverse;
use std::collections::HashMap;

use crate::graph::{index_of, is_odd, Graph, Number};
use crate::moves::{
    after, all_lists, check_tree_call, how_many, moves_at, rows, saving, tree, Row, Saving,
};

/// Whether a node is a majority with just one complemented input, the constant's edges being inputs.
pub fn is_single(g: &Graph, node: u32) -> bool {
    let odd = (0..3).filter(|&word| is_odd(g.word(node, word)));
    !g.is_xor(node) && odd.count() == 1
}

/// How many of these nodes are such majorities.
pub fn singles(g: &Graph, nodes: &[u32]) -> usize {
    nodes.iter().filter(|&&node| is_single(g, node)).count()
}

/// Every list of moves that a tree, given by falling index, may take: its root none that turns its readers.
pub fn permitted(g: &Graph, nodes: &[u32]) -> Vec<Vec<usize>> {
    let mut all = all_lists(g, nodes);
    all.retain(|list| !rows(g, nodes[0])[list[0]].readers);
    all
}

/// The first list among those with the most such majorities and then the least C.
pub fn best_by_trying(g: &Graph, nodes: &[u32]) -> Vec<usize> {
    let lists = permitted(g, nodes).into_iter();
    let best = lists.min_by_key(|list| {
        let next = after(g, nodes, list);
        (Reverse(singles(&next, nodes)), next.c())
    });
    best.expect("the list of zeros is there")
}

/// Majorities of the tree that are not such ones, and complemented words of its nodes: less is better, the first number first.
type Sums = (u32, u32);

fn add(some: Sums, more: Sums) -> Sums {
    (some.0 + more.0, some.1 + more.1)
}

struct Below<'a> {
    g: &'a Graph,
    /// By falling index, the root first.
    nodes: &'a [u32],
    /// The moves that are chosen already.
    chosen: HashMap<u32, usize>,
}

impl Below<'_> {
    /// The moves that are left to a node, each with its row.
    fn left(&self, node: u32) -> Vec<&'static Row> {
        let all = moves_at(self.g, node).iter().enumerate();
        let is_chosen = |number| self.chosen.get(&node).is_none_or(|&only| only == number);
        let may = |row: &Row| node != self.nodes[0] || !row.readers;
        all.filter(|&(number, row)| is_chosen(number) && may(row))
            .map(|(_, row)| row)
            .collect()
    }

    /// A node under a row, whose words are turned from below as the bits of a number say. None where a word cannot be turned so.
    fn under(&self, node: u32, row: &Row, turns: usize, known: &Known) -> Option<Sums> {
        let (mut sums, mut odd) = ((0, 0), 0);
        for word in 0..self.g.words_of(node) {
            let (literal, turn) = (self.g.word(node, word), turns >> word & 1);
            odd += u32::from(is_odd(literal) ^ row.words[word] ^ (turn == 1));
            let below = match known.get(&index_of(literal)) {
                Some(both) => both[turn],
                None => (turn == 0).then_some((0, 0)),
            };
            sums = add(sums, below?);
        }
        let missed = u32::from(!self.g.is_xor(node) && odd != 1);
        Some(add(sums, (missed, odd)))
    }

    /// The least of a node and all below it, its readers left and turned.
    fn least(&self, node: u32, known: &Known) -> [Option<Sums>; 2] {
        let mut both = [None; 2];
        for row in self.left(node) {
            let all = 0..1 << self.g.words_of(node);
            let here = all.filter_map(|turns| self.under(node, row, turns, known));
            let least = &mut both[usize::from(row.readers)];
            *least = here.chain(*least).min();
        }
        both
    }

    /// The least of the whole tree. Outside of its nodes' words nothing is turned.
    fn whole(&self) -> Option<Sums> {
        let mut known = Known::new();
        for &node in self.nodes.iter().rev() {
            known.insert(node, self.least(node, &known));
        }
        known[&self.nodes[0]][0]
    }
}

/// By node: the least of it and all below it, its readers left and turned.
type Known = HashMap<u32, [Option<Sums>; 2]>;

/// The same for trees of any size: at each node by falling index the first move that leaves the best within reach.
pub fn best_by_sums(g: &Graph, nodes: &[u32]) -> Vec<usize> {
    let chosen = HashMap::new();
    let mut below = Below { g, nodes, chosen };
    let best = below.whole();
    let mut list = Vec::new();
    for &node in nodes {
        let number = (0..moves_at(g, node).len()).find(|&number| {
            below.chosen.insert(node, number);
            below.whole() == best
        });
        list.push(number.expect("some move is best"));
    }
    list
}

/// Refused as the tree call is. Where there are at most so many lists, all are tried.
pub fn resistive_call(
    g: &mut Graph,
    root: u32,
    scratch: usize,
    most: u64,
) -> Result<Saving, Number> {
    check_tree_call(g, root, scratch)?;
    let nodes = tree(g, root);
    let few = how_many(g, &nodes).is_some_and(|lists| lists <= most);
    let list = if few {
        best_by_trying(g, &nodes)
    } else {
        best_by_sums(g, &nodes)
    };
    let before = g.clone();
    *g = after(g, &nodes, &list);
    Ok(saving(&before, g, &nodes))
}
