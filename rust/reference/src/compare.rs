//! Two graphs compared: the moves that lead from the first to the second, or the first place that no moves explain. By trying every list of
//! moves; and for larger graphs by making each node's moves one after the other.

use crate::fast::Fast;
use crate::graph::{Graph, Number, MARK};
use crate::moves::{after, rows};
use crate::packed::{check_lengths, check_locks, check_words, unpack, Packed};

/// What is told of two graphs that are both accepted.
#[derive(Clone, Debug, PartialEq, Eq)]
pub enum Compared {
    /// A move a node by rising index.
    Moves(Vec<u8>),
    /// What differs first, and where: 1 a size, 2 and 3 an index of the node table and of the output table, 4 and 5 a bit of theirs.
    Differ([u32; 2]),
}

/// A place of all words in a row, the nodes' first, in the table that it is in: by this number, or by the next for the outputs'.
fn told_at(g: &Graph, number: u32, place: usize) -> Compared {
    let nodes = 3 * g.nodes as usize;
    Compared::Differ(if place < nodes {
        [number, place as u32]
    } else {
        [number + 1, (place - nodes) as u32]
    })
}

fn words(g: &Graph) -> Vec<u32> {
    let nodes = &g.node_table[..3 * g.nodes as usize];
    [nodes, &g.output_table[..g.outputs as usize]].concat()
}

/// How many words are the same from the front on.
fn alike(some: &[u32], others: &[u32]) -> usize {
    let same = some
        .iter()
        .zip(others)
        .take_while(|(word, other)| word == other);
    same.count()
}

/// A size or an index that differs. The mark is told from an index by the whole word, since it has no bit.
fn wiring_apart(g: &Graph, h: &Graph) -> Option<Compared> {
    let sizes = |g: &Graph| [g.inputs, g.nodes, g.outputs];
    let apart = (0..3).find(|&k| sizes(g)[k] != sizes(h)[k]);
    if let Some(which) = apart {
        return Some(Compared::Differ([1, which as u32]));
    }
    let indices = |g: &Graph| -> Vec<u32> {
        let of = |word: u32| if word == MARK { MARK } else { word / 2 };
        words(g).into_iter().map(of).collect()
    };
    let same = alike(&indices(g), &indices(h));
    (same < words(g).len()).then(|| told_at(g, 2, same))
}

/// Every list of moves of the nodes' kinds, locked or not.
fn every_list(g: &Graph) -> Vec<Vec<usize>> {
    let mut all = vec![vec![]];
    for node in g.node_indices() {
        let longer = |list: &Vec<usize>| -> Vec<Vec<usize>> {
            let moves = 0..rows(g, node).len();
            moves
                .map(|number| [&list[..], &[number]].concat())
                .collect()
        };
        all = all.iter().flat_map(longer).collect();
    }
    all
}

/// By the definition: no list of moves makes more words alike, from the front on, than the one that is told.
pub fn by_trying(g: &Graph, h: &Graph) -> Compared {
    if let Some(apart) = wiring_apart(g, h) {
        return apart;
    }
    let (nodes, wanted): (Vec<u32>, Vec<u32>) = (g.node_indices().collect(), words(h));
    let (mut farthest, mut found) = (0, Vec::new());
    for list in every_list(g) {
        let reached = alike(&words(&after(g, &nodes, &list)), &wanted);
        if reached >= farthest {
            (farthest, found) = (reached, list);
        }
    }
    if farthest < wanted.len() {
        return told_at(g, 4, farthest);
    }
    Compared::Moves(found.into_iter().map(|number| number as u8).collect())
}

/// By rising index: of a node's moves the one after which the most of its own words are as wanted. Lower nodes have theirs by then, and
/// higher ones turn nothing of it.
pub fn by_nodes(g: &Graph, h: &Graph) -> Compared {
    if let Some(apart) = wiring_apart(g, h) {
        return apart;
    }
    let (mut made, mut moves) = (Fast::new(g.clone()), Vec::new());
    for node in g.node_indices() {
        let own = |g: &Graph| [0, 1, 2].map(|word| g.word(node, word));
        let mut best = (0, 0);
        for number in 0..rows(g, node).len() {
            made.make(node, number);
            best = best.max((alike(&own(&made.g), &own(h)), number));
            made.make(node, number);
        }
        made.make(node, best.1);
        moves.push(best.1 as u8);
        if best.0 < 3 {
            let first = 3 * (node - g.inputs - 1) as usize;
            return told_at(g, 4, first + best.0);
        }
    }
    let same = alike(&words(&made.g), &words(h));
    if same < words(h).len() {
        return told_at(g, 4, same);
    }
    Compared::Moves(moves)
}

/// Up to so many lists of moves are tried.
pub const MOST_TRIED: u64 = 4_096;

fn lists(g: &Graph) -> u64 {
    let of = |node| rows(g, node).len() as u64;
    g.node_indices()
        .fold(1, |all: u64, node| all.saturating_mul(of(node)))
}

/// 3 and 4 of the first graph, 4 for fewer bytes than it has nodes, 3 and 4 of the second, 5 and 13 of the first, and of the second. Where
/// moves are told they fill the front of the bytes, which else are left.
pub fn compare(p: &Packed, q: &Packed, bytes: &mut [u8]) -> Result<[u32; 2], Number> {
    crate::graph::check_limits(p.inputs, p.nodes, p.outputs)?;
    check_lengths(p.nodes, p.outputs, p.lengths())?;
    if (bytes.len() as u64) < u64::from(p.nodes) {
        return Err(4);
    }
    crate::graph::check_limits(q.inputs, q.nodes, q.outputs)?;
    check_lengths(q.nodes, q.outputs, q.lengths())?;
    check_words(p).and_then(|()| check_locks(p))?;
    check_words(q).and_then(|()| check_locks(q))?;
    let (g, h) = (unpack(p), unpack(q));
    let few = lists(&g) <= MOST_TRIED;
    match if few {
        by_trying(&g, &h)
    } else {
        by_nodes(&g, &h)
    } {
        Compared::Moves(moves) => {
            bytes[..moves.len()].copy_from_slice(&moves);
            Ok([0, 0])
        }
        Compared::Differ(told) => Ok(told),
    }
}
