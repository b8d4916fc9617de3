//! What a tree call would do, told without doing it.

use crate::graph::{check_limits, check_room, Graph, Number};
use crate::moves::{after, check_tree_call, saving, tree, Saving};
use crate::settling::MOST_TRIED;
use crate::trees::best_within;

/// 4 for the bytes comes with 4 for the tables and the locks, before any literal is looked at.
fn check_preview(g: &Graph, root: u32, scratch: usize, bytes: usize) -> Result<(), Number> {
    check_limits(g.inputs, g.nodes, g.outputs)?;
    check_room(g.nodes, g.outputs, g.room())?;
    if (bytes as u64) < g.nodes as u64 {
        return Err(4);
    }
    check_tree_call(g, root, scratch)
}

/// The preview with any way to find the best list of a tree.
pub fn preview_by(
    g: &Graph,
    root: u32,
    scratch: usize,
    moves: &mut [u8],
    find: &dyn Fn(&Graph, &[u32]) -> Vec<usize>,
) -> Result<Saving, Number> {
    check_preview(g, root, scratch, moves.len())?;
    let nodes = tree(g, root);
    let list = find(g, &nodes);
    for node in g.node_indices() {
        let chosen = nodes.iter().position(|&other| other == node);
        moves[(node - g.inputs - 1) as usize] = chosen.map_or(0, |at| list[at] as u8);
    }
    Ok(saving(g, &after(g, &nodes, &list), &nodes))
}

/// What the tree call at a root would save, given so many words of scratch. The first bytes are filled with
/// each node's move, 0 outside the tree; refused, the bytes are left alone.
pub fn preview(g: &Graph, root: u32, scratch: usize, moves: &mut [u8]) -> Result<Saving, Number> {
    let find = |g: &Graph, nodes: &[u32]| best_within(MOST_TRIED, g, nodes);
    preview_by(g, root, scratch, moves, &find)
}
