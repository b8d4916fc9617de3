//! The preview of a tree call. The state is filled and the tree decided as for the call; the moves go to the lent bytes, and what they save is
//! told by making them in the state.

use super::calls::is_node;
use super::settle::State;
use super::tree::is_root;
use super::{check_limits, check_literals, check_locks, check_room, Number, View};
use reducer::Saving;

impl State<'_> {
    fn tell(&self, root: usize, moves: &mut [u8]) {
        moves.fill(0);
        let mut at = Some(root);
        while let Some(v) = at {
            moves[v] = self.kept[v].costs as u8;
            at = self.next(root, v);
        }
    }
}

/// 3, 4 for the tables, the locks and the bytes, 5, 13, 7, 8 in that order.
fn check(g: &View, root: u32, bytes: usize, scratch: usize) -> Result<(), Number> {
    check_limits(g.inputs, g.nodes, g.outputs)?;
    check_room(g.nodes, g.outputs, g.room())?;
    if bytes < g.nodes as usize {
        return Err(4);
    }
    check_literals(g)?;
    check_locks(g)?;
    if !is_node(g, root) || !is_root(g, root) {
        return Err(7);
    }
    if scratch < 8 * g.nodes as usize {
        return Err(8);
    }
    Ok(())
}

pub fn preview(g: &View, root: u32, moves: &mut [u8], scratch: usize) -> Result<Saving, Number> {
    check(g, root, moves.len(), scratch)?;
    let mut s = State::new(g.inputs, g.indices(), g.outs(), g.node_locks(), [g.bits(), g.out_bits()]);
    let v = (root - g.inputs - 1) as usize;
    s.decide_tree(v);
    s.tell(v, &mut moves[..g.nodes as usize]);
    Ok(s.make_decided(v))
}
