//! Many moves together: a rising list of nodes with a move each, all made or none.

use crate::graph::{admit, check_limits, check_room, Graph, Number};
use crate::moves::{after, check_move};

/// 7, 14, 15 and 16 of each entry before those of the next.
fn check_entries(g: &Graph, list: &[u32], moves: &[u8]) -> Result<(), Number> {
    let mut before = None;
    for (&node, &number) in list.iter().zip(moves) {
        if !g.is_node(node) {
            return Err(7);
        }
        if before.is_some_and(|last| node <= last) {
            return Err(14);
        }
        check_move(g, node, number.into())?;
        before = Some(node);
    }
    Ok(())
}

/// 4 for the moves comes with 4 for the tables and the locks, before any literal is looked at. Moves past the list's end are not
/// read.
pub fn check_many(g: &Graph, list: &[u32], moves: &[u8]) -> Result<(), Number> {
    check_limits(g.inputs, g.nodes, g.outputs)?;
    check_room(g.nodes, g.outputs, g.room())?;
    if moves.len() < list.len() {
        return Err(4);
    }
    admit(g)?;
    check_entries(g, list, moves)
}

/// The moves made one by one; C before less C after.
pub fn many(g: &mut Graph, list: &[u32], moves: &[u8]) -> Result<i64, Number> {
    check_many(g, list, moves)?;
    let before = g.c();
    let numbers: Vec<usize> = moves.iter().map(|&number| number.into()).collect();
    *g = after(g, list, &numbers);
    Ok(i64::from(before) - i64::from(g.c()))
}
