//! An assignment for a wanted output pattern: every assignment tried, one after the other.

use crate::evaluation::output_values;
use crate::graph::{Graph, Number};

pub const MOST_SEARCHED: u32 = 16;

/// The assignment with this number, input 1 being its lowest bit.
pub fn numbered(g: &Graph, number: u32) -> Vec<bool> {
    (0..g.inputs).map(|k| number >> k & 1 == 1).collect()
}

/// Whether an assignment gives a pattern, a byte an output: 0, 1, or 2 for either.
pub fn gives(g: &Graph, wanted: &[u8], assignment: &[bool]) -> bool {
    let values = output_values(g, assignment);
    let mut both = values.iter().zip(wanted);
    both.all(|(&value, &byte)| byte == 2 || value == (byte == 1))
}

/// The number of the first assignment that gives the pattern, if one does.
pub fn least(g: &Graph, wanted: &[u8]) -> Option<u32> {
    let mut all = 0..1 << g.inputs;
    all.find(|&number| gives(g, wanted, &numbered(g, number)))
}

/// 17, 18, 8 in that order, of an admitted graph with at least a byte an output. Bytes past the last output are not read.
pub fn assignment(g: &Graph, wanted: &[u8], scratch: usize) -> Result<Option<u32>, Number> {
    if g.inputs > MOST_SEARCHED {
        return Err(17);
    }
    let wanted = &wanted[..g.outputs as usize];
    if wanted.iter().any(|&byte| byte > 2) {
        return Err(18);
    }
    if scratch < g.nodes as usize {
        return Err(8);
    }
    Ok(least(g, wanted))
}
