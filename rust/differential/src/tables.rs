//! A packed graph as the plain implementation is lent it.

use crate::plain::calls::Tables;
use crate::plain::truth::Wired;
use crate::plain::{Filled, View};
use reference::packed::Packed;

/// To read.
pub fn view(p: &Packed) -> View<'_> {
    View {
        inputs: p.inputs,
        nodes: p.nodes,
        outputs: p.outputs,
        node_table: &p.node_table,
        node_bits: &p.node_bits,
        output_table: &p.output_table,
        output_bits: &p.output_bits,
        locks: &p.locks,
    }
}

/// To turn literals of.
pub fn tables(p: &mut Packed) -> Tables<'_> {
    Tables {
        inputs: p.inputs,
        nodes: p.nodes,
        outputs: p.outputs,
        node_table: &p.node_table,
        node_bits: &mut p.node_bits,
        output_table: &p.output_table,
        output_bits: &mut p.output_bits,
        locks: &p.locks,
    }
}

/// To rewire.
pub fn wired(p: &mut Packed) -> Wired<'_> {
    Wired {
        inputs: p.inputs,
        nodes: p.nodes,
        outputs: p.outputs,
        node_table: &mut p.node_table,
        node_bits: &mut p.node_bits,
        output_table: &mut p.output_table,
        output_bits: &mut p.output_bits,
        locks: &mut p.locks,
    }
}

/// To fill.
pub fn filled(p: &mut Packed) -> Filled<'_> {
    Filled {
        node_table: &mut p.node_table,
        node_bits: &mut p.node_bits,
        output_table: &mut p.output_table,
        output_bits: &mut p.output_bits,
        locks: &mut p.locks,
    }
}
