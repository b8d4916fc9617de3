//! Two graphs joined: output k of the first drives input k of the second.

use crate::graph::{is_odd, turned, Graph, MARK};

/// What each index of the second graph is in the joined one: the constant, the first's outputs, and nodes behind the first's.
fn literals(g: &Graph, h: &Graph) -> Vec<u32> {
    let mut all = vec![0];
    all.extend(&g.output_table[..g.outputs as usize]);
    let last = g.inputs + g.nodes;
    all.extend((1..=h.nodes).map(|node| 2 * (last + node)));
    all
}

/// The joined graph of two admitted ones that meet, with tables and locks of just its size.
pub fn joined(g: &Graph, h: &Graph) -> Graph {
    let of = literals(g, h);
    let met = |&word: &u32| match word {
        MARK => MARK,
        word if is_odd(word) => turned(of[word as usize / 2]),
        word => of[word as usize / 2],
    };
    let (first, second) = (3 * g.nodes as usize, 3 * h.nodes as usize);
    let mut node_table = g.node_table[..first].to_vec();
    node_table.extend(h.node_table[..second].iter().map(met));
    let outputs = &h.output_table[..h.outputs as usize];
    let mut locks = g.locks[..g.nodes as usize].to_vec();
    locks.extend(&h.locks[..h.nodes as usize]);
    Graph {
        inputs: g.inputs,
        nodes: g.nodes + h.nodes,
        outputs: h.outputs,
        node_table,
        output_table: outputs.iter().map(met).collect(),
        locks,
    }
}
