//! The text that settle-report prints.

use crate::fast::Fast;
use crate::file::load;
use crate::graph::Graph;

/// The program takes so many bytes as the whole file, and its tables hold so many nodes and outputs.
pub const MOST_BYTES: usize = 65_536;
pub const MOST_NODES: usize = 2_000;
pub const MOST_OUTPUTS: usize = 4_096;

/// The report of what stands on standard input.
pub fn report(input: &[u8]) -> String {
    let file = &input[..input.len().min(MOST_BYTES)];
    let mut node_table = vec![0; 3 * MOST_NODES];
    let mut output_table = vec![0; MOST_OUTPUTS];
    let mut locks = vec![0; MOST_NODES];
    match load(file, &mut node_table, &mut output_table, &mut locks) {
        Err(number) => format!("refused {number}\n"),
        Ok((inputs, nodes, outputs)) => settled_report(Graph {
            inputs,
            nodes,
            outputs,
            node_table,
            output_table,
            locks,
        }),
    }
}

fn settled_report(g: Graph) -> String {
    let mut fast = Fast::new(g);
    let figures = fast.settle();
    let g = &fast.g;
    let mut text = format!(
        "inputs {} nodes {} outputs {}\nbefore {} after {} rounds {}\n",
        g.inputs, g.nodes, g.outputs, figures.before, figures.after, figures.rounds
    );
    for node in g.node_indices() {
        let kind = if g.is_xor(node) { "xor" } else { "maj" };
        text.push_str(&format!("node {node} {kind}"));
        for word in 0..g.words_of(node) {
            text.push_str(&format!(" {}", g.word(node, word)));
        }
        text.push('\n');
    }
    for output in &g.output_table[..g.outputs as usize] {
        text.push_str(&format!("out {output}\n"));
    }
    text
}
