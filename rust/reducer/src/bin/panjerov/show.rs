//! What `panjerov show` tells.

use crate::figures::{Figures, Value};
use crate::formats::Format;
use crate::locks;
use crate::nodes::{is_xor, output_of, words_of};
use crate::resistive::single;
use reducer::{Graph, Names, Size};

/// The most nodes on a way from an output down, of a graph that the library has admitted.
pub fn depth(graph: &Graph) -> u32 {
    let Size { inputs, nodes, outputs } = graph.size;
    // By index: the most nodes on a way from it down, itself among them.
    let mut depths = vec![0; 1 + inputs as usize];
    let below = |depths: &[u32], literal: u32| depths[literal as usize / 2];
    for node in inputs + 1..=inputs + nodes {
        depths.push(1 + words_of(graph, node).map(|literal| below(&depths, literal)).max().unwrap_or(0));
    }
    (1..=outputs).map(|output| below(&depths, output_of(graph, output))).max().unwrap_or(0)
}

fn xors(graph: &Graph) -> u32 {
    let Size { inputs, nodes, .. } = graph.size;
    (inputs + 1..=inputs + nodes).filter(|&node| is_xor(graph, node)).count() as u32
}

pub fn figures_of(graph: &Graph, names: &Names, format: Format) -> Result<Figures, String> {
    let Size { inputs, nodes, outputs } = graph.size;
    let kinds = Figures::of("format", format.name()).and(Figures::sizes(graph));
    let kinds = kinds.with("majorities", nodes - xors(graph)).with("xors", xors(graph));
    let edges = kinds.complemented(graph).map_err(|refusal| refusal.to_string())?;
    let edges = edges.with("single", single(graph)).with("depth", depth(graph)).locked(graph);
    let locked = edges.with("locked_nodes", locks::of(graph).into_iter().collect::<Value>());
    let named = locked.with("input_names", (1..=inputs).map(|at| names.input(at)).collect::<Value>());
    Ok(named.with("output_names", (1..=outputs).map(|at| names.output(at)).collect::<Value>()))
}

/// A line for each input and output that has a name.
pub fn names_of(graph: &Graph, names: &Names) -> String {
    let Size { inputs, outputs, .. } = graph.size;
    let inputs = (1..=inputs).filter_map(|at| Some(format!("input {at} {}\n", names.input(at)?)));
    let outputs = (1..=outputs).filter_map(|at| Some(format!("output {at} {}\n", names.output(at)?)));
    inputs.chain(outputs).collect()
}

pub fn text_of(graph: &Graph, names: &Names, format: Format) -> Result<String, String> {
    let complemented = graph.complemented_edges().map_err(|refusal| refusal.to_string())?;
    let Size { inputs, nodes, outputs } = graph.size;
    let xors = xors(graph);
    Ok(format!(
        "format {}\ninputs {inputs} nodes {nodes} outputs {outputs}\nmajorities {} xors {xors}\n\
         complemented edges {complemented}\nmajorities with just one complemented input {}\ndepth {}\nlocked nodes {}\n{}",
        format.name(),
        nodes - xors,
        single(graph),
        depth(graph),
        locks::told(&locks::of(graph)),
        names_of(graph, names)
    ))
}

#[cfg(test)]
mod tests {
    use super::*;
    use reducer::MARK;

    fn depth_of(inputs: u32, node_table: &[u32], output_table: &[u32]) -> u32 {
        depth(&Graph::new(inputs, node_table.to_vec(), output_table.to_vec()))
    }

    #[test]
    fn depths() {
        assert_eq!(depth_of(0, &[], &[]), 0);
        assert_eq!(depth_of(1, &[], &[3, 0]), 0);
        assert_eq!(depth_of(3, &[2, 4, 6], &[9]), 1);
        // The highest node is not read.
        assert_eq!(depth_of(2, &[2, 4, MARK, 6, 2, 0, 8, 8, MARK], &[8, 6]), 2);
        assert_eq!(depth_of(2, &[2, 4, MARK, 0, 1, 6, 3, 8, MARK], &[0, 11]), 3);
    }
}
