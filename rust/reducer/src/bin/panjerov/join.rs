//! Stages joined: the outputs of each drive the inputs of the next.

use std::path::PathBuf;

use crate::files::{self, Input};
use crate::formats::{self, Loaded};
use crate::parts::count;
use reducer::{Graph, Refusal, MOST_NODES};

fn refused(names: [&str; 2], graphs: [&Graph; 2], refusal: Refusal) -> String {
    let [first, second] = graphs.map(|graph| graph.size);
    let why = match refusal {
        Refusal::StagesDiffer => {
            let outputs = count(first.outputs as usize, "output");
            format!("; {} has {outputs}, {} {}", names[0], names[1], count(second.inputs as usize, "input"))
        }
        Refusal::OverLimit => {
            format!(
                "; with {} there would be {} nodes, and {MOST_NODES} are allowed",
                names[1],
                first.nodes + second.nodes
            )
        }
        _ => String::new(),
    };
    format!("{refusal}{why}")
}

/// A graph joined with those of further files, each with what the ones before have given: inputs have the names of the first, outputs
/// those of the last.
pub fn chain(first: &Input, graph: Loaded, more: &[Option<PathBuf>]) -> Result<Loaded, String> {
    let (mut joined, mut last) = (graph, first.name.clone());
    for path in more {
        let next = files::read(path.as_deref())?;
        let stage = formats::graph_of(&next)?;
        let graphs = [&joined.graph, &stage.graph];
        let graph = graphs[0].join(graphs[1]).map_err(|refusal| refused([&last, &next.name], graphs, refusal))?;
        let lines = [joined.lines, stage.lines].concat();
        joined = Loaded { graph, names: joined.names.joined(stage.names), lines, ..joined };
        last = next.name;
    }
    Ok(joined)
}
