//! A file in any of its formats.

use crate::{aiger, Graph, Names, Refused};

/// How a graph stands in a file.
#[derive(Clone, Copy, Debug, PartialEq, Eq, Hash)]
#[non_exhaustive]
pub enum Format {
    Tagged,
    /// ASCII AIGER.
    Aiger,
    /// Binary AIGER.
    BinaryAiger,
}

/// What a file holds.
#[derive(Clone, Debug, PartialEq, Eq)]
#[non_exhaustive]
pub struct Read {
    pub graph: Graph,
    pub format: Format,
    /// The names that AIGER gives; a tagged file has none.
    pub names: Names,
    /// What was put right or left out on the way, a line each.
    pub told: Vec<String>,
}

/// The graph of a file, which is AIGER, binary or ASCII as tools write it, where it begins so, and else a tagged file.
pub fn read(bytes: &[u8]) -> Result<Read, Refused> {
    if !aiger::begins(bytes) {
        let graph = Graph::load(bytes).map_err(|refusal| Refused::of(refusal, bytes))?;
        let names = Names::none(graph.size.inputs, graph.size.outputs);
        return Ok(Read { graph, format: Format::Tagged, names, told: Vec::new() });
    }
    let format = if aiger::is_binary(bytes) { Format::BinaryAiger } else { Format::Aiger };
    let aiger::Plain { text, names, told } = aiger::plain(bytes)?;
    let graph = Graph::import(&text).map_err(|refusal| Refused::of(refusal, &text))?;
    Ok(Read { graph, format, names, told })
}
