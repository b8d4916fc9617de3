//! What `panjerov picture` gives.

use crate::figures::Figures;
use crate::files::{self, Input};
use crate::formats::{self, Format};
use crate::graphviz::Form;
use crate::graphviz::{self, Failure};
use crate::locks;
use crate::parts::Part;
use crate::picture::{self, Named};
use crate::turned::{self, Apart};
use crate::words::Work;
use crate::Given;
use reducer::Graph;

/// What Graphviz makes, as an option or the ending of the file's name says.
fn form_of(asked: &Work) -> Option<Form> {
    asked.form.or_else(|| asked.output.as_deref().and_then(Format::of_ending).and_then(Format::form))
}

/// As the DOT text, or as what Graphviz makes of it.
fn formed(asked: &Work, text: String) -> Result<Vec<u8>, String> {
    match form_of(asked) {
        Some(form) => graphviz::picture(text, form).map_err(|failure| match failure {
            Failure::Missing => format!("{failure}; without --svg or --png a picture is given as DOT text"),
            _ => failure.to_string(),
        }),
        None => Ok(text.into_bytes()),
    }
}

fn part_of(asked: &Work, graph: &Graph, input: &Input) -> Result<Part, String> {
    Part::of(graph, asked.wanted).map_err(|why| format!("{}: {why}", input.name))
}

/// How many boxes are drawn, and whether that is all of the graph.
fn drawn(part: &Part) -> Figures {
    let figures = Figures::of("inputs", part.inputs.len()).with("nodes", part.nodes.len());
    figures.with("beyond", part.beyond.len()).with("outputs", part.outputs.len()).with("whole", part.whole)
}

/// Draws a part of a graph, or all of it.
pub fn draw(asked: &Work, input: &Input, named: Named) -> Result<Given, String> {
    let part = part_of(asked, named.0, input)?;
    let bytes = formed(asked, picture::of(named, &part, &input.title())?)?;
    Ok(Given::of(bytes, drawn(&part)).saying(part.line()))
}

/// Why two graphs are not compared.
fn other_wiring(why: &str, inputs: [&Input; 2], formats: [Format; 2]) -> String {
    let hint = match formats.iter().any(|&format| format != Format::Tagged) {
        true => {
            "; as AIGER a settled graph has other nodes, so compare with the tagged file that `panjerov settle` gives"
        }
        false => "",
    };
    format!("{} and {} have not the same wiring: {why}{hint}", inputs[0].name, inputs[1].name)
}

/// Draws two graphs of the same wiring side by side, or a part of them.
pub fn compare(asked: &Work, before: &Input, first: Named, format: Format) -> Result<Given, String> {
    let after = &files::read(asked.after.as_deref())?;
    let second = formats::graph_of(after)?;
    let graphs = [first.0, &second.graph];
    let moves = turned::moves(graphs[0], graphs[1]);
    match &moves {
        Err(Apart::Wiring(why)) => return Err(other_wiring(why, [before, after], [format, second.format])),
        Err(Apart::Refused(why)) => return Err(why.clone()),
        _ => {}
    }
    let part = part_of(asked, graphs[0], before)?;
    let titles = [("before", before), ("after", after)].map(|(which, input)| format!("{which}: {}", input.title()));
    let bytes = formed(asked, picture::compared([first, (&second.graph, &second.names)], &part, &titles)?)?;
    let said = said_of(graphs, [&before.name, &after.name], moves);
    let given = Given::of(bytes, drawn(&part)).saying(part.line()).saying(said);
    Ok(Given { first: second.lines, ..given })
}

/// What is said of two graphs of the same wiring: that no moves lead from one to the other, that their locks differ, and which nodes
/// turned though they are locked in the first.
fn said_of(graphs: [&Graph; 2], names: [&str; 2], moves: Result<Vec<u8>, Apart>) -> Vec<String> {
    let turned = moves.as_ref().ok().and_then(|moves| locks::turned(graphs[0], moves, names[0]));
    let no_moves = match moves {
        Err(Apart::Bit(at, _)) => {
            Some(format!("no moves lead from {} to {}, as {at} shows: their functions may differ", names[0], names[1]))
        }
        _ => None,
    };
    [no_moves, locks::differ(graphs, names), turned].into_iter().flatten().collect()
}
