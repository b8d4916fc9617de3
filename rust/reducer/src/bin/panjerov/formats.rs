//! Graphs from what was read, and the bytes that are given for them.

use std::path::Path;

use crate::figures::Figures;
use crate::files::Input;
use crate::graphviz::{self, Form};
use crate::hints;
use crate::locks;
use crate::parts::{count, Part, Wanted};
use crate::picture;
use crate::words::Work;
use crate::Given;
use reducer::{aiger, verilog, Graph, Names, Read};

/// What a graph is given as.
#[derive(Clone, Copy, Debug, PartialEq, Eq)]
pub enum Format {
    Tagged,
    Aiger,
    BinaryAiger,
    Verilog,
    Dot,
    Svg,
    Png,
}

impl Format {
    const ALL: [Format; 7] =
        [Format::Tagged, Format::Aiger, Format::BinaryAiger, Format::Verilog, Format::Dot, Format::Svg, Format::Png];

    /// How `--to` says it.
    pub fn name(self) -> &'static str {
        match self {
            Format::Tagged => "tagged",
            Format::Aiger => "aiger",
            Format::BinaryAiger => "aig",
            Format::Verilog => "verilog",
            Format::Dot => "dot",
            Format::Svg => "svg",
            Format::Png => "png",
        }
    }

    /// How the names of such files end.
    fn ending(self) -> &'static str {
        match self {
            Format::Tagged => "mig",
            Format::Aiger => "aag",
            Format::BinaryAiger => "aig",
            Format::Verilog => "v",
            Format::Dot => "dot",
            Format::Svg => "svg",
            Format::Png => "png",
        }
    }

    /// What it is, in words.
    pub fn told(self) -> &'static str {
        match self {
            Format::Tagged => "a tagged file",
            Format::Aiger | Format::BinaryAiger => "AIGER",
            Format::Verilog => "Verilog",
            Format::Dot | Format::Svg | Format::Png => "a picture",
        }
    }

    /// That `--to` names.
    pub fn named(word: &str) -> Option<Format> {
        Format::ALL.into_iter().find(|format| format.name() == word || format.ending() == word)
    }

    /// That the ending of a file's name says.
    pub fn of_ending(path: &Path) -> Option<Format> {
        let ending = path.extension()?;
        Format::ALL.into_iter().find(|format| ending.eq_ignore_ascii_case(format.ending()))
    }

    fn of_read(format: reducer::Format) -> Format {
        match format {
            reducer::Format::Aiger => Format::Aiger,
            reducer::Format::BinaryAiger => Format::BinaryAiger,
            _ => Format::Tagged,
        }
    }

    /// What Graphviz makes of it, if it is to.
    pub fn form(self) -> Option<Form> {
        match self {
            Format::Svg => Some(Form::Svg),
            Format::Png => Some(Form::Png),
            _ => None,
        }
    }
}

/// A graph that was read.
pub struct Loaded {
    pub graph: Graph,
    pub format: Format,
    pub names: Names,
    /// What was put right or left out, a line each.
    pub lines: Vec<String>,
}

/// The graph of a file, with the names in it or beside it.
pub fn graph_of(input: &Input) -> Result<Loaded, String> {
    let Read { graph, format, mut names, mut told, .. } =
        reducer::read(&input.bytes).map_err(|refused| hints::refused(input, &refused))?;
    let mut name = input.name.clone();
    if let Some(beside) = input.beside.as_ref().filter(|_| format == reducer::Format::Tagged) {
        (names, told) = Names::of_beside(beside, &input.bytes, graph.size);
        name += ".names";
    }
    let lines = told.into_iter().map(|line| format!("{name}: {line}")).collect();
    Ok(Loaded { graph, format: Format::of_read(format), names, lines })
}

/// What is said where a graph becomes AIGER: what the text has, and what the graph has.
fn grown(graph: &Graph, text: &[u8]) -> Result<Option<String>, String> {
    let nodes = graph.size.nodes;
    let complemented = graph.complemented_edges().map_err(|refusal| refusal.to_string())?;
    let (ands, edges) = aiger::counts(text).map_err(|place| place.to_string())?;
    let told = |many: usize, what: &str, edges: usize| {
        format!("{} and {}", count(many, what), count(edges, "complemented edge"))
    };
    let (text, own) = (told(ands, "AND", edges), told(nodes as usize, "node", complemented as usize));
    Ok((nodes != 0).then(|| format!("as AIGER it has {text}; the graph has {own}")))
}

/// The graph as AIGER with its names, and lines for what that says otherwise or cannot hold.
fn as_aiger(graph: &Graph, names: &Names, binary: bool) -> Result<(Vec<u8>, Vec<String>), String> {
    let text = graph.export().map_err(|refusal| refusal.to_string())?;
    let lines = grown(graph, &text)?.into_iter().chain(locks::lost(graph)).collect();
    let mut bytes = if binary { aiger::binary(&text).map_err(|place| place.to_string())? } else { text };
    bytes.extend(names.symbols().into_bytes());
    Ok((bytes, lines))
}

/// A picture of the whole graph.
fn drawn(graph: &Graph, names: &Names, title: &str, form: Option<Form>) -> Result<Vec<u8>, String> {
    let part = Part::of(graph, Wanted::Whole)?;
    let text = picture::of((graph, names), &part, title)?;
    match form {
        Some(form) => graphviz::picture(text, form).map_err(|failure| failure.to_string()),
        None => Ok(text.into_bytes()),
    }
}

/// The last name of a path without its ending.
fn stem(path: Option<&Path>) -> String {
    path.and_then(Path::file_stem).map_or("graph".into(), |stem| stem.to_string_lossy().into_owned())
}

/// The bytes of a graph in a format, for a file of this name, with lines for what the format says otherwise or cannot hold.
pub fn bytes_of(
    graph: &Graph,
    names: &Names,
    format: Format,
    path: Option<&Path>,
) -> Result<(Vec<u8>, Vec<String>), String> {
    match format {
        Format::Tagged => Ok((graph.write().map_err(|refusal| refusal.to_string())?, vec![])),
        Format::Aiger => as_aiger(graph, names, false),
        Format::BinaryAiger => as_aiger(graph, names, true),
        Format::Verilog => {
            let made = verilog::of(graph, names, &stem(path)).map_err(|refusal| refusal.to_string())?;
            let (text, lost) = made;
            Ok((text.into_bytes(), lost.into_iter().chain(locks::lost_in(graph, "Verilog")).collect()))
        }
        Format::Dot | Format::Svg | Format::Png => Ok((drawn(graph, names, &stem(path), format.form())?, vec![])),
    }
}

/// The format that is asked for: by name, by the ending of the file that is written, or this one otherwise.
pub fn wanted(asked: &Work, otherwise: Format) -> Format {
    asked.to.or_else(|| asked.output.as_deref().and_then(Format::of_ending)).unwrap_or(otherwise)
}

/// What stands beside a tagged file; it is empty where there are no names.
pub fn beside(names: &Names, format: Format, bytes: &[u8]) -> Option<String> {
    (format == Format::Tagged).then(|| match names.is_empty() {
        true => String::new(),
        false => names.beside(bytes),
    })
}

/// The graph in the format that is asked for.
pub fn formed(
    asked: &Work,
    graph: &Graph,
    names: &Names,
    otherwise: Format,
    figures: Figures,
) -> Result<Given, String> {
    let format = wanted(asked, otherwise);
    let none = Names::none(graph.size.inputs, graph.size.outputs);
    let names = if asked.no_symbols { &none } else { names };
    let (bytes, mut lines) = bytes_of(graph, names, format, asked.output.as_deref())?;
    let beside = beside(names, format, &bytes);
    // With --json and no file nothing is given that could lose them.
    let lost = asked.output.is_none() && !asked.json;
    if lost && beside.as_ref().is_some_and(|text| !text.is_empty()) {
        lines.push("names are lost: a tagged file has them in a file beside it, which -o FILE makes".into());
    }
    Ok(Given { beside, lines, ..Given::of(bytes, figures) })
}
