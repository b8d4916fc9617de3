//! Pictures as DOT text, which Graphviz draws: inputs below, outputs above, a dot on each complemented edge.

use crate::locks::is_locked;
use crate::nodes::{is_xor, output_of, words_of};
use crate::parts::{count, Part};
use reducer::{Graph, Names};

/// How everything looks unless a line says otherwise. A majority is a box with corners, an XOR one without; each has its words
/// in a row below, and each word's edge ends there. The colours differ in lightness too. `nslimit` keeps large pictures quick.
/// The font has digits of one width, so that two graphs of the same wiring have boxes of the same widths.
const LOOKS: &str = "    graph [rankdir=BT, ranksep=0.5, nodesep=0.25, nslimit=2, labelloc=t];
    graph [fontname=\"Verdana,DejaVu Sans,sans-serif\", fontsize=13];
    node [shape=box, style=filled, fillcolor=white, height=0.3];
    node [fontname=\"Verdana,DejaVu Sans,sans-serif\", fontsize=11];
    edge [arrowhead=none, arrowsize=0.8, tailport=n];
";
const MAJORITY: &str = "shape=record, fillcolor=\"#dcebf7\"";
const XOR: &str = "shape=Mrecord, fillcolor=\"#fbdf9d\"";
/// Thick, so that it is seen in black and white, as is the border of a locked node.
const TURNED: &str = "color=\"#d55e00\", penwidth=2.5";
const LOCKED: &str = ", penwidth=3";
const CONSTANT: &str = "label=\"0\", shape=circle, width=0.2, fixedsize=true, fontsize=9";

/// The most levels that edges may cross, all together, for inputs to stand in one row at the bottom and outputs at the top.
const MOST_CROSSED: usize = 2_500;

/// Text within quotes of DOT, which knows backslashes and the entities of HTML.
fn quoted(text: &str) -> String {
    let plain: String = text.chars().map(|sign| if sign.is_control() { ' ' } else { sign }).collect();
    plain.replace('&', "&amp;").replace('\\', "\\\\").replace('"', "\\\"")
}

/// A graph with the names of its inputs and outputs.
pub type Named<'a> = (&'a Graph, &'a Names);

/// A name after what it is the name of, in a label with or without cells.
fn after(what: String, name: Option<&str>) -> String {
    let Some(name) = name else { return what };
    // Signs that part cells; the entities are those of HTML.
    let cells = [('{', "&#123;"), ('}', "&#125;"), ('|', "&#124;"), ('<', "&lt;"), ('>', "&gt;")];
    let shown = cells.into_iter().fold(quoted(name), |text, (sign, entity)| text.replace(sign, entity));
    format!("{what} {shown}")
}

/// A graph as it is drawn.
struct Side<'a> {
    graph: &'a Graph,
    names: &'a Names,
    /// The graph of the same wiring that it is compared with.
    other: Option<&'a Graph>,
    part: &'a Part,
    /// What the names of its boxes begin with.
    prefix: &'a str,
    /// Whether inputs and outputs stand in rows.
    rows: bool,
}

/// The edges into a box: its words, and the same words of the graph that is compared.
struct Edges {
    reader: String,
    words: Vec<u32>,
    others: Option<Vec<u32>>,
}

impl Edges {
    fn turned(&self) -> impl Iterator<Item = bool> + '_ {
        let others = self.others.as_ref();
        self.words.iter().enumerate().map(move |(at, literal)| others.is_some_and(|others| others[at] != *literal))
    }
}

impl Side<'_> {
    fn node_edges(&self, node: u32) -> Edges {
        let words = |graph: &Graph| words_of(graph, node).collect();
        Edges { reader: format!("{}n{node}", self.prefix), words: words(self.graph), others: self.other.map(words) }
    }

    fn output_edges(&self, output: u32) -> Edges {
        let words = |graph: &Graph| vec![output_of(graph, output)];
        Edges { reader: format!("{}o{output}", self.prefix), words: words(self.graph), others: self.other.map(words) }
    }

    /// All edges that are drawn.
    fn edges(&self) -> impl Iterator<Item = Edges> + '_ {
        let nodes = self.part.nodes.iter().map(|&node| self.node_edges(node));
        nodes.chain(self.part.outputs.iter().map(|&output| self.output_edges(output)))
    }

    /// The box that an edge comes from. A constant is drawn for each word that reads it.
    fn source(&self, literal: u32, reader: &str, word: usize) -> String {
        match literal / 2 {
            0 => format!("{reader}_c{word}"),
            index if index <= self.graph.size.inputs => format!("{}i{index}", self.prefix),
            index => format!("{}n{index}", self.prefix),
        }
    }

    /// The lines of edges, after the constants that they come from.
    fn edge_lines(&self, edges: &Edges) -> Vec<String> {
        let mut lines = Vec::new();
        for ((&literal, turned), word) in edges.words.iter().zip(edges.turned()).zip(1..) {
            let source = self.source(literal, &edges.reader, word);
            if literal / 2 == 0 {
                lines.push(format!("{source} [{CONSTANT}];"));
            }
            let looks = [(literal / 2 == 0, "weight=2"), (literal % 2 == 1, "arrowhead=dot"), (turned, TURNED)];
            let looks: Vec<&str> = looks.into_iter().filter_map(|(has, look)| has.then_some(look)).collect();
            let looks = if looks.is_empty() { String::new() } else { format!(" [{}]", looks.join(", ")) };
            lines.push(format!("{source} -> {}:w{word}:s{looks};", edges.reader));
        }
        lines
    }

    /// A row of boxes.
    fn row(&self, place: &str, boxes: Vec<String>) -> Vec<String> {
        if boxes.is_empty() || !self.rows {
            return boxes;
        }
        let inner = boxes.iter().map(|line| format!("    {line}"));
        let opening = ["{".to_string(), format!("    rank={place};")];
        opening.into_iter().chain(inner).chain(["}".to_string()]).collect()
    }

    /// What a box says first. The word makes it wider, and the two sides of a comparison differ in it only where their locks do.
    fn kind(&self, node: u32) -> String {
        let locked = if is_locked(self.graph, node) { " locked" } else { "" };
        format!("{} {node}{locked}", if is_xor(self.graph, node) { "XOR" } else { "majority" })
    }

    fn border(&self, node: u32) -> &'static str {
        if is_locked(self.graph, node) {
            LOCKED
        } else {
            ""
        }
    }

    fn node_lines(&self, node: u32) -> Vec<String> {
        let edges = self.node_edges(node);
        let cells: Vec<String> =
            edges.words.iter().zip(1..).map(|(literal, word)| format!("<w{word}> {literal}")).collect();
        let look = if is_xor(self.graph, node) { XOR } else { MAJORITY };
        let (kind, cells, border) = (self.kind(node), cells.join("|"), self.border(node));
        let own = format!("{} [label=\"{{{kind}|{{{cells}}}}}\", {look}{border}];", edges.reader);
        [vec![own], self.edge_lines(&edges)].concat()
    }

    fn output_line(&self, output: u32) -> String {
        let Edges { reader, words, .. } = self.output_edges(output);
        let called = after(format!("output {output}"), self.names.output(output));
        format!("{reader} [label=\"{{{called}|<w1> {}}}\", shape=record];", words[0])
    }

    /// From the inputs up.
    fn lines(&self) -> Vec<String> {
        let Part { inputs, nodes, beyond, outputs, .. } = self.part;
        let input = |&at: &u32| {
            let called = after(format!("input {at}"), self.names.input(at));
            format!("{}i{at} [label=\"{called}\"];", self.prefix)
        };
        let mut lines = self.row("source", inputs.iter().map(input).collect());
        let dashed = |&at: &u32| {
            let (prefix, kind, border) = (self.prefix, self.kind(at), self.border(at));
            format!("{prefix}n{at} [label=\"{kind}\", style=dashed{border}];")
        };
        lines.extend(beyond.iter().map(dashed));
        lines.extend(nodes.iter().flat_map(|&node| self.node_lines(node)));
        lines.extend(self.row("sink", outputs.iter().map(|&at| self.output_line(at)).collect()));
        lines.extend(outputs.iter().flat_map(|&at| self.edge_lines(&self.output_edges(at))));
        lines
    }

    fn complemented(&self) -> usize {
        self.edges().map(|edges| edges.words.iter().filter(|&literal| literal % 2 == 1).count()).sum()
    }

    /// How many boxes are those of locked nodes.
    fn locked(&self) -> usize {
        let boxes = self.part.nodes.iter().chain(&self.part.beyond);
        boxes.filter(|&&node| is_locked(self.graph, node)).count()
    }

    fn turned(&self) -> usize {
        self.edges().map(|edges| edges.turned().filter(|&turned| turned).count()).sum()
    }
}

/// How many levels the edges of a part cross, all together, where inputs stand at the bottom and outputs at the top.
fn crossed(graph: &Graph, part: &Part) -> usize {
    let mut levels = vec![0; 1 + (graph.size.inputs + graph.size.nodes) as usize];
    let mut crossed = 0;
    let mut cross = |levels: &[usize], literals: &[u32], to: usize| {
        let below = literals.iter().map(|&literal| literal as usize / 2);
        // The constant and what is beyond the part stand near their readers.
        let far = below.filter(|&index| index != 0 && (index <= graph.size.inputs as usize || levels[index] != 0));
        crossed += far.map(|index| to - 1 - levels[index]).sum::<usize>();
    };
    for &node in &part.nodes {
        let words: Vec<u32> = words_of(graph, node).collect();
        let level = 1 + words.iter().map(|&literal| levels[literal as usize / 2]).max().unwrap_or(0);
        cross(&levels, &words, level);
        levels[node as usize] = level;
    }
    let top = 1 + levels.iter().max().unwrap_or(&0);
    for &output in &part.outputs {
        cross(&levels, &[output_of(graph, output)], top);
    }
    crossed
}

/// How many of these are drawn, of how many in the whole graph where a part is drawn, and what each has.
fn marked(drawn: usize, what: &str, all: u32, whole: bool, mark: &str) -> String {
    let of = if whole { String::new() } else { format!(" of the whole graph's {all}") };
    let each = if drawn == 1 { "" } else { "each " };
    format!("{}{of}, {each}with a {mark}", count(drawn, what))
}

/// What thick borders mean, and how many there are; none where no node of the graph is locked.
fn locked_line(side: &Side) -> Option<String> {
    let all = side.graph.locked();
    (all != 0).then(|| marked(side.locked(), "locked node", all, side.part.whole, "thick border"))
}

/// What stands above a graph: its title, what is drawn of it, its dots, its locks, and where inputs are to be looked for.
fn label(side: &Side, title: &str) -> Result<String, String> {
    let all = side.graph.complemented_edges().map_err(|refusal| refusal.to_string())?;
    let dots = marked(side.complemented(), "complemented edge", all, side.part.whole, "dot");
    let near = "inputs and outputs stand near their nodes, since the graph is deep";
    let near = if side.rows { None } else { Some(near) };
    let locked = locked_line(side);
    let lines = [title, &side.part.told, &dots].into_iter().chain(locked.as_deref()).chain(near);
    Ok(format!("label=\"{}\";", lines.map(quoted).collect::<Vec<String>>().join("\\n")))
}

fn digraph(lines: &[String]) -> String {
    let lines: String = lines.iter().map(|line| format!("    {line}\n")).collect();
    format!("digraph panjerov {{\n{LOOKS}{lines}}}\n")
}

fn alone(side: &Side, title: &str) -> Result<String, String> {
    Ok(digraph(&[vec![label(side, title)?], side.lines()].concat()))
}

/// The picture of a part of a graph, under a title.
pub fn of((graph, names): Named, part: &Part, title: &str) -> Result<String, String> {
    let rows = crossed(graph, part) <= MOST_CROSSED;
    alone(&Side { graph, names, other: None, part, prefix: "", rows }, title)
}

/// The pictures of a part of two graphs of the same wiring, before and after, each by itself.
pub fn both(graphs: [&Graph; 2], names: &Names, part: &Part) -> Result<[String; 2], String> {
    let [before, after] = graphs;
    let rows = crossed(before, part) <= MOST_CROSSED;
    let first = Side { graph: before, names, other: Some(after), part, prefix: "before_", rows };
    let second = Side { graph: after, names, other: Some(before), part, prefix: "after_", rows };
    Ok([alone(&first, "before")?, alone(&second, "after")?])
}

/// One of two graphs in a frame.
fn framed(side: &Side, title: &str) -> Result<Vec<String>, String> {
    // Where ranks rise from the bottom, the bottom is the top to a frame's label.
    let within = [vec!["color=gray; labelloc=b;".into(), label(side, title)?], side.lines()].concat();
    let within = within.into_iter().map(|line| format!("    {line}"));
    let opening = format!("subgraph cluster_{} {{", side.prefix.trim_end_matches('_'));
    Ok([opening].into_iter().chain(within).chain(["}".into()]).collect())
}

/// The picture of a part of two graphs of the same wiring, before and after, each under its title.
pub fn compared(graphs: [Named; 2], part: &Part, titles: &[String; 2]) -> Result<String, String> {
    let [(before, names), (after, names_after)] = graphs;
    let rows = 2 * crossed(before, part) <= MOST_CROSSED;
    let first = Side { graph: before, names, other: Some(after), part, prefix: "before_", rows };
    let second = Side { graph: after, names: names_after, other: Some(before), part, prefix: "after_", rows };
    let turned = format!("label=\"{}, thick and orange\";", count(first.turned(), "turned edge"));
    // Each frame is laid out by itself, and so both alike; but what does not hang together would be torn apart.
    let packed = part.connected(before).then(|| "packmode=array_u2;".into());
    let opening = [turned].into_iter().chain(packed).collect();
    Ok(digraph(&[opening, framed(&first, &titles[0])?, framed(&second, &titles[1])?].concat()))
}
