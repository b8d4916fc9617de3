//! Which part of a graph is drawn.

use crate::nodes::{output_of, words_of};
use crate::trees::Trees;
use reducer::{Graph, Size};

/// The most nodes that are drawn.
const MOST_DRAWN: usize = 300;
/// The most inputs, nodes and outputs of a graph that is drawn whole.
const MOST_BOXES: u32 = 600;

#[derive(Clone, Copy, Debug, PartialEq, Eq)]
pub enum Wanted {
    Whole,
    /// What an output rests on; outputs count from 1.
    Output(u32),
    /// The tree of a root.
    Root(u32),
}

#[derive(Debug, PartialEq, Eq)]
pub struct Part {
    /// By rising index, as the nodes.
    pub inputs: Vec<u32>,
    pub nodes: Vec<u32>,
    /// Nodes that are read here and drawn without their words.
    pub beyond: Vec<u32>,
    pub outputs: Vec<u32>,
    /// What is drawn, in words.
    pub told: String,
    pub whole: bool,
}

/// The nodes that lead to this one through nodes inside, the nearest first, and itself before them.
fn nearest(graph: &Graph, from: u32, inside: impl Fn(u32) -> bool) -> Vec<u32> {
    let first = graph.size.inputs + 1;
    let mut seen = vec![false; graph.size.nodes as usize];
    let mut found = Vec::new();
    let mut next = vec![from];
    while !next.is_empty() {
        let mut below = Vec::new();
        for index in next {
            if index < first || !inside(index) || std::mem::replace(&mut seen[(index - first) as usize], true) {
                continue;
            }
            found.push(index);
            below.extend(words_of(graph, index).map(|literal| literal / 2));
        }
        next = below;
    }
    found
}

/// The part that has these nodes and outputs, with the inputs and the further nodes that they read.
fn with_sources(graph: &Graph, mut nodes: Vec<u32>, outputs: Vec<u32>, told: String) -> Part {
    nodes.sort_unstable();
    let ends = outputs.iter().map(|&output| output_of(graph, output));
    let words = nodes.iter().flat_map(|&node| words_of(graph, node));
    let mut read: Vec<u32> = words.chain(ends).map(|literal| literal / 2).filter(|&index| index != 0).collect();
    read.sort_unstable();
    read.dedup();
    let (inputs, mut beyond): (Vec<u32>, Vec<u32>) = read.into_iter().partition(|&index| index <= graph.size.inputs);
    beyond.retain(|index| nodes.binary_search(index).is_err());
    Part { inputs, nodes, beyond, outputs, told, whole: false }
}

/// "1 node", "2 nodes".
pub fn count(many: usize, what: &str) -> String {
    format!("{many} {what}{}", if many == 1 { "" } else { "s" })
}

/// How many inputs, nodes and outputs there are.
pub fn sizes(size: Size) -> [String; 3] {
    let Size { inputs, nodes, outputs } = size;
    [(inputs, "input"), (nodes, "node"), (outputs, "output")].map(|(many, what)| count(many as usize, what))
}

/// Leaves the nearest where there are too many; how many there are, in words.
fn cut(nodes: &mut Vec<u32>) -> String {
    let all = nodes.len();
    nodes.truncate(MOST_DRAWN);
    match all > MOST_DRAWN {
        true => format!("the {MOST_DRAWN} nearest of {all} nodes"),
        false => count(all, "node"),
    }
}

fn cone(graph: &Graph, output: u32) -> Result<Part, String> {
    let outputs = graph.size.outputs;
    let Some(literal) = output.checked_sub(1).and_then(|at| graph.output(at as usize).ok()) else {
        return Err(match outputs {
            0 => format!("there is no output {output}: there are none"),
            _ => format!("there is no output {output}: outputs are 1 to {outputs}"),
        });
    };
    let mut nodes = nearest(graph, literal / 2, |_| true);
    let many = cut(&mut nodes);
    Ok(with_sources(graph, nodes, vec![output], format!("output {output} and {many} that it rests on")))
}

fn tree(graph: &Graph, root: u32) -> Result<Part, String> {
    let trees = Trees::of(graph);
    if trees.root_of(root) != Some(root) {
        return Err(trees.no_root(root));
    }
    let mut nodes = nearest(graph, root, |node| trees.root_of(node) == Some(root));
    let many = cut(&mut nodes);
    Ok(with_sources(graph, nodes, Vec::new(), format!("the tree of root {root}, {many}")))
}

/// Why a graph is not drawn whole, and how to get a part.
fn too_large(size: Size) -> String {
    let mut why = format!(
        "{} are too many for one picture, which takes {MOST_DRAWN} nodes, and {MOST_BOXES} inputs, nodes and outputs together",
        sizes(size).join(", ")
    );
    if size.outputs != 0 {
        why += &format!("; --output K draws what output K rests on, K from 1 to {}", size.outputs);
    }
    if size.nodes != 0 {
        why += "; --root R draws a tree, and `panjerov preview` tells the roots";
    }
    why
}

fn whole(graph: &Graph) -> Result<Part, String> {
    let Size { inputs, nodes, outputs } = graph.size;
    if nodes as usize > MOST_DRAWN || inputs + nodes + outputs > MOST_BOXES {
        return Err(too_large(graph.size));
    }
    Ok(Part {
        inputs: (1..=inputs).collect(),
        nodes: (inputs + 1..=inputs + nodes).collect(),
        beyond: Vec::new(),
        outputs: (1..=outputs).collect(),
        told: sizes(graph.size).join(", "),
        whole: true,
    })
}

/// The last box on the way from this one; the way is made shorter.
fn end_of(with: &mut [u32], mut at: u32) -> u32 {
    while with[at as usize] != at {
        with[at as usize] = with[with[at as usize] as usize];
        at = with[at as usize];
    }
    at
}

impl Part {
    /// What is drawn of a graph that the library has admitted, or why nothing is.
    pub fn of(graph: &Graph, wanted: Wanted) -> Result<Part, String> {
        match wanted {
            Wanted::Whole => whole(graph),
            Wanted::Output(output) => cone(graph, output),
            Wanted::Root(root) => tree(graph, root),
        }
    }

    /// Whether edges lead from every box to every other, up or down. The constant leads nowhere, as each reader has its own.
    pub fn connected(&self, graph: &Graph) -> bool {
        let past = 1 + graph.size.inputs + graph.size.nodes;
        let words = |&node: &u32| words_of(graph, node).map(move |literal| (node, literal));
        let outputs = self.outputs.iter().map(|&at| (past + at, output_of(graph, at)));
        let edges = self.nodes.iter().flat_map(words).chain(outputs);
        // By index, and outputs past them: a box that it hangs together with, or itself.
        let mut with: Vec<u32> = (0..=past + graph.size.outputs).collect();
        let mut pieces = self.inputs.len() + self.nodes.len() + self.beyond.len() + self.outputs.len();
        for (reader, index) in edges.map(|(reader, literal)| (reader, literal / 2)).filter(|&(_, index)| index != 0) {
            let (x, y) = (end_of(&mut with, reader), end_of(&mut with, index));
            with[x as usize] = y;
            pieces -= usize::from(x != y);
        }
        pieces <= 1
    }

    /// The line that is said of a part; of a whole graph there is none.
    pub fn line(&self) -> Option<String> {
        let dashed = if self.beyond.is_empty() { "" } else { "; a dashed box is a node whose words are not drawn" };
        (!self.whole).then(|| format!("drawn: {}{dashed}", self.told))
    }
}

#[cfg(test)]
mod tests {
    use super::*;
    use reducer::MARK;

    fn graph(inputs: u32, node_table: &[u32], output_table: &[u32]) -> Graph {
        Graph::new(inputs, node_table.to_vec(), output_table.to_vec())
    }

    /// Node 4 is a root that node 6 reads; node 5 is of node 6's tree.
    fn two_trees() -> Graph {
        graph(3, &[3, 5, 7, 3, 5, MARK, 10, 8, 4], &[9, 12, 1, 6])
    }

    fn part(inputs: &[u32], nodes: &[u32], beyond: &[u32], outputs: &[u32], told: &str) -> Result<Part, String> {
        let [inputs, nodes, beyond, outputs] = [inputs, nodes, beyond, outputs].map(<[u32]>::to_vec);
        Ok(Part { inputs, nodes, beyond, outputs, told: told.into(), whole: false })
    }

    #[test]
    fn cones() {
        let of = |output| Part::of(&two_trees(), Wanted::Output(output));
        assert_eq!(of(1), part(&[1, 2, 3], &[4], &[], &[1], "output 1 and 1 node that it rests on"));
        assert_eq!(of(2), part(&[1, 2, 3], &[4, 5, 6], &[], &[2], "output 2 and 3 nodes that it rests on"));
        assert_eq!(of(3), part(&[], &[], &[], &[3], "output 3 and 0 nodes that it rests on"));
        assert_eq!(of(4), part(&[3], &[], &[], &[4], "output 4 and 0 nodes that it rests on"));
        for output in [0, 5, u32::MAX] {
            assert_eq!(of(output), Err(format!("there is no output {output}: outputs are 1 to 4")));
        }
        let none = Part::of(&graph(1, &[], &[]), Wanted::Output(1));
        assert_eq!(none, Err("there is no output 1: there are none".into()));
    }

    #[test]
    fn trees() {
        let of = |root| Part::of(&two_trees(), Wanted::Root(root));
        assert_eq!(of(4), part(&[1, 2, 3], &[4], &[], &[], "the tree of root 4, 1 node"));
        assert_eq!(of(6), part(&[1, 2], &[5, 6], &[4], &[], "the tree of root 6, 2 nodes"));
        let refused = |why: &str| Err(format!("refused 7: there is no such node, root or word; {why}"));
        assert_eq!(of(5), refused("5 is no root: it is in the tree of root 6"));
        assert_eq!(of(7), refused("7 is no root: nodes are 4 to 6"));
    }

    /// A chain from node 401 down to node 2, which node 401 reads too: the nearest go from the top down, with node 2.
    #[test]
    fn cut_cones() {
        let words = |at: u32| [2 * at, if at == 400 { 4 } else { 2 * at + 1 }, 0];
        let table: Vec<u32> = (1..=400).flat_map(words).collect();
        let chain = graph(1, &table, &[2 * 401]);
        let cut = Part::of(&chain, Wanted::Output(1)).unwrap();
        assert_eq!(cut.nodes, [2].into_iter().chain(103..=401).collect::<Vec<u32>>());
        assert_eq!((&cut.inputs[..], &cut.beyond[..], &cut.outputs[..]), (&[1][..], &[102][..], &[1][..]));
        let told = "output 1 and the 300 nearest of 400 nodes that it rests on";
        assert_eq!(cut.told, told);
        let line = format!("drawn: {told}; a dashed box is a node whose words are not drawn");
        assert_eq!(cut.line(), Some(line));
    }

    #[test]
    fn cut_trees() {
        // A chain of single readers: one tree, as long as the second word names the input.
        let table: Vec<u32> = (1..=400).flat_map(|at: u32| [2 * at, 2, 0]).collect();
        let cut = Part::of(&graph(1, &table, &[2 * 401]), Wanted::Root(401)).unwrap();
        assert_eq!(cut.nodes, (102..=401).collect::<Vec<u32>>());
        assert_eq!((&cut.inputs[..], &cut.beyond[..]), (&[1][..], &[101][..]));
        assert_eq!(cut.told, "the tree of root 401, the 300 nearest of 400 nodes");
    }

    #[test]
    fn connected() {
        let of = |graph: &Graph, wanted| Part::of(graph, wanted).unwrap().connected(graph);
        let p3 = graph(5, &[3, 5, 6, 12, 9, 10], &[15]);
        assert!(of(&p3, Wanted::Whole) && of(&p3, Wanted::Root(7)) && of(&graph(0, &[], &[]), Wanted::Whole));
        // An input that is not read; an output of the constant; two adders of no common input.
        assert!(!of(&graph(6, &[3, 5, 6, 14, 9, 10], &[17]), Wanted::Whole));
        assert!(
            !of(&two_trees(), Wanted::Whole)
                && of(&two_trees(), Wanted::Output(2))
                && of(&two_trees(), Wanted::Output(3))
        );
        let two = graph(4, &[2, 4, MARK, 6, 8, MARK], &[10, 12]);
        assert!(!of(&two, Wanted::Whole) && of(&two, Wanted::Output(2)));
        assert!(of(&graph(4, &[2, 4, MARK, 6, 8, MARK, 10, 12, 0], &[14]), Wanted::Whole));
    }

    #[test]
    fn whole_graphs() {
        let nodes = |many: usize| graph(2, &[2, 4, 0].repeat(many), &[2]);
        let three = Part::of(&nodes(3), Wanted::Whole).unwrap();
        assert_eq!((&three.inputs[..], &three.nodes[..], &three.outputs[..]), (&[1, 2][..], &[3, 4, 5][..], &[1][..]));
        assert_eq!((three.told.as_str(), three.line()), ("2 inputs, 3 nodes, 1 output", None));
        assert_eq!(Part::of(&nodes(300), Wanted::Whole).map(|part| part.nodes.len()), Ok(300));
        let most = "are too many for one picture, which takes 300 nodes, and 600 inputs, nodes and outputs together";
        let output = |most| format!("--output K draws what output K rests on, K from 1 to {most}");
        let root = "--root R draws a tree, and `panjerov preview` tells the roots";
        let refused = |graph: &Graph, told: String| assert_eq!(Part::of(graph, Wanted::Whole), Err(told));
        refused(&nodes(301), format!("2 inputs, 301 nodes, 1 output {most}; {}; {root}", output(1)));
        let wires = graph(300, &[], &[2; 301]);
        refused(&wires, format!("300 inputs, 0 nodes, 301 outputs {most}; {}", output(301)));
        let unread = graph(1, &[2, 2, 2].repeat(301), &[]);
        refused(&unread, format!("1 input, 301 nodes, 0 outputs {most}; {root}"));
    }
}
