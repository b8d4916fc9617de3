//! Graphs as cases: smaller ones, and how they are shown.

use crate::shrink::Shrink;
use reference::calls::Call;
use reference::generate::{graph, with_locks, with_slack, SHAPES};
use reference::graph::{Graph, MARK};
use reference::packed::{pack, Lengths, Packed};
use reference::random::Random;

/// A call, and by how many words its scratch is longer than it needs to be; by how many shorter, if less than 0.
#[derive(Clone, Debug, PartialEq, Eq)]
pub struct Step {
    pub call: Call,
    pub spare: i64,
}

impl Step {
    pub fn scratch(&self, g: &Graph) -> usize {
        (8 * g.nodes as i64 + self.spare).max(0) as usize
    }

    /// The same call once index `gone` is no more.
    fn without(&self, gone: u32) -> Step {
        let lower = |v: u32| if v >= gone && v > 0 { v - 1 } else { v };
        let call = match self.call {
            Call::Node(v) => Call::Node(lower(v)),
            Call::Pair(v, word) => Call::Pair(lower(v), word),
            Call::Tree(v) => Call::Tree(lower(v)),
            Call::Settle => Call::Settle,
            Call::Many { ref list, ref moves } => many_without(list, moves, gone),
            Call::Majority { node, three } => Call::Majority { node: lower(node), three: three.map(lower) },
            Call::Find => Call::Find,
            Call::Resistive(v) => Call::Resistive(lower(v)),
        };
        Step { call, ..*self }
    }

    /// The same call with an entry less, or a move less where there are more than entries.
    fn smaller(&self) -> Vec<Step> {
        let Call::Many { list, moves } = &self.call else { return vec![] };
        let without = |at: usize| {
            let (mut list, mut moves) = (list.clone(), moves.clone());
            if at < list.len() {
                list.remove(at);
            }
            if at < moves.len() {
                moves.remove(at);
            }
            Step { call: Call::Many { list, moves }, ..*self }
        };
        (0..list.len().max(moves.len())).map(without).collect()
    }
}

/// The entries of other nodes, those above the one that is no more lowered.
fn many_without(list: &[u32], moves: &[u8], gone: u32) -> Call {
    let kept = |at: &usize| list.get(*at) != Some(&gone);
    let lower = |v: u32| if v > gone { v - 1 } else { v };
    let places: Vec<usize> = (0..list.len().max(moves.len())).filter(kept).collect();
    Call::Many {
        list: places.iter().filter_map(|&at| list.get(at)).map(|&v| lower(v)).collect(),
        moves: places.iter().filter_map(|&at| moves.get(at)).copied().collect(),
    }
}

/// A graph of literals with a list of calls; what else a check varies, it takes from the seed.
#[derive(Clone, Debug, PartialEq, Eq)]
pub struct Case {
    pub graph: Graph,
    /// Where what is lent behind the graph is taken from: nothing where it is 0.
    pub slack: u64,
    pub steps: Vec<Step>,
    pub seed: u64,
}

/// At most so many words or bytes are lent behind the graph in each slice.
const MOST_SLACK: u32 = 3;

impl Case {
    pub fn new(graph: Graph, steps: Vec<Step>, seed: u64) -> Case {
        Case { graph, slack: seed + 1, steps, seed }
    }

    /// The graph as it is lent.
    pub fn lent(&self) -> Packed {
        lent(&self.graph, self.slack)
    }
}

/// A graph packed, with slack that is taken from a number, and none where it is 0.
pub fn lent(g: &Graph, slack: u64) -> Packed {
    match slack {
        0 => pack(g),
        slack => with_slack(&mut Random::new(slack), pack(g), MOST_SLACK),
    }
}

/// A graph of a random shape with no, some or all nodes locked.
pub fn random_graph(random: &mut Random, most_inputs: u32, most_nodes: u32, most_outputs: u32) -> Graph {
    let shape = SHAPES[random.below(SHAPES.len() as u32) as usize];
    let inputs = random.between(0, most_inputs);
    let nodes = random.between(0, most_nodes);
    let outputs = random.between(0, most_outputs);
    let g = graph(random, shape, inputs, nodes, outputs);
    with_locks(random, g)
}

/// Room for so many nodes and outputs; with a chance of five in so many one slice is a word or a byte too short, and else all are longer.
pub fn lengths_near(random: &mut Random, nodes: usize, outputs: usize, many: u32) -> Lengths {
    let mut lengths = Lengths::of(nodes, outputs);
    let less = |length: &mut usize| *length = length.saturating_sub(1);
    match random.below(many) {
        0 => less(&mut lengths.node_words),
        1 => less(&mut lengths.node_bits),
        2 => less(&mut lengths.output_words),
        3 => less(&mut lengths.output_bits),
        4 => less(&mut lengths.lock_bytes),
        _ => {
            lengths.node_words += 5;
            lengths.node_bits += 1;
            lengths.output_words += 2;
            lengths.output_bits += 2;
            lengths.lock_bytes += 3;
        }
    }
    lengths
}

/// A literal once index `gone` is no more: what named it names `instead`, indices above are one less.
fn renamed(word: u32, gone: u32, instead: u32) -> u32 {
    let index = word / 2;
    if word == MARK || index < gone {
        word
    } else if index == gone {
        instead ^ (word & 1)
    } else {
        word - 2
    }
}

fn rename_all(g: &Graph, gone: u32, instead: u32) -> Graph {
    let rename = |table: &Vec<u32>| table.iter().map(|&word| renamed(word, gone, instead)).collect();
    Graph { node_table: rename(&g.node_table), output_table: rename(&g.output_table), ..g.clone() }
}

/// Without node v, counted from 0; its readers read its first word instead.
fn without_node(g: &Graph, v: u32) -> Graph {
    let at = 3 * v as usize;
    let first = g.node_table[at];
    let mut next = rename_all(g, g.inputs + 1 + v, first);
    next.node_table.drain(at..at + 3);
    next.locks.remove(v as usize);
    next.nodes -= 1;
    next
}

fn without_input(g: &Graph, input: u32) -> Graph {
    let mut next = rename_all(g, input, 0);
    next.inputs -= 1;
    next
}

fn without_output(g: &Graph, output: usize) -> Graph {
    let mut next = g.clone();
    next.output_table.remove(output);
    next.outputs -= 1;
    next
}

/// Smaller graphs, with the index that is no more, if one is.
pub fn smaller_graphs(g: &Graph) -> Vec<(Graph, Option<u32>)> {
    let mut all = Vec::new();
    for v in (0..g.nodes).rev() {
        all.push((without_node(g, v), Some(g.inputs + 1 + v)));
    }
    for input in (1..=g.inputs).rev() {
        all.push((without_input(g, input), Some(input)));
    }
    for output in 0..g.outputs as usize {
        all.push((without_output(g, output), None));
    }
    all.extend(simpler_graphs(g).into_iter().map(|next| (next, None)));
    all
}

/// Graphs with fewer locks, and with lower words.
fn simpler_graphs(g: &Graph) -> Vec<Graph> {
    let mut all = Vec::new();
    let ends = (3 * g.nodes as usize, g.outputs as usize);
    for v in (0..g.nodes as usize).filter(|&v| g.locks[v] != 0) {
        let mut next = g.clone();
        next.locks[v] = 0;
        all.push(next);
    }
    for place in 0..ends.0 + ends.1 {
        let word = if place < ends.0 { g.node_table[place] } else { g.output_table[place - ends.0] };
        for instead in [0, word & !1] {
            if instead < word && word != MARK {
                let mut next = g.clone();
                let slot =
                    if place < ends.0 { &mut next.node_table[place] } else { &mut next.output_table[place - ends.0] };
                *slot = instead;
                all.push(next);
            }
        }
    }
    all
}

pub fn show_graph(g: &Graph) -> String {
    let mut text = format!("I={} N={} O={}:", g.inputs, g.nodes, g.outputs);
    for words in g.node_table.chunks(3) {
        let shown: Vec<String> =
            words.iter().map(|&word| if word == MARK { "mark".into() } else { word.to_string() }).collect();
        text += &format!(" {};", shown.join(" "));
    }
    format!("{text} -> {:?}, locks {:?}", g.output_table, g.locks)
}

impl Shrink for Case {
    fn smaller(&self) -> Vec<Case> {
        let mut all = Vec::new();
        if self.slack != 0 {
            all.push(Case { slack: 0, ..self.clone() });
        }
        for at in 0..self.steps.len() {
            let mut next = self.clone();
            next.steps.remove(at);
            all.push(next);
        }
        for (at, step) in self.steps.iter().enumerate() {
            for smaller in step.smaller() {
                let mut next = self.clone();
                next.steps[at] = smaller;
                all.push(next);
            }
        }
        for (graph, gone) in smaller_graphs(&self.graph) {
            if let Some(gone) = gone {
                let steps = self.steps.iter().map(|step| step.without(gone)).collect();
                all.push(Case { graph: graph.clone(), steps, ..self.clone() });
            }
            all.push(Case { graph, ..self.clone() });
        }
        all
    }

    fn show(&self) -> String {
        let steps: Vec<String> =
            self.steps.iter().map(|step| format!("{:?} with scratch {:+}", step.call, step.spare)).collect();
        let lent = self.lent().lengths();
        format!("{}\nlent: {lent:?}\ncalls: {}\n", show_graph(&self.graph), steps.join(", "))
    }
}
