//! Exports, and imports of them.

use crate::cases::{lent, random_graph, Case};
use crate::lists::differ;
use crate::plain;
use crate::raw;
use crate::tables::view;
use reference::generate::{graph, Shape};
use reference::graph::{Graph, Room, MARK, MOST_INPUTS, MOST_NODES, MOST_OUTPUTS};
use reference::packed::{pack, Lengths, Packed};
use reference::random::Random;
use reference::{aiger, entries, evaluation};

pub fn random_case(seed: u64) -> Case {
    let mut random = Random::new(seed);
    let most_inputs = [3, 9, 60][random.below(3) as usize];
    let graph = random_graph(&mut random, most_inputs, 9, 5);
    Case::new(graph, vec![], seed)
}

/// One export by all three, with this room.
fn check_room(g: &Packed, scratch: usize, room: usize) -> Result<Result<usize, u32>, String> {
    let mut due = vec![0xee; room];
    let mut got = due.clone();
    let mut plainly = due.clone();
    let number = entries::export(g, scratch, &mut due);
    let what = format!("exporting with scratch {scratch} to {room} bytes");
    differ(&what, &raw::export(g, scratch, &mut got)?, &number)?;
    let plain = plain::aiger::export(&view(g), &mut vec![0; scratch], &mut plainly);
    differ(&format!("plain: {what}"), &plain, &number)?;
    // Texts may be too large to be shown.
    if got != due {
        return Err(format!("the buffer differs after {what}"));
    }
    if plainly != due {
        return Err(format!("plain: the buffer differs after {what}"));
    }
    Ok(number)
}

/// What is lent of a graph, as a graph of the Rust crate.
pub fn owned(g: &Packed) -> reducer::Graph {
    let size = reducer::Size { inputs: g.inputs, nodes: g.nodes, outputs: g.outputs };
    let Packed { node_table, node_bits, output_table, output_bits, locks, .. } = g.clone();
    reducer::Graph { size, node_table, node_bits, output_table, output_bits, locks }
}

/// What a graph of the Rust crate has, as it is lent.
pub fn packed(g: reducer::Graph) -> Packed {
    let reducer::Size { inputs, nodes, outputs } = g.size;
    let reducer::Graph { node_table, node_bits, output_table, output_bits, locks, .. } = g;
    Packed { inputs, nodes, outputs, node_table, node_bits, output_table, output_bits, locks }
}

/// The import of a text where just enough is lent.
fn imported(text: &[u8], gates: usize, outputs: usize) -> Result<Packed, String> {
    let mut lent = raw::unfilled(Lengths::of(gates, outputs));
    let told = raw::import(text, &mut lent)?;
    told.map_err(|number| format!("an export is refused by {number}"))?;
    Ok(lent)
}

/// That an export imports again, is what the reference reads from it, and has the outputs' values.
fn check_import(g: &Graph, text: &[u8], words: &[u64]) -> Result<(), String> {
    let gates: usize = g.node_indices().map(|node| 1 + g.words_of(node)).sum();
    let read = aiger::parse(text, Room::of(gates, g.outputs as usize));
    let again = read.map_err(|number| format!("the reference refuses an export by {number}"))?;
    if imported(text, gates, g.outputs as usize)? != pack(&again) {
        return Err("the import of an export differs".into());
    }
    let values = [g, &again].map(|g| {
        let mut results = vec![0; g.outputs as usize];
        evaluation::evaluate(g, words, g.nodes as usize, &mut results).map(|_| results)
    });
    if values[0] != values[1] {
        return Err("the outputs of an export's import are others".into());
    }
    Ok(())
}

/// A small graph: scratch and buffers of all lengths around, the owned call, and the import.
pub fn check_export(case: &Case) -> Result<(), String> {
    let (g, lent) = (&case.graph, case.lent());
    let text = aiger::text_of(g).into_bytes();
    for scratch in (g.nodes as usize).saturating_sub(1)..=g.nodes as usize + 1 {
        for room in (0..=1).chain(text.len().saturating_sub(2)..=text.len() + 2) {
            let due = match (scratch < g.nodes as usize, room < text.len()) {
                (true, _) => Err(8),
                (_, true) => Err(9),
                _ => Ok(text.len()),
            };
            differ(&format!("scratch {scratch}, {room} bytes"), &check_room(&lent, scratch, room)?, &due)?;
        }
    }
    differ("an owned graph's text", &owned(&lent).export(), &Ok(text.clone()))?;
    let mut random = Random::new(case.seed);
    let words: Vec<u64> = (0..g.inputs).map(|_| random.word()).collect();
    check_import(g, &text, &words)
}

/// What `check_export` does, with buffers of the text's length and one byte less alone.
pub fn check_large(g: &Graph) -> Result<(), String> {
    let text = aiger::text_of(g).into_bytes();
    let (scratch, lent) = (g.nodes as usize, lent(g, 1));
    differ("the room that is enough", &(text.len() <= reducer::text_bytes(owned(&lent).size)), &true)?;
    differ("exporting to its length", &check_room(&lent, scratch, text.len())?, &Ok(text.len()))?;
    differ("exporting to a byte less", &check_room(&lent, scratch, text.len() - 1)?, &Err(9))?;
    let gates: u32 = g.node_indices().map(|node| 1 + g.words_of(node) as u32).sum();
    if gates > MOST_NODES {
        let refused = reducer::Graph::import(&text).map_err(reducer::Refusal::number).map(|_| ());
        return differ("importing more gates than there may be", &refused, &Err(3));
    }
    let words: Vec<u64> = (1..=u64::from(g.inputs)).map(|k| k.wrapping_mul(0x9e37_79b9_7f4a_7c15)).collect();
    check_import(g, &text, &words)
}

/// A graph whose last literals in the text have a digit more than those before: they reach 10 to the power 1 to 5. An output names
/// each of its last indices.
pub fn around_tens(seed: u64) -> Graph {
    let mut random = Random::new(seed);
    let reached = 10u32.pow(1 + (seed % 5) as u32) / 2;
    let inputs = random.between(0, MOST_INPUTS.min(reached + 3));
    let shape = [Shape::Random, Shape::Xor][random.below(2) as usize];
    let six_nodes = if shape == Shape::Xor { 19 } else { 22 };
    let nodes = reached.saturating_sub(inputs) * 6 / six_nodes + random.below(12);
    let mut g = graph(&mut random, shape, inputs, nodes, 0);
    let last = inputs + nodes;
    g.output_table = (last.saturating_sub(300)..=last).map(|index| 2 * index + random.bit()).collect();
    g.outputs = g.output_table.len() as u32;
    g
}

/// Graphs at the limits: the longest text that there is, one of XORs alone, and the most gates that can be imported again.
pub fn at_limits() -> Vec<Graph> {
    let of = |nodes: u32, third: u32, word: &dyn Fn(u32) -> u32| Graph {
        inputs: MOST_INPUTS,
        nodes,
        outputs: MOST_OUTPUTS,
        node_table: (MOST_INPUTS + 1..=MOST_INPUTS + nodes)
            .flat_map(|v| [word(v), word(v), third.max(word(v))])
            .collect(),
        output_table: vec![2 * (MOST_INPUTS + nodes) + 1; MOST_OUTPUTS as usize],
        locks: (0..nodes).map(|v| (v % 3 == 0) as u8).collect(),
    };
    vec![
        of(MOST_NODES, 0, &|v| 2 * v - 1),
        of(MOST_NODES, MARK, &|v| 2 * v - 2),
        of(MOST_NODES / 4, 0, &|v| v),
        of(MOST_NODES / 4 + 1, 0, &|v| v),
    ]
}
