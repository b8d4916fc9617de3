//! Lists of calls on one graph, and single calls of every entry, against the other implementations.

use crate::cases::{random_graph, Case, Step};
use crate::hidden::{plain_find, plain_majority, random_buried, random_majority};
use crate::plain;
use crate::raw;
use crate::savings;
use crate::tables::{tables, view};
use reference::calls::{Answer, Call};
use reference::entries;
use reference::fast::Fast;
use reference::generate::{graph, moves_of, with_locks, SHAPES};
use reference::graph::Graph;
use reference::packed::{words_for, Packed};
use reference::random::Random;
use reference::settling::Settled;

/// One thing of a list of moves made wrong, at times into what is still right.
fn damage(random: &mut Random, g: &Graph, list: &mut Vec<u32>, moves: &mut Vec<u8>) {
    let at = random.below(list.len() as u32) as usize;
    let end = g.inputs + g.nodes;
    match random.below(9) {
        0 => list[at] = [0, g.inputs, end + 1, u32::MAX][random.below(4) as usize],
        1 => list[at] = random.below(end + 2),
        2 => list.swap(at, random.below(g.nodes) as usize % at.max(1)),
        3 => {
            list.insert(at, list[at]);
            moves.insert(at.min(moves.len()), 0);
        }
        4 => moves.truncate(at),
        5 => moves.extend((0..random.between(1, 3)).map(|_| random.below(256) as u8)),
        6 if at < moves.len() => moves[at] = random.between(4, 255) as u8,
        _ if at < moves.len() => moves[at] = random.between(1, 4) as u8,
        _ => {}
    }
}

/// A list of moves, mostly one that is accepted; else with faults.
pub fn random_many(random: &mut Random, g: &Graph) -> Call {
    let share = random.between(1, 3);
    let (mut list, mut moves) = moves_of(random, g, share);
    if !list.is_empty() && random.one_in(3) {
        for _ in 0..random.between(1, 3) {
            damage(random, g, &mut list, &mut moves);
        }
    }
    Call::Many { list, moves }
}

/// A call that is mostly sensible.
pub fn random_call(random: &mut Random, g: &Graph) -> Call {
    let end = g.inputs + g.nodes;
    let node = match random.below(12) {
        0 => random.below(end + 3),
        1 => u32::MAX - random.below(2),
        _ if g.nodes == 0 => end,
        _ => random.between(g.inputs + 1, end),
    };
    match random.below(10) {
        0 | 1 => Call::Node(node),
        2 | 3 => Call::Pair(node, if random.one_in(10) { random.below(6) } else { random.between(1, 3) }),
        4 | 5 => Call::Tree(node),
        6 => Call::Resistive(node),
        7 => Call::Settle,
        _ => random_many(random, g),
    }
}

/// A random call, of those that rewire at times, its scratch a word too short at times.
fn random_step(random: &mut Random, g: &Graph) -> Step {
    let spare = if random.one_in(8) { -1 } else { random.below(3) as i64 };
    let call = match random.below(8) {
        0 => random_majority(random, g),
        1 => Call::Find,
        _ => random_call(random, g),
    };
    Step { call, spare }
}

pub fn random_case(seed: u64, most_nodes: u32, most_calls: u32) -> Case {
    let mut random = Random::new(seed);
    let graph = match random.below(3) {
        0 => random_buried(&mut random, most_nodes),
        _ => random_graph(&mut random, 6, most_nodes, 4),
    };
    let count = random.between(1, most_calls);
    let steps = (0..count).map(|_| random_step(&mut random, &graph)).collect();
    Case::new(graph, steps, seed)
}

/// The same on a graph whose bits take several words, of nodes and of outputs.
pub fn longer_case(seed: u64) -> Case {
    let mut random = Random::new(seed);
    let (shape, nodes) = (SHAPES[(seed % 8) as usize], random.between(20, 70));
    let outputs = random.between(50, 140);
    let graph = graph(&mut random, shape, 8, nodes, outputs);
    let graph = with_locks(&mut random, graph);
    let steps = (0..6).map(|_| random_step(&mut random, &graph)).collect();
    Case::new(graph, steps, seed)
}

pub fn differ<T: PartialEq + std::fmt::Debug + ?Sized>(what: &str, got: &T, due: &T) -> Result<(), String> {
    if got == due {
        Ok(())
    } else {
        Err(format!("{what}: {got:?}, and not {due:?}"))
    }
}

/// The list, answer by answer and table by table.
pub fn check_list(case: &Case) -> Result<(), String> {
    let mut due = case.lent();
    let mut got = due.clone();
    for (at, step) in case.steps.iter().enumerate() {
        let (call, scratch) = (&step.call, step.scratch(&case.graph));
        let answer = raw::step(&mut got, call, scratch)?;
        differ(&format!("call {at}, {call:?}"), &answer, &entries::step(&mut due, call, scratch))?;
        differ(&format!("the graph after call {at}, {call:?}"), &got, &due)?;
    }
    Ok(())
}

/// What the entries that rewrite nothing answer, before the list and after it; the outputs must not have changed.
pub fn check_readings(case: &Case) -> Result<(), String> {
    let mut random = Random::new(case.seed);
    let words: Vec<u64> = (0..case.graph.inputs).map(|_| random.word()).collect();
    let mut g = case.lent();
    let before = check_reading(&g, &words)?;
    for step in &case.steps {
        raw::step(&mut g, &step.call, step.scratch(&case.graph))?;
    }
    let after = check_reading(&g, &words)?;
    differ("the outputs after the list", &after, &before)
}

fn check_reading(g: &Packed, words: &[u64]) -> Result<Vec<u64>, String> {
    differ("the count", &raw::count(g)?, &entries::count(g))?;
    differ("plain: the count", &plain::complemented_edges(&view(g)), &entries::count(g))?;
    let (outputs, nodes) = (g.outputs as usize, g.nodes as usize);
    let mut due = vec![7; outputs + 2];
    let (mut results, mut plainly) = (due.clone(), due.clone());
    let number = entries::evaluate(g, words, nodes, &mut due);
    differ("evaluation", &raw::evaluate(g, words, nodes, &mut results)?, &number)?;
    differ("results", &results, &due)?;
    differ(
        "plain: evaluation",
        &plain::evaluate::evaluate(&view(g), words, &mut vec![3; nodes], &mut plainly),
        &number,
    )?;
    differ("plain: results", &plainly, &due)?;
    check_round_trip(g)?;
    Ok(results)
}

/// Written by all three, and loaded over what is no graph, every bit being set.
fn check_round_trip(g: &Packed) -> Result<(), String> {
    let mut due = vec![0xee; 18 + 22 * g.nodes as usize + 7 * g.outputs as usize + 3];
    let (mut buffer, mut plainly) = (due.clone(), due.clone());
    let length = entries::write(g, &mut due);
    differ("writing", &raw::write(g, &mut buffer)?, &length)?;
    differ("the file", &buffer, &due)?;
    differ("plain: writing", &plain::file::write(&view(g), &mut plainly), &length)?;
    differ("plain: the file", &plainly, &due)?;
    let length = length.expect("an admitted graph and a long buffer");
    let mut lent = g.clone();
    let (places, outputs) = (3 * g.nodes as usize, g.outputs as usize);
    lent.node_table[..places].fill(77);
    lent.node_bits[..words_for(places)].fill(u64::MAX);
    lent.output_table[..outputs].fill(77);
    lent.output_bits[..words_for(outputs)].fill(u64::MAX);
    lent.locks[..g.nodes as usize].fill(77);
    let loaded = raw::load(&buffer[..length], &mut lent)?;
    differ("loading what was written", &loaded, &Ok((g.inputs, g.nodes, g.outputs)))?;
    differ("the tables and locks loaded", &lent, g)
}

fn saving(result: Result<reducer::Saving, u32>) -> Answer {
    result.map_or_else(Answer::Refused, |saving| Answer::Saving(savings::of(saving)))
}

/// One call by the plain implementation.
pub fn plain_step(g: &mut Packed, call: &Call, scratch: usize) -> Answer {
    let t = &mut tables(g);
    match *call {
        Call::Majority { node, three } => plain_majority(g, node, three, scratch),
        Call::Find => plain_find(g, scratch),
        Call::Node(v) => saving(plain::calls::node_call(t, v)),
        Call::Pair(v, word) => saving(plain::calls::pair_call(t, v, word)),
        Call::Tree(root) => saving(plain::sweeps::tree_call(t, root, scratch)),
        Call::Settle => plain::settle::settle(t, scratch).map_or_else(Answer::Refused, |settled| {
            let reducer::Settled { rounds, before, after, own, others } = settled;
            Answer::Settled(Settled { rounds, before, after, own, others })
        }),
        Call::Many { ref list, ref moves } => {
            plain::many::many(t, list, moves).map_or_else(Answer::Refused, Answer::Total)
        }
        Call::Resistive(root) => saving(plain::resistive::resistive_call(t, root, scratch)),
    }
}

/// The tree call by the plain implementation's two programmes, each on a copy.
fn check_both_trees(g: &Packed, root: u32, scratch: usize) -> Result<(), String> {
    let (mut swept, mut kept) = (g.clone(), g.clone());
    let due = plain::sweeps::tree_call(&mut tables(&mut swept), root, scratch);
    differ("plain: the tree call", &plain::tree::tree_call(&mut tables(&mut kept), root, scratch), &due)?;
    differ("plain: the graph after the tree call", &kept, &swept)
}

/// The plain implementation held to the slow one, so that it may stand for it on large graphs.
pub fn check_plain(case: &Case) -> Result<(), String> {
    let mut due = case.lent();
    let mut got = due.clone();
    for (at, step) in case.steps.iter().enumerate() {
        let (call, scratch) = (&step.call, step.scratch(&case.graph));
        if let Call::Tree(root) = *call {
            check_both_trees(&got, root, scratch)?;
        }
        let answer = plain_step(&mut got, call, scratch);
        differ(&format!("plain: call {at}, {call:?}"), &answer, &entries::step(&mut due, call, scratch))?;
        differ(&format!("plain: the graph after call {at}"), &got, &due)?;
    }
    Ok(())
}

/// Large graphs: every call against the plain implementation.
pub fn check_large(case: &Case) -> Result<(), String> {
    let mut due = case.lent();
    let mut got = due.clone();
    for (at, step) in case.steps.iter().enumerate() {
        let (call, scratch) = (&step.call, step.scratch(&case.graph));
        let answer = raw::step(&mut got, call, scratch)?;
        differ(&format!("call {at}, {call:?}"), &answer, &plain_step(&mut due, call, scratch))?;
        if got != due {
            return Err(format!("the graph after call {at}, {call:?}, differs"));
        }
    }
    let words: Vec<u64> = (0..got.inputs as u64).map(|k| (k + case.seed).wrapping_mul(0x9e37_79b9_7f4a_7c15)).collect();
    let mut results = (vec![0; got.outputs as usize], vec![0; got.outputs as usize]);
    let nodes = got.nodes as usize;
    differ(
        "evaluation",
        &raw::evaluate(&got, &words, nodes, &mut results.0)?,
        &plain::evaluate::evaluate(&view(&got), &words, &mut vec![0; nodes], &mut results.1),
    )?;
    differ("results", &results.0, &results.1)?;
    check_round_trip(&got)
}

/// Settling of graphs of hundreds of nodes, against the other implementation's fast form.
pub fn check_settled(case: &Case) -> Result<(), String> {
    let mut got = case.lent();
    let mut lent = got.clone();
    let answer = raw::step(&mut got, &Call::Settle, 8 * case.graph.nodes as usize)?;
    let mut fast = Fast::new(case.graph.clone());
    let due = fast.settle();
    differ("settling", &answer, &Answer::Settled(due))?;
    lent.put(&fast.g);
    if got != lent {
        return Err("the settled graph differs".into());
    }
    Ok(())
}
