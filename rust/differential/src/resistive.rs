//! Trees for resistive memory, by all three implementations and the Rust crate.

use std::sync::atomic::{AtomicU64, Ordering};

use crate::cases::{lent, random_graph, Case, Step};
use crate::exports::{owned, packed};
use crate::lists::{differ, plain_step};
use crate::raw;
use crate::savings;
use reference::calls::{Answer, Call};
use reference::entries;
use reference::evaluation::evaluate;
use reference::generate::{graph, with_locks, Shape};
use reference::graph::{Graph, MARK};
use reference::packed::{unpack, Packed};
use reference::random::Random;
use reference::resistive::singles;

/// Calls after which more majorities have just one complemented input, of these calls those on a graph with locks, and calls that lose C.
static MET: [AtomicU64; 3] = [const { AtomicU64::new(0) }; 3];

/// Whether each was met.
pub fn all_met() -> Result<(), String> {
    let [more, beside, lost] = MET.each_ref().map(|count| count.load(Ordering::Relaxed));
    println!("resistive calls that leave more majorities with one complemented input: {more}, beside locks: {beside}; that lose: {lost}");
    match [more, beside, lost].contains(&0) {
        true => Err("FAILED: no resistive call left more such majorities, or none beside locks, or none lost".into()),
        false => Ok(()),
    }
}

/// A call at each node and at two indices that are none, the scratch a word too short at times. Mostly on graphs of tall trees.
pub fn random_case(seed: u64, most_nodes: u32) -> Case {
    let mut random = Random::new(seed);
    let graph = match random.below(3) {
        0 => random_graph(&mut random, 6, most_nodes, 4),
        at => {
            let nodes = random.between(1, most_nodes);
            let g = graph(&mut random, [Shape::Tree, Shape::Chain][at as usize - 1], 4, nodes, 3);
            with_locks(&mut random, g)
        }
    };
    let none = [random.below(graph.inputs + 1), [graph.inputs + graph.nodes + 1, MARK][random.below(2) as usize]];
    let spare = |random: &mut Random| if random.one_in(12) { -1 } else { random.below(3) as i64 };
    let roots = graph.node_indices().chain(none);
    let steps = roots.map(|root| Step { call: Call::Resistive(root), spare: spare(&mut random) }).collect();
    Case::new(graph, steps, seed)
}

/// Counts what a call has done.
fn note(before: &Packed, after: &Packed, answer: Answer) {
    let Answer::Saving(saving) = answer else { return };
    let of = |p: &Packed| {
        let g = unpack(p);
        let nodes: Vec<u32> = g.node_indices().collect();
        singles(&g, &nodes)
    };
    let more = of(after) > of(before);
    let beside = more && before.locks[..before.nodes as usize].contains(&1);
    for (counted, part) in MET.iter().zip([more, beside, saving.own < 0]) {
        counted.fetch_add(u64::from(part), Ordering::Relaxed);
    }
}

/// The same by the Rust crate, whose scratch is as long as it must be.
fn check_owned(case: &Case, step: &Step, root: u32, due: (Answer, &Packed)) -> Result<(), String> {
    if step.spare < 0 {
        return Ok(());
    }
    let mut got = owned(&case.lent());
    let told = got.resistive_call(root).map(savings::of);
    let answer = told.map_or_else(|refusal| Answer::Refused(refusal.number()), Answer::Saving);
    differ(&format!("an owned graph's resistive call at {root}"), &answer, &due.0)?;
    differ(&format!("the owned graph after it, at {root}"), &&packed(got), &due.1)
}

/// Each call through the C interface and by the Rust crate, on the graph as it is.
pub fn check_calls(case: &Case) -> Result<(), String> {
    let before = case.lent();
    for step in &case.steps {
        let Call::Resistive(root) = step.call else { continue };
        let (mut got, mut due) = (before.clone(), before.clone());
        let scratch = step.scratch(&case.graph);
        let answer = raw::step(&mut got, &step.call, scratch)?;
        differ(&format!("the resistive call at {root}"), &answer, &entries::step(&mut due, &step.call, scratch))?;
        differ(&format!("the graph after it, at {root}"), &got, &due)?;
        note(&before, &got, answer);
        check_owned(case, step, root, (answer, &got))?;
    }
    Ok(())
}

/// That every output has the values that it had.
fn check_values(before: &Packed, after: &Packed, seed: u64) -> Result<(), String> {
    let mut random = Random::new(seed);
    let words: Vec<u64> = (0..before.inputs).map(|_| random.word()).collect();
    let values = |p: &Packed| {
        let mut results = vec![0; p.outputs as usize];
        evaluate(&unpack(p), &words, p.nodes as usize, &mut results).map(|()| results)
    };
    if values(before) != values(after) {
        return Err("the outputs have changed".into());
    }
    Ok(())
}

/// Calls one after the other at the last node, where large trees have their root, at the first, and at some between, against the plain
/// implementation: how many.
pub fn check_large(g: &Graph, seed: u64) -> Result<u64, String> {
    let mut random = Random::new(seed);
    let (first, last) = (g.inputs + 1, g.inputs + g.nodes);
    let mut roots = vec![first, last];
    roots.extend((0..4).map(|_| random.between(first, last)));
    let (before, scratch) = (lent(g, seed + 1), 8 * g.nodes as usize);
    let (mut got, mut due) = (before.clone(), before.clone());
    for &root in &roots {
        let call = Call::Resistive(root);
        let answer = raw::step(&mut got, &call, scratch)?;
        differ(&format!("the resistive call at {root}"), &answer, &plain_step(&mut due, &call, scratch))?;
        if got != due {
            return Err(format!("the graph after the resistive call at {root} differs"));
        }
    }
    check_values(&before, &got, seed)?;
    Ok(roots.len() as u64)
}
