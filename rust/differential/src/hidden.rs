//! Hidden majorities: graphs that have some, majority calls at their nodes and the finder, by all three implementations.

use std::sync::atomic::{AtomicU64, Ordering};

use crate::cases::{lent, Case, Step};
use crate::exports::{owned, packed};
use crate::lists::{differ, plain_step};
use crate::plain;
use crate::raw;
use crate::tables::wired;
use crate::timing::families::{FAMILIES, HARD};
use reference::buried::buried;
use reference::calls::{Answer, Call};
use reference::entries;
use reference::evaluation::evaluate;
use reference::find::{is_plain, near, triples};
use reference::generate::with_locks;
use reference::graph::{Graph, MARK};
use reference::majority::Majority;
use reference::packed::{unpack, Packed};
use reference::random::Random;

/// Answers of majority calls by number, and nodes that the finder made majorities and that it dropped.
static MET: [AtomicU64; 5] = [const { AtomicU64::new(0) }; 5];

fn note(at: usize, many: u64) {
    MET[at].fetch_add(many, Ordering::Relaxed);
}

/// Whether each was met.
pub fn all_met() -> Result<(), String> {
    let [made, not, uncovered, found, dropped] = MET.each_ref().map(|count| count.load(Ordering::Relaxed));
    println!("majority calls that made one: {made}, none: {not}, not covered: {uncovered}; finders made {found} and dropped {dropped} nodes");
    match [made, not, uncovered, found, dropped].contains(&0) {
        true => Err("FAILED: no majority call gave one of its answers, or no finder made or dropped a node".into()),
        false => Ok(()),
    }
}

/// A graph of ANDs mostly, with locks.
pub fn random_buried(random: &mut Random, most_nodes: u32) -> Graph {
    let nodes = random.between(0, most_nodes);
    buried(random, 5, nodes, 8)
}

/// Three indices near a node where there are as many, and else any that rise.
fn any_three(random: &mut Random, g: &Graph, node: u32) -> [u32; 3] {
    let all = if g.is_node(node) { triples(&near(g, node)) } else { vec![] };
    if all.is_empty() || random.one_in(6) {
        let first = random.below(node.min(40) + 2);
        let second = first + random.below(4);
        return [first, second, second + random.below(4)];
    }
    all[random.below(all.len() as u32) as usize]
}

/// Mostly at a node with indices near it; else at none, or with a triple that does not rise.
pub fn random_majority(random: &mut Random, g: &Graph) -> Call {
    let end = g.inputs + g.nodes;
    let node = match random.below(16) {
        0 => random.below(end + 3),
        1 => MARK - random.below(2),
        _ if g.nodes == 0 => end,
        _ => random.between(g.inputs + 1, end),
    };
    let mut three = any_three(random, g, node);
    match random.below(16) {
        0 => three.swap(0, 1),
        1 => three.swap(1, 2),
        2 => three[2] = [node, node.wrapping_add(1), MARK][random.below(3) as usize],
        3 => three[0] = 0,
        4 => three[1] = three[0],
        _ => {}
    }
    Call::Majority { node, three }
}

/// A call at each node and some more, the finder last, each for the graph as it is; the scratch a word too short at times.
pub fn random_case(seed: u64, most_nodes: u32) -> Case {
    let mut random = Random::new(seed);
    let graph = random_buried(&mut random, most_nodes);
    let mut calls: Vec<Call> = (0..graph.nodes + 4).map(|_| random_majority(&mut random, &graph)).collect();
    calls.extend([Call::Find, Call::Find]);
    let spare = |random: &mut Random| if random.one_in(8) { -1 } else { random.below(3) as i64 };
    let steps = calls.into_iter().map(|call| Step { call, spare: spare(&mut random) }).collect();
    Case::new(graph, steps, seed)
}

pub fn plain_majority(g: &mut Packed, node: u32, three: [u32; 3], scratch: usize) -> Answer {
    match plain::truth::majority(&mut wired(g), node, three, scratch) {
        Ok(0) => Answer::Majority(Majority::Made),
        Ok(1) => Answer::Majority(Majority::Not),
        Ok(_) => Answer::Majority(Majority::NotCovered),
        Err(number) => Answer::Refused(number),
    }
}

/// The new N becomes the graph's.
pub fn plain_find(g: &mut Packed, scratch: usize) -> Answer {
    match plain::find::find(&mut wired(g), scratch) {
        Ok(nodes) => {
            g.nodes = nodes;
            Answer::Found(nodes)
        }
        Err(number) => Answer::Refused(number),
    }
}

/// Each call by the plain implementation, on the graph as it is, held to exhaustion.
pub fn check_plain(case: &Case) -> Result<(), String> {
    let before = case.lent();
    for step in &case.steps {
        let (mut got, mut due) = (before.clone(), before.clone());
        let (call, scratch) = (&step.call, step.scratch(&case.graph));
        let answer = plain_step(&mut got, call, scratch);
        differ(&format!("plain: {call:?}"), &answer, &entries::step(&mut due, call, scratch))?;
        differ(&format!("plain: the graph after {call:?}"), &got, &due)?;
    }
    Ok(())
}

/// What the answer was, and how many nodes the finder made majorities and dropped.
fn note_answer(before: &Packed, after: &Packed, answer: Answer) {
    let plain = |p: &Packed| {
        let g = unpack(p);
        g.node_indices().filter(|&node| is_plain(&g, node)).count() as u64
    };
    match answer {
        Answer::Majority(answer) => note(answer.number() as usize, 1),
        Answer::Found(nodes) => {
            note(3, plain(after).saturating_sub(plain(before)));
            note(4, u64::from(before.nodes - nodes));
        }
        _ => {}
    }
}

/// Each call through the C interface, on the graph as it is.
pub fn check_calls(case: &Case) -> Result<(), String> {
    let before = case.lent();
    for step in &case.steps {
        let (mut got, mut due) = (before.clone(), before.clone());
        let (call, scratch) = (&step.call, step.scratch(&case.graph));
        let answer = raw::step(&mut got, call, scratch)?;
        differ(&format!("{call:?}"), &answer, &entries::step(&mut due, call, scratch))?;
        differ(&format!("the graph after {call:?}"), &got, &due)?;
        note_answer(&before, &got, answer);
    }
    check_owned(case)
}

/// The same by the Rust crate: the tables have what the graph has, and what stood behind it.
fn check_owned(case: &Case) -> Result<(), String> {
    let (mut got, mut due) = (owned(&case.lent()), case.lent());
    let nodes = got.find().map_err(|refusal| refusal.to_string())?;
    let before = due.nodes as usize;
    entries::step(&mut due, &Call::Find, 8 * before);
    let after = due.nodes as usize;
    due.node_table.drain(3 * after..3 * before);
    due.node_bits.drain((3 * after).div_ceil(64)..(3 * before).div_ceil(64));
    due.locks.drain(after..before);
    differ("the finder of the Rust crate", &nodes, &due.nodes)?;
    differ("the graph after the finder of the Rust crate", &packed(got), &due)
}

/// Every output's values before and after.
fn check_values(before: &Packed, after: &Packed, seed: u64) -> Result<(), String> {
    let mut random = Random::new(seed);
    let words: Vec<u64> = (0..before.inputs).map(|_| random.word()).collect();
    let values = |p: &Packed| {
        let mut results = vec![0; p.outputs as usize];
        let done = evaluate(&unpack(p), &words, p.nodes as usize, &mut results);
        done.map(|()| results)
    };
    if values(before) != values(after) {
        return Err("the outputs have changed".into());
    }
    Ok(())
}

/// A graph of a family, with no, some or all nodes locked, against the plain implementation.
pub fn check_family(seed: u64) -> Result<u64, String> {
    let mut random = Random::new(seed);
    let all = FAMILIES.len() as u64;
    let (family, nodes) = match seed {
        // As large as the limits allow, and smaller ones.
        _ if seed < all => (&FAMILIES[seed as usize], 100_000),
        _ if seed % (all + 1) == all => (&HARD, 3_000),
        _ => (&FAMILIES[(seed % (all + 1)) as usize], random.between(100, 5_000)),
    };
    let g = family.graph(nodes);
    let g = if seed < all { g } else { with_locks(&mut random, g) };
    let (before, scratch) = (lent(&g, seed + 1), 8 * g.nodes as usize);
    let (mut got, mut due) = (before.clone(), before.clone());
    let what = |wrong: String| format!("{}: {wrong}", family.name);
    let answer = raw::step(&mut got, &Call::Find, scratch).map_err(what)?;
    differ("the finder", &answer, &plain_find(&mut due, scratch)).map_err(what)?;
    if got != due {
        return Err(what("the graph after the finder differs".into()));
    }
    check_values(&before, &got, seed).map_err(what)?;
    Ok(1)
}
