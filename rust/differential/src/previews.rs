//! Previews, held to the other implementations, and to the tree call on a copy of the graph.

use std::sync::atomic::{AtomicU64, Ordering};

use crate::cases::{lent, random_graph, Case, Step};
use crate::exports::owned;
use crate::lists::differ;
use crate::plain;
use crate::raw;
use crate::savings;
use crate::tables::view;
use reference::calls::{Answer, Call};
use reference::entries;
use reference::fast::Fast;
use reference::generate::{graph, with_locks, Shape};
use reference::graph::{Graph, MARK};
use reference::moves::{self, Saving};
use reference::packed::Packed;
use reference::random::Random;

/// What the bytes hold before a preview.
const CANARY: u8 = 0xee;

/// Previews that move a node of a graph with locks.
static BESIDE_LOCKS: AtomicU64 = AtomicU64::new(0);

/// A tree call at each node and at two indices that are none, the scratch a word too short at times.
pub fn random_case(seed: u64) -> Case {
    let mut random = Random::new(seed);
    let graph = random_graph(&mut random, 6, 9, 4);
    let none = [random.below(graph.inputs + 1), [graph.inputs + graph.nodes + 1, MARK][random.below(2) as usize]];
    let mut steps = Vec::new();
    for root in graph.node_indices().chain(none) {
        let spare = if random.one_in(12) { -1 } else { random.below(3) as i64 };
        steps.push(Step { call: Call::Tree(root), spare });
    }
    Case::new(graph, steps, seed)
}

/// What a preview answers, and the bytes after it.
pub struct Told {
    pub answer: Result<Saving, u32>,
    pub bytes: Vec<u8>,
}

/// One preview by all three, with so many bytes and words of scratch.
pub fn check_one(g: &Packed, root: u32, bytes: usize, scratch: usize) -> Result<Told, String> {
    let what = format!("the preview at {root} with {bytes} bytes and scratch {scratch}");
    let mut due = vec![CANARY; bytes];
    let (mut got, mut plainly) = (due.clone(), due.clone());
    let answer = entries::preview(g, root, scratch, &mut due);
    differ(&what, &raw::preview(g, root, &mut got, scratch)?, &answer)?;
    differ(&format!("the bytes after {what}"), &got, &due)?;
    let plain = plain::preview::preview(&view(g), root, &mut plainly, scratch).map(savings::of);
    differ(&format!("plain: {what}"), &plain, &answer)?;
    differ(&format!("plain: the bytes after {what}"), &plainly, &due)?;
    Ok(Told { answer, bytes: got })
}

/// That no locked node has a move. Where a node is locked and another moves, that is counted.
fn check_locked(g: &Graph, told: &[u8]) -> Result<(), String> {
    let locked = |v: &usize| g.locks[*v] == 1;
    if let Some(v) = (0..told.len()).filter(locked).find(|&v| told[v] != 0) {
        return Err(format!("node {} is locked, and yet has move {}", g.inputs + 1 + v as u32, told[v]));
    }
    let beside = (0..told.len()).any(|v| locked(&v)) && told.iter().any(|&number| number != 0);
    BESIDE_LOCKS.fetch_add(u64::from(beside), Ordering::Relaxed);
    Ok(())
}

/// Whether trees with a locked node moved at others.
pub fn all_met() -> Result<(), String> {
    let beside = BESIDE_LOCKS.load(Ordering::Relaxed);
    println!("previews that move a node of a graph with locks: {beside}");
    match beside {
        0 => Err("FAILED: no preview moved a node of a graph with locks".into()),
        _ => Ok(()),
    }
}

/// That the tree call on a copy answers the same, and ends where the moves lead, made one by one.
fn check_call(case: &Case, root: u32, scratch: usize, answer: Result<Saving, u32>, told: &[u8]) -> Result<(), String> {
    let (g, mut called) = (&case.graph, case.lent());
    let due = raw::step(&mut called, &Call::Tree(root), scratch)?;
    differ(&format!("the preview at {root}"), &answer.map_or_else(Answer::Refused, Answer::Saving), &due)?;
    let (mut moved, mut made) = (g.clone(), case.lent());
    if answer.is_ok() {
        check_locked(g, told)?;
        for (node, &number) in g.node_indices().zip(told) {
            moves::make(&mut moved, node, number as usize);
        }
    }
    made.put(&moved);
    differ(&format!("the graph after the moves previewed at {root}"), &made, &called)
}

/// A small graph: bytes that are enough, that have a tail, and that are too few; the owned call, and the tree call.
pub fn check_preview(case: &Case) -> Result<(), String> {
    let (nodes, g) = (case.graph.nodes as usize, &case.lent());
    for step in &case.steps {
        let Call::Tree(root) = step.call else { continue };
        let scratch = step.scratch(&case.graph);
        for bytes in [nodes.saturating_sub(1), nodes / 2].into_iter().filter(|&bytes| bytes < nodes) {
            differ(&format!("{bytes} bytes"), &check_one(g, root, bytes, scratch)?.answer, &Err(4))?;
        }
        let Told { answer, bytes } = check_one(g, root, nodes + (case.seed % 3) as usize, scratch)?;
        differ("the later bytes", &bytes[nodes..].iter().all(|&byte| byte == CANARY), &true)?;
        check_call(case, root, scratch, answer, &bytes[..nodes])?;
        if step.spare >= 0 {
            let due = answer.map(|saving| (saving, bytes[..nodes].to_vec()));
            let got = owned(g).preview(root).map(|told| (savings::of(told.saving), told.moves));
            let got = got.map_err(reducer::Refusal::number);
            differ(&format!("an owned graph's preview at {root}"), &got, &due)?;
        }
    }
    Ok(())
}

/// How many previews `check_preview` makes through the C interface as it stands.
pub fn previews_of(case: &Case) -> u64 {
    let rooms = match case.graph.nodes {
        0 => 1,
        _ => 3,
    };
    rooms * case.steps.len() as u64
}

/// A tree as high as it has nodes: each names the one before it once, and else inputs and the constant.
fn chain(random: &mut Random, nodes: u32) -> Graph {
    let inputs = 12;
    let mut node_table = Vec::new();
    for node in inputs + 1..=inputs + nodes {
        let mut words = [0; 3].map(|_| random.below(2 * inputs + 2));
        if random.one_in(2) {
            words[2] = MARK;
        }
        words[random.below(2) as usize] = 2 * (node - 1) + random.bit();
        node_table.extend(words);
    }
    let output_table = vec![2 * (inputs + nodes) + random.bit()];
    Graph { inputs, nodes, outputs: 1, node_table, output_table, locks: vec![0; nodes as usize] }
}

/// A graph of hundreds of nodes, its last node the root of a large tree; in two of three some or all are locked.
pub fn deep(seed: u64) -> Graph {
    let mut random = Random::new(seed);
    let nodes = random.between(100, 500);
    let g = match seed % 2 {
        0 => chain(&mut random, nodes),
        _ => graph(&mut random, Shape::Tree, 12, nodes, 3),
    };
    if seed % 3 == 0 {
        g
    } else {
        with_locks(&mut random, g)
    }
}

/// What a preview of a graph that is too large to be shown answers, where all that it must leave is left.
fn check_kept(g: &Packed, root: u32) -> Result<Told, String> {
    let nodes = g.nodes as usize;
    let mut bytes = vec![CANARY; nodes + 1];
    let answer = raw::preview(g, root, &mut bytes, 8 * nodes)?;
    if answer.is_ok() && bytes[nodes] != CANARY {
        return Err(format!("the preview at {root} has changed what it must leave"));
    }
    Ok(Told { answer, bytes })
}

fn check_plain(g: &Packed, root: u32, due: &Told) -> Result<(), String> {
    let mut bytes = vec![CANARY; due.bytes.len()];
    let answer = plain::preview::preview(&view(g), root, &mut bytes, 8 * g.nodes as usize);
    differ(&format!("plain: the preview at {root}"), &answer.map(savings::of), &due.answer)?;
    if bytes != due.bytes {
        return Err(format!("plain: the bytes after the preview at {root}"));
    }
    Ok(())
}

/// The same, held to the fast form of the reference, and the tree call to where the moves lead.
fn check_by_fast(g: &Graph, lent: &Packed, fast: &mut Fast, root: u32) -> Result<(), String> {
    let got = check_kept(lent, root)?;
    let (mut called, mut made) = (lent.clone(), lent.clone());
    let due = raw::step(&mut called, &Call::Tree(root), 8 * g.nodes as usize)?;
    differ(&format!("the preview at {root}"), &got.answer.map_or_else(Answer::Refused, Answer::Saving), &due)?;
    if !fast.is_root(root) {
        differ(&format!("the preview at {root}, which is no root"), &got.answer, &Err(7))?;
        return check_plain(lent, root, &got);
    }
    let (saving, told) = fast.preview(root);
    differ(&format!("the preview at {root}, held to the reference"), &got.answer, &Ok(saving))?;
    if got.bytes[..told.len()] != told {
        return Err(format!("the moves previewed at {root}"));
    }
    check_locked(g, &told)?;
    check_plain(lent, root, &got)?;
    let make = |fast: &mut Fast| g.node_indices().zip(&told).for_each(|(node, &number)| fast.make(node, number.into()));
    make(fast);
    made.put(&fast.g);
    if made != called {
        return Err(format!("the graph after the moves previewed at {root}"));
    }
    // Made once more, each move is taken back.
    make(fast);
    Ok(())
}

/// At the last node, where large trees have their root, at the first, and at some between: how many.
pub fn check_large(g: &Graph, seed: u64) -> Result<u64, String> {
    let mut random = Random::new(seed);
    let (first, last) = (g.inputs + 1, g.inputs + g.nodes);
    let mut indices = vec![first, last];
    indices.extend((0..4).map(|_| random.between(first, last)));
    let (lent, mut fast) = (lent(g, seed + 1), Fast::new(g.clone()));
    for &root in &indices {
        check_by_fast(g, &lent, &mut fast, root)?;
    }
    Ok(indices.len() as u64)
}
