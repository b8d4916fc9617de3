//! Many moves together, held to the other implementations, to single moves in another order, and to tree calls by their previews.

use std::sync::atomic::{AtomicU64, Ordering};

use crate::cases::{lent, random_graph, Case, Step};
use crate::exports::owned;
use crate::lists::{differ, random_many};
use crate::plain;
use crate::raw;
use crate::tables::tables;
use reference::calls::{Answer, Call};
use reference::entries;
use reference::fast::Fast;
use reference::generate::moves_of;
use reference::graph::{index_of, Graph};
use reference::moves::{moves_at, rows};
use reference::packed::Packed;
use reference::random::Random;

/// Lists that lose, that turn an edge twice, and that have a locked node with move 0 beside one that moves.
static LOST: AtomicU64 = AtomicU64::new(0);
static TWICE: AtomicU64 = AtomicU64::new(0);
static BESIDE_LOCKS: AtomicU64 = AtomicU64::new(0);

/// A graph with some lists of moves, each for the graph as it is.
pub fn random_case(seed: u64) -> Case {
    let mut random = Random::new(seed);
    let graph = random_graph(&mut random, 6, 9, 5);
    let steps = (0..4).map(|_| Step { call: random_many(&mut random, &graph), spare: 0 }).collect();
    Case::new(graph, steps, seed)
}

fn by_reference(g: &mut Packed, list: &[u32], moves: &[u8]) -> Result<Result<i64, u32>, String> {
    let call = Call::Many { list: list.to_vec(), moves: moves.to_vec() };
    match entries::step(g, &call, 0) {
        Answer::Total(saved) => Ok(Ok(saved)),
        Answer::Refused(number) => Ok(Err(number)),
        other => Err(format!("the reference answers many moves by {other:?}")),
    }
}

/// One list by all three: the answer, and after a refusal everything as it was.
pub fn check_one(g: &Packed, list: &[u32], moves: &[u8]) -> Result<Result<i64, u32>, String> {
    let what = || format!("the moves {moves:?} at {list:?}");
    let (mut due, mut got, mut plainly) = (g.clone(), g.clone(), g.clone());
    let answer = by_reference(&mut due, list, moves)?;
    differ(&what(), &raw::many(&mut got, list, moves)?, &answer)?;
    differ(&format!("the graph after {}", what()), &got, &due)?;
    differ(&format!("plain: {}", what()), &plain::many::many(&mut tables(&mut plainly), list, moves), &answer)?;
    differ(&format!("plain: the graph after {}", what()), &plainly, &due)?;
    if answer.is_err() {
        differ(&format!("the graph after a refusal of {}", what()), &got, g)?;
    }
    Ok(answer)
}

/// Whether the moves turn an edge twice: a word turned by its own node's move that names a node whose readers are turned.
fn turns_twice(g: &Graph, list: &[u32], moves: &[u8]) -> bool {
    let row = |node: u32| list.binary_search(&node).ok().map(|at| &rows(g, node)[moves[at] as usize]);
    let twice = |node: u32, word: usize| {
        let named = row(index_of(g.word(node, word)));
        named.is_some_and(|row| row.readers) && row(node).is_some_and(|row| row.words[word])
    };
    list.iter().any(|&node| (0..g.words_of(node)).any(|word| twice(node, word)))
}

fn note(g: &Graph, list: &[u32], moves: &[u8], saved: i64) {
    let locked = list.iter().any(|&node| g.is_locked(node)) && moves.iter().any(|&number| number != 0);
    for (counted, met) in [(&LOST, saved < 0), (&TWICE, turns_twice(g, list, moves)), (&BESIDE_LOCKS, locked)] {
        counted.fetch_add(u64::from(met), Ordering::Relaxed);
    }
}

/// Whether such lists were among the cases.
pub fn all_met() -> Result<(), String> {
    let [lost, twice, beside] = [&LOST, &TWICE, &BESIDE_LOCKS].map(|count| count.load(Ordering::Relaxed));
    println!("lists of moves that lose: {lost}; that turn an edge twice: {twice}; with a locked node beside one that moves: {beside}");
    match [lost, twice, beside].contains(&0) {
        true => Err("FAILED: no list of moves lost, turned an edge twice, or had a locked node".into()),
        false => Ok(()),
    }
}

fn shuffled(random: &mut Random, length: usize) -> Vec<usize> {
    let mut order: Vec<usize> = (0..length).collect();
    for at in (1..length).rev() {
        order.swap(at, random.below(at as u32 + 1) as usize);
    }
    order
}

/// Each move by itself, in some order: they end in the same graph and save as much together.
fn check_order(g: &Packed, list: &[u32], moves: &[u8], saved: i64, random: &mut Random) -> Result<(), String> {
    let (mut whole, mut single, mut sum) = (g.clone(), g.clone(), 0);
    differ("the saving", &raw::many(&mut whole, list, moves)?, &Ok(saved))?;
    let order = shuffled(random, list.len());
    for &at in &order {
        let one = raw::many(&mut single, &list[at..=at], &moves[at..=at])?;
        sum += one.map_err(|number| format!("entry {at} by itself is refused by {number}"))?;
    }
    differ(&format!("the graph after the entries in the order {order:?}"), &single, &whole)?;
    differ("the sum of their savings", &sum, &saved)
}

/// Each list of a case: by all three, by an owned graph, and entry by entry.
pub fn check_many(case: &Case) -> Result<(), String> {
    let g = &case.lent();
    let mut random = Random::new(case.seed);
    for step in &case.steps {
        let Call::Many { list, moves } = &step.call else { continue };
        let answer = check_one(g, list, moves)?;
        let mut mine = owned(g);
        differ("an owned graph", &mine.many(list, moves).map_err(reducer::Refusal::number), &answer)?;
        if let Ok(saved) = answer {
            note(&case.graph, list, &moves[..list.len()], saved);
            check_order(g, list, moves, saved, &mut random)?;
        }
    }
    Ok(())
}

/// The bytes of each root's preview, with all nodes as the list, and with the nodes that move alone: the tree call's graph and saving.
/// How many roots there were.
pub fn check_previews(case: &Case) -> Result<u64, String> {
    let g = case.lent();
    let (nodes, scratch) = (g.nodes as usize, 8 * g.nodes as usize);
    let all: Vec<u32> = case.graph.node_indices().collect();
    let mut done = 0;
    for &root in &all {
        let (mut called, mut made, mut bytes) = (g.clone(), g.clone(), vec![0xee; nodes]);
        let Ok(told) = raw::preview(&g, root, &mut bytes, scratch)? else { continue };
        differ("the saving", &raw::many(&mut made, &all, &bytes)?, &Ok(told.total()))?;
        differ("the tree call", &raw::tree(&mut called, root, scratch)?, &Ok(told))?;
        differ(&format!("the graph after the moves previewed at {root}"), &made, &called)?;
        let moving: Vec<usize> = (0..nodes).filter(|&v| bytes[v] != 0).collect();
        let (list, moves): (Vec<u32>, Vec<u8>) = moving.iter().map(|&v| (all[v], bytes[v])).unzip();
        let mut made = g.clone();
        differ("the saving of those that move", &raw::many(&mut made, &list, &moves)?, &Ok(told.total()))?;
        differ(&format!("the graph after those that move at {root}"), &made, &called)?;
        done += 1;
    }
    Ok(done)
}

/// The same of a graph with no call of its own.
pub fn check_previewed(case: &Case) -> Result<(), String> {
    check_previews(case).map(|_| ())
}

/// On a graph that is too large to be shown, by all three.
fn check_large_list(g: &Graph, lent: &Packed, list: &[u32], moves: &[u8]) -> Result<(), String> {
    let what = format!("{} moves at {} nodes", moves.len(), list.len());
    let (mut got, mut plainly, mut fast) = (lent.clone(), lent.clone(), Fast::new(g.clone()));
    let due = Ok(fast.many(list, moves));
    differ(&what, &raw::many(&mut got, list, moves)?, &due)?;
    differ(&format!("plain: {what}"), &plain::many::many(&mut tables(&mut plainly), list, moves), &due)?;
    let mut made = lent.clone();
    made.put(&fast.g);
    if got != made || plainly != made {
        return Err(format!("the graph after {what}"));
    }
    Ok(())
}

/// Lists whose last entry alone is at fault, or the one that a fault of the last comes after: nothing has changed.
fn check_large_faults(g: &Graph, lent: &Packed, list: &[u32], moves: &[u8]) -> Result<u64, String> {
    let Some(&last) = list.last() else { return Ok(0) };
    let mut faults = vec![(7, g.inputs + g.nodes + 1, 9), (7, g.inputs, 0), (15, last, 4)];
    if list.len() > 1 {
        faults.extend([(14, list[list.len() - 2], 9), (14, list[0], 0)]);
    }
    if g.is_locked(last) {
        faults.push((16, last, 1));
    }
    for &(due, node, number) in &faults {
        let (mut list, mut moves, mut got) = (list.to_vec(), moves.to_vec(), lent.clone());
        list.pop();
        moves.pop();
        list.push(node);
        moves.push(number);
        differ("a fault of the last entry", &raw::many(&mut got, &list, &moves)?, &Err(due))?;
        moves.pop();
        differ("a move too few", &raw::many(&mut got, &list, &moves)?, &Err(4))?;
    }
    Ok(2 * faults.len() as u64)
}

/// All nodes listed, some, none, the last alone, and all with move 0; and such lists at fault in their last entry. How many lists.
pub fn check_large(g: &Graph, seed: u64) -> Result<u64, String> {
    let mut random = Random::new(seed);
    let all = moves_of(&mut random, g, 1);
    let mut lists = vec![(vec![], vec![]), (all.0.clone(), vec![0; all.0.len()])];
    lists.extend([1, 2, 3, 100].map(|share| moves_of(&mut random, g, share)));
    if let Some(last) = g.node_indices().next_back() {
        lists.push((vec![last], vec![moves_at(g, last).len() as u8 - 1]));
    }
    // Every node moves that may.
    lists.push((all.0.clone(), all.0.iter().map(|&node| moves_at(g, node).len() as u8 - 1).collect()));
    let lent = lent(g, seed + 1);
    for (list, moves) in &lists {
        check_large_list(g, &lent, list, moves)?;
    }
    Ok(lists.len() as u64 + check_large_faults(g, &lent, &all.0, &all.1)?)
}
