//! Trials: every two moves on every pair of a graph, against both moves made on a copy; and the pair call against its trials.

use std::sync::atomic::{AtomicU64, Ordering};

use crate::cases::Case;
use crate::lists::{differ, random_case};
use crate::raw;
use reference::entries;
use reference::graph::{index_of, Graph};
use reference::moves::{self, moves_at, rows, Saving};
use reference::packed::{set_bit, Packed};
use reference::random::Random;

/// Trials that would save less than nothing; pairs whose node names the other more than once, and those with just one node locked;
/// trials refused for a move.
static LOST: AtomicU64 = AtomicU64::new(0);
static NAMED_TWICE: AtomicU64 = AtomicU64::new(0);
static LOCKED: AtomicU64 = AtomicU64::new(0);
static REFUSED: AtomicU64 = AtomicU64::new(0);

pub fn random_trials(seed: u64) -> Case {
    Case { steps: vec![], ..random_case(seed, 8, 1) }
}

/// The graph of a case as it is lent, at times as one that is refused: an index too large, a bit past the last literal, a lock above 1, a
/// slice too short, a number over its limit.
fn damaged(case: &Case) -> Packed {
    let mut p = case.lent();
    let mut random = Random::new(case.seed);
    let places = 3 * p.nodes as usize;
    match random.below(40) {
        0 => p.node_table.truncate(places.saturating_sub(1)),
        1 => p.outputs = 4_097,
        2 => p.locks.truncate((p.nodes as usize).saturating_sub(1)),
        3 => p.node_bits.clear(),
        4 => p.output_bits.clear(),
        5 if places > 0 => p.locks[random.below(p.nodes) as usize] = random.between(2, 255) as u8,
        6 | 7 if places > 0 => {
            let index = [p.inputs + p.nodes + 1, 0x7fff_ffff, 0x8000_0000][random.below(3) as usize];
            p.node_table[random.below(3 * p.nodes) as usize] = index;
        }
        8 if places > 0 => set_bit(&mut p.node_bits, random.between(3 * p.nodes, 63) as usize),
        9 if p.outputs > 0 => set_bit(&mut p.output_bits, random.between(p.outputs, 63) as usize),
        _ => {}
    }
    p
}

/// One trial, the same from both.
fn same(lent: &Packed, pair: (u32, u32), both: (u32, u32)) -> Result<Result<i64, u32>, String> {
    let got = raw::trial(lent, pair, both)?;
    differ(&format!("the trial at {pair:?} of the moves {both:?}"), &got, &entries::trial(lent, pair, both))?;
    Ok(got)
}

/// Every trial on a pair: the greatest saving with the first moves that give it, and how many trials. Moves that the nodes cannot have are
/// tried too, one past those of the kind: just they are refused.
fn best_of_trials(g: &Graph, lent: &Packed, pair: (u32, u32), named: u32) -> Result<((i64, u32, u32), u64), String> {
    let of_kind = |index: u32| if g.is_node(index) { rows(g, index).len() as u32 } else { 1 };
    let lacks = |index: u32, number: u32| g.is_node(index) && number >= moves_at(g, index).len() as u32;
    let (mut best, mut done) = ((0, 0, 0), 0);
    for (a, k) in (0..=of_kind(named)).flat_map(|a| (0..=of_kind(pair.0)).map(move |k| (a, k))) {
        let told = same(lent, pair, (a, k))?;
        let due = lacks(named, a) || lacks(pair.0, k);
        differ(&format!("whether the moves {:?} are refused", (a, k)), &told.is_err(), &due)?;
        let gain = told.unwrap_or(0);
        REFUSED.fetch_add(u64::from(told.is_err()), Ordering::Relaxed);
        LOST.fetch_add(u64::from(gain < 0), Ordering::Relaxed);
        best = if gain > best.0 { (gain, a, k) } else { best };
        done += 1;
    }
    Ok((best, done))
}

/// The pair call saves the greatest of all trials on the pair, and leaves the graph of the first that does.
fn check_pair(case: &Case, lent: &Packed, node: u32, word: u32) -> Result<u64, String> {
    let g = &case.graph;
    let named = index_of(g.word(node, word as usize - 1));
    let locked = [named, node].map(|index| g.is_node(index) && g.is_locked(index));
    LOCKED.fetch_add(u64::from(locked[0] != locked[1] && g.is_node(named)), Ordering::Relaxed);
    let (best, done) = best_of_trials(g, lent, (node, word), named)?;
    let mut after = lent.clone();
    let saving = raw::pair(&mut after, node, word)?;
    differ("the pair call's saving", &saving.map(Saving::total), &Ok(best.0))?;
    let (mut made, mut due) = (g.clone(), lent.clone());
    for (index, number) in [(named, best.1), (node, best.2)] {
        if g.is_node(index) {
            moves::make(&mut made, index, number as usize);
        }
    }
    due.put(&made);
    differ(&format!("the graph after the moves {:?} by the pair call", (best.1, best.2)), &after, &due)?;
    let naming = (0..g.words_of(node)).filter(|&at| g.is_node(named) && index_of(g.word(node, at)) == named).count();
    NAMED_TWICE.fetch_add(u64::from(naming > 1), Ordering::Relaxed);
    Ok(done)
}

/// Words, nodes and moves that are none, and a graph that may be none.
fn check_odd(case: &Case, g: &Packed) -> Result<u64, String> {
    let mut random = Random::new(case.seed ^ 0x7269);
    for _ in 0..6 {
        let end = g.inputs.saturating_add(g.nodes);
        let node = if random.one_in(3) { u32::MAX - random.below(2) } else { random.below(end.saturating_add(3)) };
        let large = random.one_in(2);
        let number = |random: &mut Random| if large { u32::MAX - random.below(3) } else { random.below(7) };
        let both = (number(&mut random), number(&mut random));
        let _ = same(g, (node, random.below(6)), both)?;
    }
    Ok(6)
}

pub fn check_trials(case: &Case) -> Result<u64, String> {
    let lent = damaged(case);
    let mut done = check_odd(case, &lent)?;
    if entries::count(&lent).is_err() {
        return Ok(done);
    }
    for node in case.graph.node_indices() {
        for word in 1..=case.graph.words_of(node) as u32 {
            done += check_pair(case, &lent, node, word)?;
        }
    }
    Ok(done)
}

/// Whether trials that lose, trials refused for a move, pairs with two edges between them, and pairs with one lock were among the cases.
pub fn all_met() -> Result<(), String> {
    let [lost, twice, locked, refused] =
        [&LOST, &NAMED_TWICE, &LOCKED, &REFUSED].map(|count| count.load(Ordering::Relaxed));
    println!(
        "trials that lose: {lost}; refused for a move: {refused}; pairs whose node names the other more than once: {twice}; \
         with one of both locked: {locked}"
    );
    match (lost, twice, locked, refused) {
        (0, _, _, _) => Err("FAILED: no trial lost anything".into()),
        (_, 0, _, _) => Err("FAILED: no node named the other twice".into()),
        (_, _, 0, _) => Err("FAILED: no pair had one node locked".into()),
        (_, _, _, 0) => Err("FAILED: no trial was refused for a move".into()),
        _ => Ok(()),
    }
}
