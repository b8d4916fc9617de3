//! Savings in their two parts: settling's sums, held to its calls made one by one through the C interface, and how often
//! a part was below 0.

use std::sync::atomic::{AtomicU64, Ordering};

use crate::cases::Case;
use crate::lists::differ;
use crate::raw;
use reference::graph::Graph;
use reference::moves::Saving;
use reference::packed::Packed;

/// Calls that lost among the words of their own nodes, and among all other edges.
static LOST: [AtomicU64; 2] = [const { AtomicU64::new(0) }; 2];
/// Settlings with a sum below 0, and those with a call that loses in a part and no such sum.
static SUMS_LOST: [AtomicU64; 2] = [const { AtomicU64::new(0) }; 2];

/// A saving of the crate `reducer`, as the crate `reference` has it.
pub fn of(saving: reducer::Saving) -> Saving {
    Saving { own: saving.own, others: saving.others }
}

fn count(counts: &[AtomicU64; 2], parts: [bool; 2]) {
    for (counted, part) in counts.iter().zip(parts) {
        counted.fetch_add(u64::from(part), Ordering::Relaxed);
    }
}

/// Counts a call's saving.
pub fn note(saving: Saving) {
    count(&LOST, [saving.own < 0, saving.others < 0]);
}

/// What the calls of a round save, each made by itself. The wiring is that of the graph of literals.
fn one_round(g: &Graph, lent: &mut Packed) -> Result<Vec<Saving>, String> {
    let mut all = Vec::new();
    for node in g.node_indices() {
        match raw::tree(lent, node, 8 * g.nodes as usize)? {
            Err(7) => {}
            answer => all.push(answer),
        }
    }
    for node in g.node_indices() {
        all.push(raw::node(lent, node)?);
    }
    for node in g.node_indices() {
        for word in 1..=g.words_of(node) as u32 {
            all.push(raw::pair(lent, node, word)?);
        }
    }
    all.into_iter().map(|answer| answer.map_err(|number| format!("a call of a round is refused by {number}"))).collect()
}

/// Settling, and as many rounds of single calls: the same graph and sums, and no call of the last round saves in either part.
pub fn check_sums(case: &Case) -> Result<(), String> {
    let (mut settled, mut single) = (case.lent(), case.lent());
    let answer = raw::settle(&mut settled, 8 * case.graph.nodes as usize)?;
    let told = answer.map_err(|number| format!("settling is refused by {number}"))?;
    let (mut sums, mut lost) = (Saving::default(), false);
    for round in 1..=told.rounds {
        for saving in one_round(&case.graph, &mut single)? {
            sums += saving;
            lost |= saving.own < 0 || saving.others < 0;
            let nothing = saving == Saving::default();
            differ("a saving of the last round", &(nothing || round < told.rounds), &true)?;
        }
    }
    differ("the sums of settling", &(told.own, told.others), &(sums.own, sums.others))?;
    differ("the sum of both", &sums.total(), &(i64::from(told.before) - i64::from(told.after)))?;
    differ("the settled graph", &settled, &single)?;
    let shown = sums.own < 0 || sums.others < 0;
    count(&SUMS_LOST, [shown, lost && !shown]);
    Ok(())
}

/// Whether savings with a part below 0 were among the cases, and sums of such.
pub fn all_met() -> Result<(), String> {
    let [own, others] = LOST.each_ref().map(|count| count.load(Ordering::Relaxed));
    let [shown, hidden] = SUMS_LOST.each_ref().map(|count| count.load(Ordering::Relaxed));
    println!("calls that lose among their own nodes' words: {own}; among other edges: {others}");
    println!("settlings with a sum below 0: {shown}; with a call that loses, and no such sum: {hidden}");
    match [own, others, shown, hidden].contains(&0) {
        true => Err("FAILED: no call, or no settling, lost in a part".into()),
        false => Ok(()),
    }
}
