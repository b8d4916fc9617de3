//! Two graphs joined into slices that have room, have more than they need, or lack a word.

use crate::generate::{graph, with_locks, with_slack, SHAPES};
use crate::graph::{Graph, MARK};
use crate::packed::{pack, Lengths, Packed};
use crate::random::Random;
use crate::vectors::case::*;
use crate::vectors::samples::*;

/// Into slices with room for so many nodes and outputs.
fn join(first: Packed, second: Packed, nodes: u32, outputs: u32) -> Case {
    let lent = unfilled(Lengths::of(nodes as usize, outputs as usize));
    Case {
        parts: vec![first, second],
        ..Case::lent(JOIN, lent)
    }
}

/// With just the room that is due.
fn join_of(g: &Graph, h: &Graph) -> Case {
    join(
        pack(g),
        pack(h),
        g.nodes.wrapping_add(h.nodes).min(900),
        h.outputs.min(900),
    )
}

/// Inverters and wires that meet each other and the constant, and two stages of an adder with locks.
fn worked_joins() -> Vec<Case> {
    let wires = |inputs, outputs: &[u32]| of(inputs, &[], outputs);
    let ends: [&[u32]; 4] = [&[2], &[3], &[0, 1], &[3, 2, 1]];
    let mut all = Vec::new();
    for first in [
        wires(1, &[2]),
        wires(1, &[3]),
        wires(0, &[0]),
        wires(0, &[1]),
    ] {
        all.extend(ends.iter().map(|end| join_of(&first, &wires(1, end))));
    }
    let low = [[3, 5, 7], [2, 4, MARK], [14, 6, MARK]];
    let high = [[3, 4, 6], [3, 4, MARK], [12, 6, MARK]];
    let low = of(5, &low, &[12, 8, 10, 16]).locked_at(&[7]);
    let high = of(4, &high, &[8, 14, 10]).locked_at(&[5, 6]);
    all.push(join_of(&low, &high));
    for (nodes, outputs) in [(5, 3), (6, 2), (7, 4), (0, 0)] {
        all.push(join(pack(&low), pack(&high), nodes, outputs));
    }
    all
}

/// Every pair of the worked graphs, whether they meet or not, and graphs at the edges in either place.
fn pairs() -> Vec<Case> {
    let (worked, wire) = (worked(), of(1, &[], &[2]));
    let every = worked
        .iter()
        .flat_map(|g| worked.iter().map(move |h| join_of(g, h)));
    let mut all: Vec<Case> = every.collect();
    for g in locks_at_the_edges() {
        all.push(join_of(&g, &wire));
        all.push(join_of(&wire, &g));
    }
    all
}

pub fn join_cases(random: &mut Random) -> Vec<Case> {
    let mut all = worked_joins();
    all.extend(pairs());
    for at in 0..160 {
        let [inputs, between, outputs] = [4, 6, 5].map(|most| random.below(most + 1));
        let [n, m] = [40, 40].map(|most| random.below(most + 1));
        let g = graph(random, SHAPES[at % 8], inputs, n, between);
        let h = graph(random, SHAPES[at / 8 % 8], between, m, outputs);
        let (mut g, mut h) = (with_locks(random, g), with_locks(random, h));
        match at % 10 {
            0 => g = damaged(random, g),
            5 => h = damaged(random, h),
            _ => {}
        }
        let (p, q) = (
            with_slack(random, pack(&g), 3),
            with_slack(random, pack(&h), 3),
        );
        let room = random.below(3);
        all.push(join(p, q, n + m + room, outputs + room));
    }
    all
}
