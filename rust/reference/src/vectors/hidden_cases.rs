//! Majority calls and the finder, by themselves and in lists of calls.

use crate::buried::{buried, Build};
use crate::calls::Call;
use crate::entries::step;
use crate::find::{near, triples};
use crate::generate::moves_of;
use crate::graph::{Graph, MARK};
use crate::random::Random;
use crate::vectors::case::*;
use crate::vectors::samples::*;

/// A majority call has its triple for a list.
fn majority(g: &Graph, node: u32, three: [u32; 3], scratch: u32) -> Case {
    Case {
        x: node,
        list: three.to_vec(),
        scratch,
        ..Case::new(MAJORITY, g)
    }
}

fn find(g: &Graph, scratch: u32) -> Case {
    Case {
        scratch,
        ..Case::new(FIND, g)
    }
}

/// The import of the export of one majority, majorities by XORs and as adders have them, one within another, and buffers of one.
fn worked_hidden() -> Vec<Graph> {
    let built = |inputs: u32, build: &dyn Fn(&mut Build) -> Vec<u32>| {
        let mut b = Build::new(inputs);
        let outputs = build(&mut b);
        b.graph(outputs)
    };
    vec![
        built(3, &|b| vec![b.hidden(2, 4, 6)]),
        built(3, &|b| vec![b.hidden_by_xors(3, 4, 7)]),
        built(3, &|b| vec![b.carry(2, 5, 6), 8]),
        built(5, &|b| {
            let inner = b.hidden(3, 4, 6);
            vec![b.hidden(inner, 8, 11)]
        }),
        built(3, &|b| {
            let made = b.majority(2, 4, 6);
            let again = b.majority(made, 1, made);
            vec![b.majority(0, again, again)]
        }),
        built(3, &|b| {
            let half = b.hidden_xor(2, 4);
            vec![b.hidden_xor(half, 6), b.hidden(2, 4, 6)]
        }),
        // Over nodes that are constant, and over an input that is missed.
        of(1, &[[0, 0, 1], [1, 1, 0], [2, 4, 6], [8, 8, 0]], &[11]),
        of(4, &[[2, 4, 6], [10, 8, MARK]], &[12]),
    ]
}

/// Every node with every triple near it, and the finder with each node locked in turn.
fn worked_cases() -> Vec<Case> {
    let mut all = Vec::new();
    for g in worked_hidden() {
        let scratch = 8 * g.nodes;
        for node in g.node_indices() {
            let near = triples(&near(&g, node));
            all.extend(
                near.into_iter()
                    .map(|three| majority(&g, node, three, scratch)),
            );
            all.push(find(&g.clone().locked_at(&[node]), scratch));
        }
        all.push(find(&g, scratch));
        all.push(find(&g, scratch - 1));
    }
    all
}

/// Each way to be refused, and what is nearly refused.
fn refused_cases() -> Vec<Case> {
    let g = &worked_hidden()[0];
    let mut all = Vec::new();
    for node in [0, 3, 4, 6, 7, 8, MARK] {
        for three in [
            [1, 2, 3],
            [0, 1, 2],
            [1, 1, 2],
            [2, 1, 3],
            [1, 3, 3],
            [1, 2, 6],
            [1, 2, 7],
            [4, 5, 6],
            [1, 2, MARK],
            [MARK; 3],
        ] {
            all.push(majority(g, node, three, 32));
            all.push(majority(&g.clone().locked_at(&[7]), node, three, 31));
        }
    }
    for g in at_the_edges().iter().chain(&locks_at_the_edges()) {
        all.push(majority(g, g.inputs.wrapping_add(1), [1, 2, 3], 16));
        all.push(find(g, 8 * g.nodes.min(1_000)));
    }
    all
}

/// Whether the call changes its graph. A list shows no more of a call than that.
pub fn changes(case: &Case) -> bool {
    let call = match (case.op, &case.list[..]) {
        (MAJORITY, &[first, second, third]) => Call::Majority {
            node: case.x,
            three: [first, second, third],
        },
        (RESISTIVE, _) => Call::Resistive(case.x),
        _ => Call::Find,
    };
    let mut g = case.g.clone();
    step(&mut g, &call, case.scratch as usize);
    g != case.g
}

/// Lists of all calls, each majority call with three entries of a list of nodes; and replays that are not made, for a triple that is outside.
pub fn hidden_list_cases(random: &mut Random) -> Vec<Case> {
    let mut all = Vec::new();
    for at in 0..40 {
        let g = match at {
            0..8 => worked_hidden()[at].clone(),
            _ => buried(random, 5, 3 + at as u32 / 4, 5),
        };
        let (list, moves) = moves_of(random, &g, 2);
        let (mut list, end) = (list, g.inputs + g.nodes);
        for node in g.node_indices() {
            list.extend(triples(&near(&g, node)).into_iter().take(2).flatten());
        }
        list.truncate(120);
        let length = list.len() as u32;
        let mut calls = Vec::new();
        for _ in 0..16 {
            let kind = [0, 1, 2, 3, 4, 5, 5, 5, 5, 6][random.below(10) as usize];
            let node = random.between(g.inputs.max(1), end + 1);
            calls.extend(match kind {
                4 => [4, 0, random.below(moves.len() as u32 + 1)],
                5 if length < 3 => [6, 0, 0],
                5 => [5, node, random.below(length - 2)],
                _ => [kind, node, random.between(1, 3)],
            });
        }
        if at % 10 == 9 {
            calls[..3].copy_from_slice(&[5, end, length.saturating_sub(2)]);
        }
        all.push(Case {
            list,
            moves,
            ..list_of(&g, calls, 8 * g.nodes, 48)
        });
    }
    all
}

pub fn hidden_cases(random: &mut Random) -> Vec<Case> {
    let mut all = worked_cases();
    all.extend(refused_cases());
    for at in 0..80 {
        let nodes = if at < 70 { random.between(1, 14) } else { 40 };
        let g = buried(random, 5, nodes, 6);
        all.push(find(&g, 8 * g.nodes));
        all.push(find(&damaged(random, g), 8 * nodes + 24));
    }
    all
}
